use crate::Tree;

/// The best codes from each of some sources to each of some targets.
#[derive(Clone, Debug, PartialEq, Eq)]
pub struct Table {
    /// The codes, a row for each source; [`Tree::UNREACHED`] for a target to which no walk has a value.
    pub codes: Vec<u64>,
    /// How many targets there are, which is the length of a row.
    pub targets: usize,
}

impl Table {
    /// The code from one of the sources to one of the targets, both counted from 0; none if no walk has a value, or if there is
    /// no such source or target.
    pub fn code(&self, source: usize, target: usize) -> Option<u64> {
        let place = source.checked_mul(self.targets)?.checked_add(target)?;
        let code = *self.codes.get(place).filter(|_| target < self.targets)?;
        (code != Tree::UNREACHED).then_some(code)
    }
}
