/// For each vertex what is best from the nearest of some sources. The line of vertex v is in place v - 1 of each list.
#[derive(Clone, Debug, PartialEq, Eq)]
pub struct Tree {
    /// The best codes; [`Tree::UNREACHED`] for a vertex to which no walk has a value.
    pub codes: Vec<u64>,
    /// The least hops.
    pub hops: Vec<u32>,
    /// The least parents; 0 for a source and for an unreached vertex.
    pub parents: Vec<u32>,
}

/// The line of one vertex that is reached.
#[derive(Clone, Copy, Debug, PartialEq, Eq)]
pub struct Label {
    /// The best code.
    pub code: u64,
    /// The least hops.
    pub hops: u32,
    /// The least parent; none for a source.
    pub parent: Option<u32>,
}

impl Label {
    fn of(code: u64, hops: u32, parent: u32) -> Label {
        Label { code, hops, parent: (parent != 0).then_some(parent) }
    }
}

impl Tree {
    /// The code of an unreached vertex.
    pub const UNREACHED: u64 = u64::MAX;

    /// A tree for so many vertices, all unreached.
    pub(crate) fn unreached(vertices: usize) -> Tree {
        Tree { codes: vec![Tree::UNREACHED; vertices], hops: vec![0; vertices], parents: vec![0; vertices] }
    }

    /// What is best at a vertex; none if it is unreached or not a vertex.
    pub fn label(&self, vertex: u32) -> Option<Label> {
        let place = usize::try_from(vertex).ok()?.checked_sub(1)?;
        let (&code, &hops, &parent) = (self.codes.get(place)?, self.hops.get(place)?, self.parents.get(place)?);
        (code != Tree::UNREACHED).then_some(Label::of(code, hops, parent))
    }

    /// The line of each place.
    pub(crate) fn labels(self) -> impl Iterator<Item = Label> {
        let lines = self.codes.into_iter().zip(self.hops).zip(self.parents);
        lines.map(|((code, hops), parent)| Label::of(code, hops, parent))
    }
}

/// The first vertex whose line in a tree is refuted, and the first reason.
#[derive(Clone, Copy, Debug, PartialEq, Eq)]
pub struct Wrong {
    /// The vertex.
    pub vertex: u32,
    /// The reason.
    pub reason: Reason,
}

/// Why the line of a vertex is wrong: the numbers of the program's checker.
#[derive(Clone, Copy, Debug, PartialEq, Eq)]
#[non_exhaustive]
pub enum Reason {
    /// A source does not have the code of no arcs, 0 hops and parent 0.
    NotASourceLine = 1,
    /// An arc gives a better value.
    NotBest = 2,
    /// The code is that of no value, or the parent does not give this value.
    NoParent = 3,
    /// The hops are not one more than the parent's, or a vertex gives the value with fewer.
    OtherHops = 4,
    /// A lesser vertex could be the parent.
    LesserParent = 5,
    /// The vertex is reported unreached, and an arc gives it a value.
    HasWalk = 6,
    /// A number that this version of the wrapper does not know.
    Other = 0,
}

impl From<u32> for Reason {
    fn from(number: u32) -> Reason {
        use Reason::*;
        [NotASourceLine, NotBest, NoParent, OtherHops, LesserParent, HasWalk]
            .into_iter()
            .find(|&reason| reason as u32 == number)
            .unwrap_or(Other)
    }
}
