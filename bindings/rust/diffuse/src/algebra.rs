/// What is best, and what a code is.
#[derive(Clone, Copy, Debug, PartialEq, Eq)]
pub enum Algebra {
    /// The least sum of weights. The code is the sum, in the unit of the weights, at most 2^63.
    Shortest,
    /// The greatest least weight. The code is that weight, and 2^32 at a source.
    Widest,
    /// Any walk. The code is 0.
    Reach,
    /// The fewest arcs. The code is their number.
    Hops,
    /// The greatest product of probabilities. A weight is in millionths, the code in parts of 10^12.
    Reliable,
    /// The least sum of weights that is at most this limit, which is at most 2^63. The code is the sum.
    Within(u64),
}

impl Algebra {
    /// The number by which the C interface knows it, and the limit.
    pub(crate) fn number_and_limit(self) -> (u32, u64) {
        match self {
            Algebra::Shortest => (0, 0),
            Algebra::Widest => (1, 0),
            Algebra::Reach => (2, 0),
            Algebra::Hops => (3, 0),
            Algebra::Reliable => (4, 0),
            Algebra::Within(limit) => (5, limit),
        }
    }
}
