use std::fmt;

/// Why a call was refused. A refused call changes nothing.
#[derive(Clone, Copy, Debug, PartialEq, Eq)]
#[non_exhaustive]
pub enum Error {
    /// There is not enough memory.
    Memory,
    /// A source, a target or an end of an arc is not a vertex of the graph.
    NoVertex,
    /// More than 2^25 vertices or 2^27 arcs.
    TooLarge,
    /// The limit of [`Algebra::Within`](crate::Algebra::Within) is above 2^63.
    LimitTooGreat,
    /// A tree to be checked does not have a line for each vertex, or a list of places one for each.
    OtherSize,
    /// The graph is not factored: factors would need too many links, since it has no small separators.
    TooDense,
    /// The graph is not factored: its weights are so great that a sum with its arcs may not fit into 63 bits.
    TooHeavy,
    /// The algebra has no factors.
    NoFactors,
    /// An arc joins vertices between which the factors have no link.
    NoLink,
    /// The stop of the graph was set before the call was done.
    Stopped,
    /// The arcs that were to be numbered are not those of the graph.
    OtherArcs,
    /// The arcs of the graph were not numbered.
    NoNumbers,
    /// A list of places in an order does not have each place once.
    NoOrder,
    /// A text is longer than 2^32 bytes.
    TextTooLong,
    /// The first fault of a text, and its line, counted from 1.
    Text {
        /// Which rule is broken.
        fault: TextFault,
        /// The line, counted from 1.
        line: u64,
    },
    /// A status that this version of the wrapper does not know.
    Other(i32),
}

/// Which rule of the .gr format a text breaks.
#[derive(Clone, Copy, Debug, PartialEq, Eq)]
pub enum TextFault {
    /// A line before the problem line, or no problem line.
    NoProblem = 10,
    /// A second problem line.
    SecondProblem = 11,
    /// A problem line that is not `p sp VERTICES ARCS`.
    BadProblem = 12,
    /// A line that begins with none of c, p and a.
    UnknownLine = 13,
    /// An arc line with another number of fields than four.
    Fields = 14,
    /// A field that should be a number and is none.
    NotANumber = 15,
    /// A number above its limit.
    Limit = 16,
    /// An end of an arc is not a vertex.
    NoVertex = 17,
    /// More arc lines than announced.
    TooMany = 18,
    /// Fewer arc lines than announced.
    TooFew = 19,
}

impl TextFault {
    const ALL: [TextFault; 10] = {
        use TextFault::*;
        [NoProblem, SecondProblem, BadProblem, UnknownLine, Fields, NotANumber, Limit, NoVertex, TooMany, TooFew]
    };
}

/// The error of a status, if it is one.
pub(crate) fn done(status: i32) -> Result<(), Error> {
    Err(match status {
        0 => return Ok(()),
        2 => Error::OtherSize,
        3 => Error::Memory,
        7 => Error::TooDense,
        8 => Error::TooHeavy,
        9 => Error::NoFactors,
        16 => Error::TooLarge,
        17 => Error::NoVertex,
        43 => Error::LimitTooGreat,
        44 => Error::NoLink,
        45 => Error::Stopped,
        46 => Error::OtherArcs,
        47 => Error::NoNumbers,
        48 => Error::NoOrder,
        other => Error::Other(other),
    })
}

/// The error of a status of reading a text, if it is one.
pub(crate) fn read(status: i32, line: u64) -> Result<(), Error> {
    match TextFault::ALL.into_iter().find(|&fault| fault as i32 == status) {
        Some(fault) => Err(Error::Text { fault, line }),
        None if status == 2 => Err(Error::TextTooLong),
        None => done(status),
    }
}

impl fmt::Display for Error {
    fn fmt(&self, out: &mut fmt::Formatter<'_>) -> fmt::Result {
        match self {
            Error::Memory => out.write_str("out of memory"),
            Error::NoVertex => out.write_str("not a vertex of the graph"),
            Error::TooLarge => out.write_str("more than 2^25 vertices or 2^27 arcs"),
            Error::LimitTooGreat => out.write_str("a limit above 2^63"),
            Error::OtherSize => out.write_str("not one line, or one place, for each vertex"),
            Error::TooDense => out.write_str("factors would need too many links: no small separators"),
            Error::TooHeavy => out.write_str("weights that are too great for factors"),
            Error::NoFactors => out.write_str("an algebra without factors"),
            Error::NoLink => out.write_str("an arc between vertices between which the factors have no link"),
            Error::Stopped => out.write_str("stopped before there was an answer"),
            Error::OtherArcs => out.write_str("arcs that are not those of the graph"),
            Error::NoNumbers => out.write_str("a graph whose arcs were not numbered"),
            Error::NoOrder => out.write_str("a list that does not have each place once"),
            Error::TextTooLong => out.write_str("a text of more than 2^32 bytes"),
            Error::Text { fault, line } => write!(out, "fault {} in line {line}", *fault as i32),
            Error::Other(status) => write!(out, "status {status}"),
        }
    }
}

impl std::error::Error for Error {}
