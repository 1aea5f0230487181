//! The text of each refusal.
use diffuse::{Error, TextFault};

#[test]
fn the_text_of_each_error() {
    for (error, text) in [
        (Error::Memory, "out of memory"),
        (Error::NoVertex, "not a vertex of the graph"),
        (Error::TooLarge, "more than 2^25 vertices or 2^27 arcs"),
        (Error::LimitTooGreat, "a limit above 2^63"),
        (Error::OtherSize, "not one line, or one place, for each vertex"),
        (Error::TooDense, "factors would need too many links: no small separators"),
        (Error::TooHeavy, "weights that are too great for factors"),
        (Error::NoFactors, "an algebra without factors"),
        (Error::NoLink, "an arc between vertices between which the factors have no link"),
        (Error::Stopped, "stopped before there was an answer"),
        (Error::OtherArcs, "arcs that are not those of the graph"),
        (Error::NoNumbers, "a graph whose arcs were not numbered"),
        (Error::NoOrder, "a list that does not have each place once"),
        (Error::TextTooLong, "a text of more than 2^32 bytes"),
        (Error::Text { fault: TextFault::NoProblem, line: 1 }, "fault 10 in line 1"),
        (Error::Text { fault: TextFault::SecondProblem, line: 2 }, "fault 11 in line 2"),
        (Error::Text { fault: TextFault::BadProblem, line: 3 }, "fault 12 in line 3"),
        (Error::Text { fault: TextFault::UnknownLine, line: 4 }, "fault 13 in line 4"),
        (Error::Text { fault: TextFault::Fields, line: 5 }, "fault 14 in line 5"),
        (Error::Text { fault: TextFault::NotANumber, line: 6 }, "fault 15 in line 6"),
        (Error::Text { fault: TextFault::Limit, line: 7 }, "fault 16 in line 7"),
        (Error::Text { fault: TextFault::NoVertex, line: 8 }, "fault 17 in line 8"),
        (Error::Text { fault: TextFault::TooMany, line: 9 }, "fault 18 in line 9"),
        (Error::Text { fault: TextFault::TooFew, line: 1 << 32 }, "fault 19 in line 4294967296"),
        (Error::Other(48), "status 48"),
    ] {
        assert_eq!(error.to_string(), text);
    }
}
