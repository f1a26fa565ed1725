use std::fmt;

/// Why a call was refused. The values are the library's answer numbers; where several apply, the lowest is given.
#[derive(Clone, Copy, Debug, PartialEq, Eq, PartialOrd, Ord, Hash)]
#[repr(u32)]
pub enum Error {
    /// Block size, sub-block, plane, w or h out of range, or a partner sub-block that does not exist.
    Block = 1,
    /// `mi_rows`, `mi_cols`, `mi_row`, `mi_col` or the tile out of range.
    Grid = 2,
    /// Target reference frame not 1..=3.
    Target = 3,
    /// Bit depth not 8, 10 or 12.
    Filter = 4,
    /// A width or height not 1..=65536, or a reference that is too large or too small for the frame.
    Size = 5,
    /// x, y, a start, a step or a row out of range.
    Start = 6,
    /// A buffer too short, a stride out of range, or more upper rows than the plane has.
    Short = 7,
    /// A record that the search consulted holds an illegal value.
    Record = 8,
    /// A vector has a component out of range.
    Vector = 9,
}

impl Error {
    /// The answer number, 1 to 9.
    pub fn number(self) -> u32 {
        self as u32
    }
}

impl fmt::Display for Error {
    fn fmt(&self, f: &mut fmt::Formatter<'_>) -> fmt::Result {
        let what = match self {
            Error::Block => "block size, sub-block, plane, width or height out of range",
            Error::Grid => "place or tile out of range",
            Error::Target => "target reference frame not 1 to 3",
            Error::Filter => "filter or bit depth unknown",
            Error::Size => "a frame's or plane's size out of range, or the reference does not fit the frame",
            Error::Start => "a place, start, step or row out of range",
            Error::Short => "a buffer too short or a stride out of range",
            Error::Record => "a consulted record holds an illegal value",
            Error::Vector => "a vector out of range",
        };
        write!(f, "{what} (answer {})", self.number())
    }
}

impl std::error::Error for Error {}

/// The library's answer as a `Result`.
pub(crate) fn judged<T>(answer: u32, value: T) -> Result<T, Error> {
    Err(match answer {
        0 => return Ok(value),
        1 => Error::Block,
        2 => Error::Grid,
        3 => Error::Target,
        4 => Error::Filter,
        5 => Error::Size,
        6 => Error::Start,
        7 => Error::Short,
        8 => Error::Record,
        9 => Error::Vector,
        _ => unreachable!("the library answers 0 to 9, not {answer}"),
    })
}
