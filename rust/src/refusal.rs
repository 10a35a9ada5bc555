//! Why a call is refused, by the library's numbers.

use std::error::Error;
use std::fmt;

/// Why a call is refused. A refused call delivers nothing and changes nothing.
#[derive(Clone, Copy, Debug, PartialEq, Eq, Hash)]
pub enum Refusal {
    /// A setting is outside its range.
    Setting = 1,
    /// A buffer has not exactly the length that the state's settings ask for.
    Buffer = 2,
    /// Near and far have different lengths.
    Lengths = 3,
    /// There are more than [`MAX_PAIRS`](crate::MAX_PAIRS) pairs in one call.
    Pairs = 4,
    /// The output buffer is shorter than what the call would deliver, or than the record.
    Room = 5,
    /// A state has a number outside its range.
    State = 6,
    /// The bytes do not begin with a record's mark.
    Mark = 7,
    /// A record of an unknown kind, with a payload that is too long or has not a length of its kind, or with a fourth byte that is not
    /// zero.
    Header = 8,
    /// Fewer bytes than a record's header has, or than the header says.
    Short = 9,
}

impl Refusal {
    /// The library's number for it, as [`raw`](crate::raw) answers it.
    #[must_use]
    pub const fn number(self) -> u32 {
        self as u32
    }
}

impl fmt::Display for Refusal {
    fn fmt(&self, f: &mut fmt::Formatter<'_>) -> fmt::Result {
        f.write_str(match self {
            Refusal::Setting => "a setting is outside its range",
            Refusal::Buffer => "a lent buffer has not exactly the needed length",
            Refusal::Lengths => "near and far have different lengths",
            Refusal::Pairs => "there are more than 4,096 pairs in one call",
            Refusal::Room => "the output buffer is shorter than what the call would deliver",
            Refusal::State => "the state has a number outside its range",
            Refusal::Mark => "the bytes do not begin with a record's mark",
            Refusal::Header => "no record has such a header",
            Refusal::Short => "there are fewer bytes than the record has",
        })
    }
}

impl Error for Refusal {}

/// By the number that the library answered, of which 0 is none.
pub(crate) fn accepted(number: u32) -> Result<(), Refusal> {
    Err(match number {
        0 => return Ok(()),
        1 => Refusal::Setting,
        2 => Refusal::Buffer,
        3 => Refusal::Lengths,
        4 => Refusal::Pairs,
        5 => Refusal::Room,
        6 => Refusal::State,
        7 => Refusal::Mark,
        8 => Refusal::Header,
        9 => Refusal::Short,
        _ => unreachable!("the library has no refusal {number}"),
    })
}
