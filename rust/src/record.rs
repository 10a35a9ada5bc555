//! Records, of which a capture is made: what went into an engine's calls and what came out, with each flush and each reset at its place.
//!
//! A record is a header of six bytes and a payload: the mark `EC 0E`, the [`Kind`], a zero byte, and the payload's length, least byte
//! first. A capture of records is bytes, record behind record. Bytes stay bytes: a payload comes back as it went in, a NaN with the bits
//! that it had.
//!
//! ```
//! use aspeyruni::record::{append, records, Kind};
//! use aspeyruni::Refusal;
//!
//! # fn main() -> Result<(), Refusal> {
//! let mut capture = Vec::new();
//! append(&mut capture, Kind::Output, &0.5f32.to_le_bytes())?;
//! append(&mut capture, Kind::Flush, &[])?;
//! capture.push(0xEC); // the box was switched off while it wrote
//!
//! let mut lines = Vec::new();
//! for (place, record) in records(&capture) {
//!     lines.push(match record {
//!         Ok(record) => format!("{place}: {:?}, {} bytes", record.kind, record.payload.len()),
//!         Err(refusal) => format!("{place}: {refusal}"),
//!     });
//! }
//! assert_eq!(lines[..2], ["0: Output, 4 bytes", "10: Flush, 0 bytes"]);
//! assert_eq!(lines[2], format!("16: {}", Refusal::Short));
//! # Ok(())
//! # }
//! ```

use crate::raw::{record_read, record_write};
use crate::refusal::{accepted, Refusal};
use std::iter::FusedIterator;

pub use crate::raw::{
    RECORD_HEADER as HEADER, RECORD_MAX as MAX, RECORD_MAX_PAYLOAD as MAX_PAYLOAD,
};

/// What a record is of.
#[derive(Clone, Copy, Debug, PartialEq, Eq, Hash)]
pub enum Kind {
    /// Pairs that went into a call, near then far: eight bytes each, at most 512 of them, or none.
    Pairs = 1,
    /// Samples that a call delivered: four bytes each, at most 1,024 of them, or none.
    Output = 2,
    /// A flush. It has no payload.
    Flush = 3,
    /// A reset. It has no payload.
    Reset = 4,
}

impl Kind {
    /// The byte that a header has for it, as [`raw`](crate::raw) takes and answers it.
    #[must_use]
    pub const fn number(self) -> u32 {
        self as u32
    }

    fn of(number: u32) -> Kind {
        match number {
            1 => Kind::Pairs,
            2 => Kind::Output,
            3 => Kind::Flush,
            4 => Kind::Reset,
            _ => unreachable!("the library has no kind {number}"),
        }
    }
}

/// A record that was read.
#[derive(Clone, Copy, Debug, PartialEq, Eq, Hash)]
pub struct Record<'a> {
    /// What it is of.
    pub kind: Kind,
    /// Its payload, which is a part of the bytes that were read.
    pub payload: &'a [u8],
}

impl<'a> Record<'a> {
    /// How many bytes it takes up, header and payload: the next one begins so many behind it.
    #[must_use]
    pub const fn size(&self) -> usize {
        HEADER + self.payload.len()
    }

    /// The samples in the payload. Of pairs they are near and far in turn.
    pub fn samples(&self) -> impl ExactSizeIterator<Item = f32> + 'a {
        let parts = self.payload.chunks_exact(4);
        parts.map(|b| f32::from_le_bytes([b[0], b[1], b[2], b[3]]))
    }
}

/// The record that the bytes begin with. What lies behind it is not looked at.
///
/// It is refused with [`Refusal::Short`] for fewer than six bytes, whatever they are, and so for none at all; then with [`Refusal::Mark`],
/// then [`Refusal::Header`], and then [`Refusal::Short`] where the payload is not all there.
///
/// ```
/// use aspeyruni::record::{read, Kind};
///
/// let bytes = [0xEC, 0x0E, 2, 0, 4, 0, 0x01, 0x00, 0x80, 0x7F, 99];
/// let record = read(&bytes).unwrap();
/// assert_eq!((record.kind, record.size()), (Kind::Output, 10));
/// assert_eq!(record.payload, &bytes[6..10]);
/// ```
pub fn read(bytes: &[u8]) -> Result<Record<'_>, Refusal> {
    let found = record_read(bytes);
    accepted(found.refusal)?;
    Ok(Record {
        kind: Kind::of(found.kind),
        payload: &bytes[found.payload_at..][..found.payload_len],
    })
}

/// Writes a record to the first places of `out` and says how many these are, which is [`MAX`] at most. The others stay as they were.
///
/// It is refused with [`Refusal::Header`] where the payload has more than [`MAX_PAYLOAD`] bytes or not a length of its kind, and then with
/// [`Refusal::Room`]. Then nothing is written.
pub fn write(kind: Kind, payload: &[u8], out: &mut [u8]) -> Result<usize, Refusal> {
    let answer = record_write(kind.number(), payload, out);
    accepted(answer.refusal)?;
    Ok(answer.written)
}

/// Writes a record behind what a capture already has, and says how many bytes it takes up. It is refused with [`Refusal::Header`] as
/// [`write()`] is, and the capture then stays as it was.
pub fn append(capture: &mut Vec<u8>, kind: Kind, payload: &[u8]) -> Result<usize, Refusal> {
    let mut record = [0; MAX];
    let size = write(kind, payload, &mut record)?;
    capture.extend_from_slice(&record[..size]);
    Ok(size)
}

/// The records of a capture, each with its byte place. Where one is refused its refusal comes with its place, and nothing comes after it:
/// where a next record would begin is not known. An empty capture has no record and no refusal.
pub const fn records(capture: &[u8]) -> Records<'_> {
    Records {
        rest: capture,
        place: 0,
    }
}

/// What [`records`] gives.
#[derive(Clone, Debug)]
#[must_use = "it reads nothing until it is asked"]
pub struct Records<'a> {
    rest: &'a [u8],
    /// Of the rest in the capture.
    place: usize,
}

impl<'a> Iterator for Records<'a> {
    type Item = (usize, Result<Record<'a>, Refusal>);

    fn next(&mut self) -> Option<Self::Item> {
        if self.rest.is_empty() {
            return None;
        }
        let (place, record) = (self.place, read(self.rest));
        let size = record.map_or(self.rest.len(), |record| record.size());
        self.rest = &self.rest[size..];
        self.place += size;
        Some((place, record))
    }
}

impl FusedIterator for Records<'_> {}
