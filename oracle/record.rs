//! Records (request K1) a second time: written from the request's text, and from nothing of the port. The list record_cases, the captures
//! of records and the driver `records` take their answers from here.

#![allow(dead_code)] // a driver uses a part

pub const MARK: [u8; 2] = [0xec, 0x0e];
pub const HEADER: usize = 6;
pub const MOST_PAYLOAD: usize = 4096;

pub const PAIRS: u32 = 1;
pub const OUTPUT: u32 = 2;
pub const FLUSH: u32 = 3;
pub const RESET: u32 = 4;

/// The record at the front of some bytes. Where it is refused kind and size are 0, and the part is empty.
#[derive(Clone, Copy, Debug, PartialEq)]
pub struct Read<'a> {
    pub refusal: u32,
    pub kind: u32,
    pub size: usize,
    pub part: &'a [u8],
}

/// What was written: nothing where it is refused.
#[derive(Clone, Debug, PartialEq)]
pub struct Written {
    pub refusal: u32,
    pub bytes: Vec<u8>,
}

/// A record of a capture, and where it starts there.
#[derive(Clone, Copy, Debug, PartialEq)]
pub struct Placed<'a> {
    pub place: usize,
    pub kind: u32,
    pub payload: &'a [u8],
}

/// As many records as can be read, and then the first refusal with its place, if there is one.
#[derive(Debug, PartialEq)]
pub struct Records<'a> {
    pub records: Vec<Placed<'a>>,
    pub refusal: Option<(u32, usize)>,
}

/// "Kind 1 holds pairs (8 bytes each), 2 output samples (4 each), 3 flush and 4 reset (both empty)", in a payload "of at most 4,096".
pub fn fits(kind: u32, length: usize) -> bool {
    let fits_kind = match kind {
        PAIRS => length % 8 == 0,
        OUTPUT => length % 4 == 0,
        FLUSH | RESET => length == 0,
        _ => false,
    };
    fits_kind && length <= MOST_PAYLOAD
}

/// "9 for fewer than six bytes, then 7 for a wrong mark, 8 for a non-zero fourth byte, unknown kind or a length over 4,096 or not fitting
/// the kind, 9 for a short payload". Bytes behind the record are not looked at.
pub fn read(bytes: &[u8]) -> Read<'_> {
    let refused = |refusal| Read {
        refusal,
        kind: 0,
        size: 0,
        part: &[],
    };
    let Some((header, behind)) = bytes.split_first_chunk::<HEADER>() else {
        return refused(9);
    };
    let [mark, mark2, kind, zero, low, high] = *header;
    if [mark, mark2] != MARK {
        return refused(7);
    }
    let length = usize::from(u16::from_le_bytes([low, high]));
    if zero != 0 || !fits(kind.into(), length) {
        return refused(8);
    }
    let Some(part) = behind.get(..length) else {
        return refused(9);
    };
    Read {
        refusal: 0,
        kind: kind.into(),
        size: HEADER + length,
        part,
    }
}

/// "the writer gives 8, then 5", this where the output has fewer places than the record takes.
pub fn write(kind: u32, payload: &[u8], room: usize) -> Written {
    let refused = |refusal| Written {
        refusal,
        bytes: Vec::new(),
    };
    if !fits(kind, payload.len()) {
        return refused(8);
    }
    if room < HEADER + payload.len() {
        return refused(5);
    }
    let [low, high] = (payload.len() as u16).to_le_bytes();
    let header = [MARK[0], MARK[1], kind as u8, 0, low, high];
    Written {
        refusal: 0,
        bytes: [&header, payload].concat(),
    }
}

/// With no bytes left there is no record to refuse: an empty capture has none, and none is missing where one ends with the bytes.
pub fn records(bytes: &[u8]) -> Records<'_> {
    let mut records = Vec::new();
    let mut place = 0;
    while place < bytes.len() {
        let read = read(&bytes[place..]);
        if read.refusal != 0 {
            return Records {
                records,
                refusal: Some((read.refusal, place)),
            };
        }
        records.push(Placed {
            place,
            kind: read.kind,
            payload: read.part,
        });
        place += read.size;
    }
    Records {
        records,
        refusal: None,
    }
}
