//! The list of records. What the letters and fields of a line are: oracle/record_cases.rs, which has the answers from the request's text.

use crate::inputs::{hash8, noise8};
use crate::line::{lines, Line};
use crate::Owned;
use aspeyruni::raw::{record_read, record_write};
use aspeyruni::record::{read, write, Kind};

const LIST: &str = include_str!("../../../crates/record_cases/stdin");

/// The buffer of which a line lends the first part, and the seed of what it holds before.
const PLACES: usize = 4112;
const BEFORE: u64 = 0x2545_f491_4f6c_dd1d;

/// The crate's kinds, of which a line may have another: there is no such call then.
const KINDS: [Kind; 4] = [Kind::Pairs, Kind::Output, Kind::Flush, Kind::Reset];

#[test]
fn every_line_comes_to_its_answer() {
    let lines = lines(LIST, 6);
    let mut owned = Owned::default();
    for line in &lines {
        match line.letter {
            'r' | 'k' | 's' | 'p' => reads(line, &mut owned),
            'R' | 'W' | 'B' => writes(line, &mut owned),
            letter => panic!("line {}: no call is {letter}", line.number),
        }
    }
    assert_eq!(lines.len(), 4218);
    let expected = Owned {
        taken: 2946,
        refused: 1272,
    };
    assert_eq!(owned, expected);
}

/// Noise, but for the bytes in front.
fn made(front: &[u8], seed: u64, count: usize) -> Vec<u8> {
    let mut bytes = noise8(seed, count);
    for (byte, given) in bytes.iter_mut().zip(front) {
        *byte = *given;
    }
    bytes
}

fn reads(line: &Line, owned: &mut Owned) {
    let [header, count, shown, seed, ..] = line.fields[..] else {
        unreachable!("a line has six fields");
    };
    let front = [&header.to_be_bytes()[2..], &shown.to_be_bytes()].concat();
    let bytes = made(&front, seed, count as usize);

    let found = record_read(&bytes);
    let part = &bytes[found.payload_at..][..found.payload_len];
    let answer = [found.refusal.into(), found.kind.into(), found.size as u64];
    compare(
        line,
        "raw",
        "rksp",
        [answer[0], answer[1], answer[2], hash8(part)],
    );

    let answer = match read(&bytes) {
        Ok(record) => [
            0,
            record.kind as u64,
            record.size() as u64,
            hash8(record.payload),
        ],
        Err(refusal) => [refusal as u64, 0, 0, hash8(&[])],
    };
    compare(line, "record", "rksp", answer);
    owned.taken += 1;
}

fn writes(line: &Line, owned: &mut Owned) {
    let [number, length, shown, seed, room, _] = line.fields[..] else {
        unreachable!("a line has six fields");
    };
    let (number, room) = (number as u32, room as usize);
    let payload = made(&shown.to_be_bytes(), seed, length as usize);

    let mut buffer = noise8(BEFORE, PLACES);
    let answer = record_write(number, &payload, &mut buffer[..room]);
    let told = [answer.refusal.into(), answer.written as u64, hash8(&buffer)];
    compare(line, "raw", "RWB", told);

    let Some(kind) = KINDS.into_iter().find(|kind| kind.number() == number) else {
        owned.refused += 1;
        return;
    };
    let mut buffer = noise8(BEFORE, PLACES);
    let (refusal, written) = match write(kind, &payload, &mut buffer[..room]) {
        Ok(written) => (0, written),
        Err(refusal) => (refusal as u64, 0),
    };
    compare(
        line,
        "record",
        "RWB",
        [refusal, written as u64, hash8(&buffer)],
    );
    owned.taken += 1;
}

/// Of the answers that the letters stand for, the line has one.
fn compare<const N: usize>(line: &Line, by: &str, letters: &str, answers: [u64; N]) {
    let asked = letters.find(line.letter).expect("one of these letters");
    line.compare(by, 5, &[answers[asked]]);
}
