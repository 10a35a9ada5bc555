//! Records: every refusal and every border of the reader and the writer, that they undo each other, and captures, that of a run of `Tau`
//! among them.

use aspeyruni::record::{append, read, records, write, Kind, Record, HEADER, MAX, MAX_PAYLOAD};
use aspeyruni::{Refusal, Tau};

const KINDS: [Kind; 4] = [Kind::Pairs, Kind::Output, Kind::Flush, Kind::Reset];

/// In a buffer before it is written to.
const STIR: u8 = 0xA5;

/// No byte is like the one before it, and all occur.
fn payload(len: usize) -> Vec<u8> {
    (0..len).map(|i| (i * 37 + i / 256) as u8).collect()
}

/// A header and its payload, as if they were a record.
fn made(kind: u8, fourth: u8, len: u16) -> Vec<u8> {
    let [low, high] = len.to_le_bytes();
    let header = [0xEC, 0x0E, kind, fourth, low, high];
    [&header[..], &payload(len.into())].concat()
}

/// As the request says it.
fn fits(kind: Kind, len: usize) -> bool {
    let each = match kind {
        Kind::Pairs => len % 8 == 0,
        Kind::Output => len % 4 == 0,
        Kind::Flush | Kind::Reset => len == 0,
    };
    each && len <= 4096
}

/// Every length up to beyond the border, and the largest that a header can say.
fn lengths() -> impl Iterator<Item = usize> {
    (0..=64).chain(4_080..=4_120).chain([8_192, 65_528, 65_535])
}

#[test]
fn the_sizes_are_the_requests() {
    assert_eq!((HEADER, MAX_PAYLOAD, MAX), (6, 4_096, 4_102));
    assert_eq!(KINDS.map(Kind::number), [1, 2, 3, 4]);
}

#[test]
fn a_record_of_any_length_is_read_or_refused() {
    for kind in KINDS {
        for len in lengths() {
            let bytes = made(kind as u8, 0, len as u16);
            let record = Record {
                kind,
                payload: &bytes[HEADER..],
            };
            let expected = if fits(kind, len) {
                Ok(record)
            } else {
                Err(Refusal::Header)
            };
            assert_eq!(read(&bytes), expected, "{kind:?} of {len} bytes");
        }
    }
}

#[test]
fn what_was_read_is_a_part_of_the_bytes() {
    let bytes = made(1, 0, 16);
    let part = read(&bytes).unwrap().payload;
    assert!(std::ptr::eq(part, &bytes[HEADER..]));
}

/// The header is judged before the payload, and of the header the mark before the rest. Without six bytes nothing is judged.
#[test]
fn the_first_refusal_is_given() {
    let good = made(1, 0, 8);
    for count in 0..good.len() {
        assert_eq!(read(&good[..count]), Err(Refusal::Short), "{count} bytes");
        assert!(count >= HEADER || read(&[0; HEADER][..count]) == Err(Refusal::Short));
    }
    for place in [0, 1] {
        for other in [0x00, 0x0D, 0xFF] {
            let mut bytes = made(9, 1, 8);
            bytes[place] = other;
            assert_eq!(read(&bytes), Err(Refusal::Mark), "byte {place} is {other}");
        }
    }
    let exchanged = [0x0E, 0xEC, 1, 0, 0, 0];
    assert_eq!(read(&exchanged), Err(Refusal::Mark));
    for kind in (0..=255).filter(|kind| !(1..=4).contains(kind)) {
        assert_eq!(read(&made(kind, 0, 0)), Err(Refusal::Header), "kind {kind}");
    }
    for fourth in 1..=255 {
        assert_eq!(read(&made(3, fourth, 0)), Err(Refusal::Header), "{fourth}");
    }
    // a length that is too large, and no payload at all
    assert_eq!(read(&made(1, 0, 65_528)[..HEADER]), Err(Refusal::Header));
    assert_eq!(read(&made(1, 0, 4_104)[..HEADER]), Err(Refusal::Header));
    assert_eq!(read(&made(1, 0, 4_096)[..MAX - 1]), Err(Refusal::Short));
}

/// What lies behind the record is not looked at.
#[test]
fn what_was_written_is_read_back() {
    for kind in KINDS {
        for len in lengths().filter(|len| fits(kind, *len)) {
            for behind in [0, 1, 7] {
                let mut out = vec![STIR; HEADER + len + behind];
                assert_eq!(write(kind, &payload(len), &mut out), Ok(HEADER + len));
                assert_eq!(out[..HEADER + len], made(kind as u8, 0, len as u16));
                assert!(out[HEADER + len..].iter().all(|byte| *byte == STIR));
                let record = read(&out).unwrap();
                assert_eq!((record.kind, record.size()), (kind, HEADER + len));
                assert_eq!(record.payload, payload(len));
            }
        }
    }
}

/// A payload that does not fit is refused even where there is no room; and a refused write writes nothing.
#[test]
fn a_refused_write_writes_nothing() {
    for kind in KINDS {
        for len in lengths() {
            let size = HEADER + len;
            for room in [0, HEADER, size - 1, size, size + 1] {
                let expected = match (fits(kind, len), room >= size) {
                    (true, true) => continue,
                    (true, false) => Refusal::Room,
                    (false, _) => Refusal::Header,
                };
                let mut out = vec![STIR; room];
                let answer = write(kind, &payload(len), &mut out);
                assert_eq!(answer, Err(expected), "{kind:?}, {len} bytes, room {room}");
                assert!(
                    out.iter().all(|byte| *byte == STIR),
                    "{kind:?}, {len} bytes"
                );
            }
        }
    }
}

/// Kinds that the enum does not have: none is taken for its lowest byte.
#[test]
fn a_kind_above_a_byte_is_unknown() {
    for kind in [0, 5, 255, 256, 257, 259, 65_539, u32::MAX] {
        let mut out = [STIR; MAX];
        let answer = aspeyruni::raw::record_write(kind, &[], &mut out);
        assert_eq!((answer.refusal, answer.written), (8, 0), "kind {kind}");
        assert_eq!(out, [STIR; MAX]);
    }
}

/// On a refusal there is no kind, no size and no part.
#[test]
fn a_refused_read_finds_nothing() {
    for bytes in [&[][..], &[0; 6], &made(7, 0, 0), &made(1, 0, 8)[..13]] {
        let found = aspeyruni::raw::record_read(bytes);
        assert_ne!(found.refusal, 0);
        assert_eq!((found.kind, found.size), (0, 0));
        assert_eq!((found.payload_at, found.payload_len), (0, 0));
    }
}

#[test]
fn bytes_of_a_nan_stay_as_they_are() {
    let signalling = [0x01, 0x00, 0x80, 0x7F];
    let mut capture = Vec::new();
    append(&mut capture, Kind::Output, &signalling).unwrap();
    let record = read(&capture).unwrap();
    assert_eq!(record.payload, signalling);
    assert!(record.samples().all(f32::is_nan));
}

#[test]
fn a_capture_is_its_records() {
    let written: Vec<(Kind, Vec<u8>)> = KINDS
        .into_iter()
        .flat_map(|kind| {
            let fitting = lengths().filter(move |len| fits(kind, *len));
            fitting.map(move |len| (kind, payload(len)))
        })
        .collect();
    let (mut capture, mut places) = (Vec::new(), Vec::new());
    for (kind, payload) in &written {
        places.push(capture.len());
        let size = append(&mut capture, *kind, payload).unwrap();
        assert_eq!(size, HEADER + payload.len());
    }
    let found = records(&capture).map(|(place, record)| (place, record.unwrap()));
    let (at, found): (Vec<_>, Vec<_>) = found.unzip();
    assert_eq!(at, places);
    let expected = written.iter().map(|(kind, payload)| Record {
        kind: *kind,
        payload,
    });
    assert!(found.into_iter().eq(expected));
}

/// Cut at any byte a capture gives the records before the cut, and then one refusal, unless the cut is between two records.
#[test]
fn a_capture_that_is_cut_ends_in_one_refusal() {
    let mut capture = Vec::new();
    let mut ends = vec![0];
    for (kind, len) in [
        (Kind::Pairs, 16),
        (Kind::Output, 0),
        (Kind::Flush, 0),
        (Kind::Output, 4),
    ] {
        append(&mut capture, kind, &payload(len)).unwrap();
        ends.push(capture.len());
    }
    for count in 0..=capture.len() {
        let mut found = records(&capture[..count]);
        let whole = ends.iter().filter(|end| **end <= count).count() - 1;
        let read = found.by_ref().take(whole);
        assert!(read
            .map(|(place, record)| (place, record.is_ok()))
            .eq(ends[..whole].iter().map(|end| (*end, true))));
        let last = ends[whole];
        let refusal = (last < count).then_some((last, Err(Refusal::Short)));
        assert_eq!(found.next(), refusal, "cut at {count}");
        assert_eq!(found.next(), None);
        assert_eq!(found.next(), None);
    }
}

#[test]
fn nothing_is_read_behind_a_refusal() {
    let mut capture = made(3, 0, 0);
    capture.extend([0; HEADER]);
    capture.extend(made(4, 0, 0));
    let found: Vec<_> = records(&capture)
        .map(|(place, record)| (place, record.err()))
        .collect();
    assert_eq!(found, [(0, None), (6, Some(Refusal::Mark))]);
}

#[test]
fn a_refused_append_leaves_the_capture() {
    let mut capture = made(3, 0, 0);
    assert_eq!(
        append(&mut capture, Kind::Pairs, &payload(4)),
        Err(Refusal::Header)
    );
    assert_eq!(
        append(&mut capture, Kind::Output, &payload(4_100)),
        Err(Refusal::Header)
    );
    assert_eq!(capture, made(3, 0, 0));
}

/// The program's own capture of pairs, run by 512 and recorded: of the records the pairs are what went in, and the output is what the
/// program writes.
#[test]
fn a_recorded_run_holds_its_pairs_and_its_output() {
    const PAIRS: &[u8] = include_bytes!("../../crates/aec/stdin");
    const SAMPLES: &[u8] = include_bytes!("../../crates/aec/stdout");
    let mut tau = Tau::new(4, true).unwrap();
    let mut out = vec![0.0; Tau::room(512)];
    let bytes = |samples: &[f32]| {
        samples
            .iter()
            .flat_map(|x| x.to_le_bytes())
            .collect::<Vec<u8>>()
    };
    let mut capture = Vec::new();
    for part in PAIRS.chunks(MAX_PAYLOAD) {
        append(&mut capture, Kind::Pairs, part).unwrap();
        let last = capture.len() - part.len() - HEADER;
        let heard: Vec<f32> = read(&capture[last..]).unwrap().samples().collect();
        let (near, far): (Vec<f32>, Vec<f32>) =
            heard.chunks_exact(2).map(|pair| (pair[0], pair[1])).unzip();
        let report = tau.process(&near, &far, &mut out).unwrap();
        append(&mut capture, Kind::Output, &bytes(&out[..report.delivered])).unwrap();
    }
    append(&mut capture, Kind::Flush, &[]).unwrap();
    let report = tau.flush(&mut out).unwrap();
    append(&mut capture, Kind::Output, &bytes(&out[..report.delivered])).unwrap();

    let of = |kind| {
        let read = records(&capture).map(|(_, record)| record.unwrap());
        let parts: Vec<&[u8]> = read
            .filter(|record| record.kind == kind)
            .map(|record| record.payload)
            .collect();
        parts.concat()
    };
    assert!(
        of(Kind::Pairs) == PAIRS,
        "the pairs are not those that went in"
    );
    assert!(
        of(Kind::Output) == SAMPLES,
        "the output is not the program's"
    );
}
