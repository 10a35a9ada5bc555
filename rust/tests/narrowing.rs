//! Narrowing, as `raw` has it: one number, its bits, its kind, and a list with its count.

use aspeyruni::raw;
use aspeyruni::raw::kind::{EXACT, OVER, ROUNDED};

/// An end of each way of rounding: a tie, the largest that is no infinity, the least normal one, subnormal ones, zeros.
const NUMBERS: [f64; 10] = [
    1.0 + 1.0 / (1 << 24) as f64,
    -1.0 - 3.0 / (1 << 24) as f64,
    3.402_823_567_797_336_4e38,
    3.402_823_567_797_336_6e38,
    1.175_494_350_822_287_5e-38,
    1e-40,
    -7e-46,
    0.0,
    -0.0,
    f64::NEG_INFINITY,
];

#[test]
fn one_number_is_narrowed_as_rust_does() {
    for x in NUMBERS {
        assert_eq!(raw::narrow(x).to_bits(), (x as f32).to_bits(), "{x:e}");
        assert_eq!(raw::narrow_bits(x), (x as f32).to_bits(), "{x:e}");
    }
    assert!(raw::narrow(f64::NAN).is_nan());
    assert_eq!(raw::narrow_bits(-f64::NAN), 0x7fc0_0000);
}

/// The least that goes over, 2^128 - 2^103, and the number before it.
const LEAST_OVER: f64 = (((1 << 25) - 1) * (1u128 << 103)) as f64;
const BELOW: f64 = LEAST_OVER - (1u128 << 75) as f64;

/// The f32 next to zero, 2^-149, and half of it.
const LEAST: f64 = 1.0 / (1u128 << 127) as f64 / (1 << 22) as f64;
const HALF: f64 = LEAST / 2.0;

const KINDS: [(f64, u32); 15] = [
    (0.0, EXACT),
    (-0.0, EXACT),
    (1.0, EXACT),
    (LEAST, EXACT),
    (f32::MAX as f64, EXACT),
    (f64::INFINITY, EXACT),
    (f64::NEG_INFINITY, EXACT),
    (f64::NAN, EXACT),
    (HALF, ROUNDED),
    (-HALF, ROUNDED),
    (0.1, ROUNDED),
    (BELOW, ROUNDED),
    (LEAST_OVER, OVER),
    (-LEAST_OVER, OVER),
    (f64::MAX, OVER),
];

#[test]
fn a_number_has_its_kind() {
    let bits = [LEAST_OVER, BELOW, LEAST].map(f64::to_bits);
    assert_eq!(
        bits,
        [0x47efffff_f0000000, 0x47efffff_efffffff, 0x36a << 52]
    );
    assert_eq!([EXACT, ROUNDED, OVER], [0, 1, 2]);
    for (x, kind) in KINDS {
        assert_eq!(raw::narrow_kind(x), kind, "{x:e}");
        let is_over = x.is_finite() && raw::narrow(x).is_infinite();
        assert_eq!(is_over, kind == OVER, "{x:e}");
    }
    assert_eq!(raw::narrow(BELOW), f32::MAX);
    assert_eq!(raw::narrow_bits(-HALF), 1 << 31);
}

/// Wherever in a group of 32 it stands, and behind the groups; a number past the end of either buffer does not count.
#[test]
fn a_list_counts_what_went_over() {
    for place in 0..70 {
        let mut list = [0.5; 70];
        list[place] = -LEAST_OVER;
        for room in [0, 31, 32, 69, 70, 75] {
            let overs = raw::narrow_list(&list, &mut vec![0.0; room]);
            assert_eq!(overs, usize::from(place < room), "{place}, {room}");
        }
        list[place] = BELOW;
        assert_eq!(raw::narrow_list(&list, &mut [0.0; 70]), 0, "{place}");
    }
    for (x, kind) in KINDS {
        let overs = raw::narrow_list(&[x; 70], &mut [0.0; 70]);
        assert_eq!(overs, if kind == OVER { 70 } else { 0 }, "{x:e}");
    }
}

/// Seventy numbers, so that there are whole groups and a rest. One in ten goes over.
#[test]
fn a_list_is_narrowed_as_far_as_both_go() {
    let list: Vec<f64> = (0..7).flat_map(|_| NUMBERS).collect();
    let narrowed: Vec<u32> = list.iter().map(|x| (*x as f32).to_bits()).collect();
    for room in [0, 1, 31, 32, 33, 69, 70, 75] {
        let mut out = vec![0.25f32; room];
        let overs = raw::narrow_list(&list, &mut out);
        let both = room.min(list.len());
        let kinds = list[..both].iter().map(|x| raw::narrow_kind(*x));
        assert_eq!(overs, kinds.filter(|kind| *kind == OVER).count());
        let got: Vec<u32> = out[..both].iter().map(|y| y.to_bits()).collect();
        assert_eq!(got, narrowed[..both]);
        assert!(out[both..].iter().all(|y| *y == 0.25));
    }
}
