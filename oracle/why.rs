//! What the programs `why` and `why_records` are run on, the captures of why_captures.rs, and what they have to say of them, by the reasons
//! of the Rust's own branches and the counts of its own narrowings (oracle/rust). `oracle/lists` has it write the files: why WORD, where
//! WORD is `pairs` or `records`, and then `stdin` or `stdout`. With WORD alone it says the same of what is on standard input.

mod aspeyruni;
#[allow(dead_code)] // the Rust's text, whole
mod canceller;
mod config;
mod echo;
mod error;
#[allow(dead_code)]
mod fft;
mod house_detector;
mod inputs;
mod kinds;
mod recipe;
mod record;
#[allow(dead_code)]
mod rust_tau;
mod taken;
#[allow(dead_code)]
mod tau_calls;
#[allow(dead_code)]
mod tau_lines;
#[allow(dead_code)]
mod tau_reference;
mod why_captures;

use aspeyruni::tau::reason;
use record::{FLUSH, PAIRS, RESET};
use std::io::{Read, Write};
use tau_calls::{Reason, Told, REASONS};
use tau_reference::Continued;

const BLOCK: usize = 256;
const PAIR: usize = 8;

/// The Rust's engine, how many pairs wait in it, and what has been said of its blocks.
struct Watch {
    engine: Continued,
    waiting: usize,
    /// Of each block.
    blocks: Vec<Told>,
    /// Where the stretch begins that is not told of yet: at the next block, if there is none.
    first: usize,
    text: String,
}

fn main() {
    let words: Vec<String> = std::env::args().skip(1).collect();
    let (capture, watched): (fn() -> Vec<u8>, fn(&[u8]) -> Watch) = match words[0].as_str() {
        "pairs" => (why_captures::pairs, Watch::of_pairs),
        "records" => (why_captures::records, Watch::of_records),
        other => panic!("no input {other}"),
    };
    let file = words.get(1).map(String::as_str);
    let mut bytes = Vec::new();
    if file.is_some() {
        check_captures();
        bytes = capture();
    } else {
        std::io::stdin().read_to_end(&mut bytes).unwrap();
    }
    let written = match file {
        Some("stdin") => bytes,
        Some("stdout") | None => watched(&bytes).summary().into_bytes(),
        Some(other) => panic!("no file {other}"),
    };
    std::io::stdout().write_all(&written).unwrap();
}

/// Stops where a reason has come in neither capture, where no two moves in a row have one leak, and where none have two; and where no
/// move goes over, or no two blocks in a row differ in what went over alone.
fn check_captures() {
    let captures = [
        Watch::of_pairs(&why_captures::pairs()),
        Watch::of_records(&why_captures::records()),
    ];
    let blocks = captures.map(|watch| watch.blocks);
    for number in reason::FLUSH_BLOCK..=reason::MOVED {
        let has_come = blocks.iter().flatten().any(|b| b.reason.number() == number);
        assert!(has_come, "no block: {}", REASONS[number as usize]);
    }
    let is_over = |b: &Told| matches!(b.reason, Reason::Moved(_)) && b.overs > 0;
    assert!(blocks.iter().flatten().any(is_over), "no move goes over");
    let in_a_row = || blocks.iter().flat_map(|blocks| blocks.windows(2));
    let has_alike =
        in_a_row().any(|two| two[0].reason == two[1].reason && two[0].overs != two[1].overs);
    assert!(has_alike, "no two blocks in a row differ in that alone");
    let leaks = in_a_row().filter_map(|two| match [two[0].reason, two[1].reason] {
        [Reason::Moved(a), Reason::Moved(b)] => Some([a, b]),
        _ => None,
    });
    let (one, two): (Vec<_>, Vec<_>) = leaks.partition(|[a, b]| a == b);
    assert!(!one.is_empty(), "no two moves in a row with one leak");
    assert!(!two.is_empty(), "no two moves in a row with two leaks");
}

impl Watch {
    fn new() -> Watch {
        Watch {
            engine: Continued::created(4, true),
            waiting: 0,
            blocks: Vec::new(),
            first: 0,
            text: String::new(),
        }
    }

    fn of_pairs(bytes: &[u8]) -> Watch {
        let mut watch = Watch::new();
        watch.pairs(bytes);
        watch.flush();
        watch
    }

    fn of_records(bytes: &[u8]) -> Watch {
        let mut watch = Watch::new();
        let capture = record::records(bytes);
        assert_eq!(capture.refusal, None);
        for record in capture.records {
            match record.kind {
                PAIRS => watch.pairs(record.payload),
                FLUSH => watch.flush(),
                RESET => watch.reset(),
                _ => {}
            }
        }
        watch
    }

    /// In pieces that fill one block at most, so that each block is told of.
    fn pairs(&mut self, bytes: &[u8]) {
        let mut left: Vec<[f32; 2]> = bytes.chunks_exact(PAIR).map(pair).collect();
        while !left.is_empty() {
            let rest = left.split_off(left.len().min(BLOCK - self.waiting));
            let [near, far] = [0, 1].map(|side| left.iter().map(|pair| pair[side]).collect());
            let (near, far): (Vec<f32>, Vec<f32>) = (near, far);
            self.engine.process(&near, &far);
            self.waiting = (self.waiting + left.len()) % BLOCK;
            self.note();
            left = rest;
        }
    }

    fn flush(&mut self) {
        self.engine.flush();
        self.waiting = 0;
        self.note();
    }

    fn reset(&mut self) {
        self.engine.reset();
        self.waiting = 0;
        self.end();
        self.text += "reset\n";
    }

    /// What the last call's block adds, where it ran one.
    fn note(&mut self) {
        let told = self.engine.told();
        if told == Told::NOTHING {
            return;
        }
        if self.blocks.last() != Some(&told) {
            self.end();
        }
        self.blocks.push(told);
    }

    /// The line of the stretch, where there is one.
    fn end(&mut self) {
        let Some(Told { reason, overs }) = self.blocks[self.first..].last() else {
            return;
        };
        let (first, last) = (self.first, self.blocks.len() - 1);
        let which = if first == last {
            format!("block {first}")
        } else {
            format!("blocks {first}-{last}")
        };
        let words = REASONS[reason.number() as usize];
        let leak = match reason {
            Reason::Moved(leak) => format!(", leak {}", decimal(*leak)),
            _ => String::new(),
        };
        let over = match overs {
            0 => String::new(),
            count => format!(", {count} went over"),
        };
        self.text += &format!("{which}: {words}{leak}{over}\n");
        self.first = self.blocks.len();
    }

    fn summary(mut self) -> String {
        self.end();
        let blocks = self.blocks.len();
        if blocks == 0 {
            return self.text + "0 blocks\n";
        }
        let plural = if blocks == 1 { "" } else { "s" };
        self.text += &format!("\n{blocks} block{plural}\n");
        for (number, words) in (0..).zip(REASONS) {
            self.row(words, |told| told.reason.number() == number);
        }
        self.row("went over", |told| told.overs > 0);
        self.text
    }

    /// How many blocks are such, where there are any.
    fn row(&mut self, words: &str, is_such: impl Fn(&Told) -> bool) {
        let count = self.blocks.iter().filter(|told| is_such(told)).count();
        if count > 0 {
            self.text += &format!("{count} {words}\n");
        }
    }
}

fn pair(bytes: &[u8]) -> [f32; 2] {
    let (near, far) = bytes.split_at(PAIR / 2);
    [near, far].map(|sample| f32::from_le_bytes(sample.try_into().unwrap()))
}

/// To the nearest millionth, with no zeros at the end.
fn decimal(leak: f64) -> String {
    let text = format!("{:.6}", (leak * 1e6).round() / 1e6);
    text.trim_end_matches('0').trim_end_matches('.').into()
}
