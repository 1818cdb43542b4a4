//! The trace: a list of operations as words, and each operation's answer as words. The C library
//! (`compare/run`) and the proved program `test_trace` have to give the same answers, to the last bit.
//!
//! All words are u64, little-endian. An operation is eight words, `op how a b c d e len`, and `len`
//! words behind them; an answer is eight, `op number value p q r s m`, and `m` behind them.
//!
//! | op | a b c d | words | number, value, p q r s, words of the answer |
//! |---|---|---|---|
//! | 1 make | lent spans, repairs, monitor words | configuration | 0 made, 100 nothing, 1 to 4 |
//! | 2 config | | configuration | whether all is off; `observing` of it |
//! | 3 call | lent spans, repairs; places in front; seen | new samples | 0, 4 to 8; ready or place; seen, released, held, length; slice, clamped DC updates |
//! | 4 hop | start; lent spans, monitor words | channels | 0 no report, 101 report, 100 nothing, 4, 5, 7, 9; place; evidence |
//! | 5 log | | | the log |
//! | 6 state | | | the state |
//! | 7 stores | words of spans, repairs, monitor | | p q r as given; these words |
//! | 8 span | stage, mark, number, lent spans | | 0, 100 none; start, length |
//! | 9 undo | first sample, lent repairs | samples | 0, 4, 5; slice |
//! | 10 DC undo | rate, length of the output | samples | 0, 1, 4, 7; place; output |
//! | 11 IQ undo | coefficient re, im | samples | 0, 7, 10; place; slice |
//! | 12 guard | | samples | 0; how many; slice |
//! | 13 validate | gain, phase, centre | | 0, 11, 12, 13 |
//! | 14 write | store, place, word | | |
//!
//! With `how` 1 slices and stores are answered by a digest of theirs, and `s` is a slice's length.
//! A configuration is thirteen words: modes of impulse, DC, IQ (0 off, 1 observe, 2 apply), fs, centre, n,
//! whether there is a calibration, its gain, phase, centre, the capacities of spans and repairs, and the
//! edition of the pause rule (1, 2).
//! A call's slice has `c` places in front of the new samples, or as many as are held where `c` is all
//! ones; a NaN stands in each. Where `d` is not 0, the call is handed a state that has seen so many
//! samples, and the state before it stays. Operation 14 writes a word of the span store, the repair
//! store or the monitor's words, as their owner may.
//! Before the first making there is a chain of [`machine::first`].

pub mod machine;
pub mod show;

use std::io::{self, Read, Write};

pub const MAKE: u64 = 1;
pub const CONFIG: u64 = 2;
pub const CALL: u64 = 3;
pub const HOP: u64 = 4;
pub const LOG: u64 = 5;
pub const STATE: u64 = 6;
pub const STORES: u64 = 7;
pub const SPAN: u64 = 8;
pub const UNDO: u64 = 9;
pub const DC_UNDO: u64 = 10;
pub const IQ_UNDO: u64 = 11;
pub const GUARD: u64 = 12;
pub const VALIDATE: u64 = 13;
pub const WRITE: u64 = 14;

/// The words in front of an operation and of an answer.
pub const FRONT: usize = 8;
/// The most words behind an operation.
pub const WORDS: usize = 4096;
/// The most places in front of a call's new samples.
pub const HELD: usize = 512;
/// The stores, each four words longer than the longest that is lent.
pub const SPAN_WORDS: usize = 6148;
pub const REPAIR_WORDS: usize = 24580;
pub const MONITOR_WORDS: usize = 8196;
/// A call's `c`: as many places as are held.
pub const AS_HELD: u64 = u64::MAX;
/// What an operation answers by nothing, and by a report.
pub const NOTHING: u64 = 100;
pub const REPORT: u64 = 101;

/// One operation.
#[derive(Debug, Clone, PartialEq, Eq)]
pub struct Operation {
    pub op: u64,
    pub how: u64,
    pub args: [u64; 5],
    pub words: Vec<u64>,
}

impl Operation {
    pub fn new(op: u64, args: &[u64], words: Vec<u64>) -> Self {
        let mut all = [0; 5];
        all[..args.len()].copy_from_slice(args);
        Operation {
            op,
            how: 0,
            args: all,
            words,
        }
    }

    /// The same, with slices and stores answered by a digest.
    pub fn digested(mut self) -> Self {
        self.how = 1;
        self
    }

    pub fn write(&self, to: &mut impl Write) -> io::Result<()> {
        let mut front = vec![self.op, self.how];
        front.extend(self.args);
        front.push(self.words.len() as u64);
        write_words(to, &front)?;
        write_words(to, &self.words)
    }

    /// The next operation; none at the end of the input, or where one is cut short or has too many
    /// words, which ends the list.
    pub fn read(from: &mut impl Read) -> io::Result<Option<Operation>> {
        let Some(front) = read_words(from, FRONT)? else {
            return Ok(None);
        };
        if front[7] > WORDS as u64 {
            return Ok(None);
        }
        let words = read_words(from, front[7] as usize)?;
        Ok(words.map(|words| Operation {
            op: front[0],
            how: front[1],
            args: front[2..7].try_into().expect("five words"),
            words,
        }))
    }
}

/// An answer.
#[derive(Debug, Clone, PartialEq, Eq, Default)]
pub struct Answer {
    pub front: [u64; FRONT],
    pub words: Vec<u64>,
}

impl Answer {
    pub fn write(&self, to: &mut impl Write) -> io::Result<()> {
        write_words(to, &self.front)?;
        write_words(to, &self.words)
    }

    /// The next answer; none where the list ends or is cut short.
    pub fn read(from: &mut impl Read) -> io::Result<Option<Answer>> {
        let Some(front) = read_words(from, FRONT)? else {
            return Ok(None);
        };
        let most = (SPAN_WORDS + REPAIR_WORDS + MONITOR_WORDS) as u64;
        if front[7] > most {
            return Ok(None);
        }
        let words = read_words(from, front[7] as usize)?;
        Ok(words.map(|words| Answer {
            front: front.try_into().expect("eight words"),
            words,
        }))
    }
}

fn write_words(to: &mut impl Write, words: &[u64]) -> io::Result<()> {
    let bytes: Vec<u8> = words.iter().flat_map(|w| w.to_le_bytes()).collect();
    to.write_all(&bytes)
}

fn read_words(from: &mut impl Read, n: usize) -> io::Result<Option<Vec<u64>>> {
    let mut bytes = vec![0; 8 * n];
    match from.read_exact(&mut bytes) {
        Err(e) if e.kind() == io::ErrorKind::UnexpectedEof => Ok(None),
        Err(e) => Err(e),
        Ok(()) => Ok(Some(
            bytes
                .chunks_exact(8)
                .map(|b| u64::from_le_bytes(b.try_into().expect("eight bytes")))
                .collect(),
        )),
    }
}

/// What stands in the places in front of a call's new samples, and in DC undo's output: NaNs.
pub fn filler(places: usize) -> impl Iterator<Item = u64> {
    (0..places as u64).map(|k| 0xffff_ffff_7fc0_0000 + k)
}

/// One word of many: each step can be undone, so a difference in one word is never lost.
pub fn digest(words: &[u64]) -> u64 {
    words.iter().fold(0, |h, w| {
        let mut x = h ^ w;
        x ^= x << 13;
        x ^= x >> 7;
        x ^= x << 17;
        x.wrapping_add(0x9e37_79b9_7f4a_7c15)
    })
}
