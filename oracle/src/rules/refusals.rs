//! **When the conditioner declines**: the numbers that plain input and lent words decide. What number
//! 5 says of a state is not read, nor 4 of lent lengths beyond those given here.

use super::iq::{self, Coefficient};
use super::log::{Ring, SpanRing};
use super::{guard, Calibration, Mode, Sample, Setting};

/// 2^48: the greatest total, and the greatest hop start.
pub const TOTAL: u64 = 1 << 48;

/// 2^52: "a counter > 2^52" is number 5.
pub const COUNTER: u64 = 1 << 52;

/// A number, and with number 7 the "first place in the slice".
#[derive(Debug, Clone, Copy, PartialEq, Eq)]
pub struct Refusal {
    pub number: u8,
    pub place: Option<usize>,
}

/// An operation's answer, as far as the refusals decide it.
#[derive(Debug, Clone, Copy, PartialEq, Eq)]
pub enum Answer {
    Nothing,
    Refused(Refusal),
    Accepted,
}

/// A refusal that returns its number alone.
fn plain(number: u8) -> Refusal {
    Refusal {
        number,
        place: None,
    }
}

/// Number 7, with the place in the slice.
fn at_place(place: usize) -> Refusal {
    Refusal {
        number: 7,
        place: Some(place),
    }
}

/// Number 7 of a hop, a DC undo or an IQ undo.
fn first_outside(ys: &[Sample]) -> Option<Refusal> {
    ys.iter()
        .position(|y| !within(y.re) || !within(y.im))
        .map(at_place)
}

/// A hop's, DC undo's or IQ undo's part "within 1e18".
pub fn within(part: f32) -> bool {
    part.abs() <= 1e18
}

/// Not "fs not in 1..1e7".
pub fn rate_fits(fs: f64) -> bool {
    (1.0..=1e7).contains(&fs)
}

/// "Making a chain: all off answers nothing, before 1, 2, 3, 4." The lengths are those of the lent
/// repair, span and monitor words.
pub fn making(s: &Setting, repairs: usize, spans: usize, monitor: usize) -> Answer {
    if s.is_off() {
        return Answer::Nothing;
    }
    let number = if !rate_fits(s.fs) {
        1
    } else if s.n > 2048 {
        2
    } else if !(1..=256).contains(&s.spans) || !(1..=4096).contains(&s.repairs) {
        3
    } else if repairs != 6 * s.repairs || spans != 24 * s.spans || monitor != 4 * s.n {
        4
    } else {
        return Answer::Accepted;
    };
    Answer::Refused(plain(number))
}

/// Number 5's rule on the words of a span ring: not "newest span's sum > 2^49".
pub fn newest_fits(ring: &SpanRing) -> bool {
    ring.ring.held == 0 || {
        let newest = ring.ring.record(ring.ring.held - 1);
        newest[0]
            .checked_add(newest[1])
            .is_some_and(|sum| sum <= 1 << 49)
    }
}

/// Number 5's rules on the monitor's words: not "a monitor word not within 1e60", nor "a [..] channel
/// power with its sign bit set".
pub fn monitor_fits(n: usize, words: &[f64]) -> bool {
    words.iter().all(|w| w.abs() <= 1e60) && words[..n].iter().all(|w| w.is_sign_positive())
}

/// Number 5's rule on the words of the repair ring: not "in repair undo a held record's length not
/// 1..4 or start > 2^48".
pub fn records_fit(repairs: &Ring) -> bool {
    (0..repairs.held).all(|i| {
        let record = repairs.record(i);
        (1..=4).contains(&record[1]) && record[0] <= TOTAL
    })
}

/// A call's "6, 8, 7", for a slice given after `seen` samples of which `held` are held.
pub fn call(seen: u64, held: usize, slice: &[Sample]) -> Option<Refusal> {
    if slice.len() < held {
        return Some(plain(6));
    }
    let new = &slice[held..];
    if seen + new.len() as u64 > TOTAL {
        return Some(plain(8));
    }
    new.iter()
        .position(|&x| !guard::usable(x))
        .map(|i| at_place(held + i))
}

/// A hop: "IQ off, wrong length or n < 8 answers nothing; then 9, 7." `last_end` is the end of the
/// last accepted hop, or 0.
pub fn hop(s: &Setting, last_end: u64, start: u64, channels: &[Sample]) -> Answer {
    if s.iq == Mode::Off || channels.len() != s.n || s.n < 8 {
        return Answer::Nothing;
    }
    if start > TOTAL || start < last_end {
        return Answer::Refused(plain(9));
    }
    match first_outside(channels) {
        Some(refusal) => Answer::Refused(refusal),
        None => Answer::Accepted,
    }
}

/// "IQ undo: 10, 7."
pub fn iq_undo(c: Coefficient, ys: &[Sample]) -> Option<Refusal> {
    if !iq::accepted(c) {
        return Some(plain(10));
    }
    first_outside(ys)
}

/// "DC undo: 1, 4, 7." `out` is the length of the output slice.
pub fn dc_undo(fs: f64, ys: &[Sample], out: usize) -> Option<Refusal> {
    if !rate_fits(fs) {
        return Some(plain(1));
    }
    if out != ys.len() {
        return Some(plain(4));
    }
    first_outside(ys)
}

/// "calibration gain, phase, centre | 11, 12, 13", in that order.
pub fn validation(c: Calibration) -> Option<Refusal> {
    if !iq::gain_fits(c.gain) {
        Some(plain(11))
    } else if !iq::phase_fits(c.phase) {
        Some(plain(12))
    } else if !iq::centre_fits(c.centre) {
        Some(plain(13))
    } else {
        None
    }
}
