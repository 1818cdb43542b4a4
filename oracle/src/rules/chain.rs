//! **Chain**, and what **Lists of calls** names: the record of all samples and all accepted hops.

use super::impulse::{self, Span};
use super::iq::{self, Settled};
use super::log::{self, Ring, SpanRing};
use super::monitor::{self, Hop};
use super::{dc, Mode, Sample, Setting};

/// All that the rules say of a chain that has seen the samples and the hops.
#[derive(Debug, Clone)]
pub struct Record {
    /// The released samples, as released.
    pub out: Vec<Sample>,
    pub seen: u64,
    pub released: u64,
    pub held: u64,
    pub rings: Vec<SpanRing>,
    pub long_runs: u64,
    pub repairs: Ring,
    /// The level after the released samples; nothing if DC is off.
    pub dc: Option<dc::Level>,
    /// DC steps on which the limit acted; 0 if DC is off.
    pub clamped: u64,
    pub iq: Settled,
    pub monitor: Vec<f64>,
}

impl Record {
    /// Dropped spans of all rings.
    pub fn spans_dropped(&self) -> u64 {
        self.rings.iter().map(|r| r.ring.dropped).sum()
    }

    /// The lent span store: "each a part of the one lent span store".
    pub fn span_words(&self) -> Vec<u64> {
        self.rings
            .iter()
            .flat_map(|r| r.ring.words.iter().copied())
            .collect()
    }
}

/// "Ready is how many samples a call releases": of a call that brings `new` samples after `seen`.
pub fn ready(s: &Setting, seen: usize, new: usize) -> usize {
    let applies = s.impulse == Mode::Apply;
    impulse::released(applies, seen + new) - impulse::released(applies, seen)
}

/// The marks of each of the twelve rings, in order.
pub fn marks(
    s: &Setting,
    settled: Settled,
    flags: &[bool],
    paused: &[bool],
    block: u64,
    released: u64,
    hops: &[Hop],
) -> [Vec<Span>; log::RINGS] {
    let applies = s.impulse == Mode::Apply;
    let given = |stage: usize, mark: usize| -> Vec<Span> {
        match (log::STAGES[stage], log::MARKS[mark]) {
            ("impulse", _) if s.impulse == Mode::Off => Vec::new(),
            ("impulse", "repaired") => impulse::repaired(flags, paused, block, applies),
            ("impulse", "flagged") => impulse::kept(flags, paused, block, applies),
            ("impulse", "uncertain") => impulse::uncertain(flags, paused, block),
            // "Applying writes y and marks Corrected; observing leaves the sample."
            ("dc", "corrected") if s.dc == Mode::Apply => vec![(0, released)],
            // "Correcting marks released samples Corrected, withheld Uncertain."
            ("iq", "corrected") if matches!(settled, Settled::Correcting(_)) => vec![(0, released)],
            ("iq", "uncertain") => match settled {
                Settled::Withheld => vec![(0, released)],
                Settled::Observing => monitor::suspected(s.fs, s.n, hops),
                Settled::Off | Settled::Correcting(_) => Vec::new(),
            },
            _ => Vec::new(),
        }
    };
    let mut marks: [Vec<Span>; log::RINGS] = Default::default();
    for stage in 0..log::STAGES.len() {
        for mark in 0..log::MARKS.len() {
            marks[log::place(stage, mark)] = given(stage, mark);
        }
    }
    marks
}

/// The record of the samples `xs` and the accepted hops `hops`.
pub fn whole(s: &Setting, xs: &[Sample], hops: &[Hop]) -> Record {
    let applies = s.impulse == Mode::Apply;
    let settled = iq::settled(s);
    let block = impulse::block_length(s.fs);
    let (flags, paused) = if s.impulse == Mode::Off {
        (Vec::new(), Vec::new())
    } else {
        let flags = impulse::flags(xs);
        let paused = impulse::paused(|_| s.edition, &flags, block);
        (flags, paused)
    };
    let released = impulse::released(applies, xs.len());
    let marks = marks(s, settled, &flags, &paused, block, released as u64, hops);

    // "Stages run impulse, DC, IQ." Only released samples reach the later two.
    let mended: Vec<Sample> = if applies {
        (0..released)
            .map(|k| impulse::value(xs, &flags, &paused, block, k))
            .collect()
    } else {
        xs[..released].to_vec()
    };
    let level = if s.dc == Mode::Off {
        None
    } else {
        dc::levels(s.fs, &mended).pop()
    };
    let clamped = if s.dc == Mode::Off {
        0
    } else {
        dc::clamped(s.fs, &mended)
    };
    let blocked = if s.dc == Mode::Apply {
        dc::outputs(s.fs, &mended)
    } else {
        mended
    };
    let out = match settled {
        Settled::Correcting(c) => blocked.iter().map(|&m| iq::corrected(c, m)).collect(),
        _ => blocked,
    };

    Record {
        out,
        seen: xs.len() as u64,
        released: released as u64,
        held: impulse::held(applies, xs.len()) as u64,
        rings: marks.iter().map(|m| SpanRing::of(s.spans, m)).collect(),
        long_runs: impulse::long_runs(&flags),
        repairs: log::repair_ring(s.repairs, xs, &marks[log::place(0, 0)]),
        dc: level,
        clamped,
        iq: settled,
        monitor: monitor::words(s.fs, s.n, hops),
    }
}
