//! **Log**, and **Undoing repairs**.

use super::impulse::Span;
use super::Sample;

/// Places of the twelve rings: "in the order impulse, DC, IQ, then Repaired, Flagged, Corrected,
/// Uncertain".
pub const STAGES: [&str; 3] = ["impulse", "dc", "iq"];
pub const MARKS: [&str; 4] = ["repaired", "flagged", "corrected", "uncertain"];
pub const RINGS: usize = 12;

/// The place of a ring.
pub fn place(stage: usize, mark: usize) -> usize {
    stage * MARKS.len() + mark
}

/// A ring of records of `size` words each, in a lent part of capacity·size words.
#[derive(Debug, Clone, PartialEq, Eq)]
pub struct Ring {
    pub capacity: usize,
    pub size: usize,
    pub head: usize,
    /// How many records it holds.
    pub held: usize,
    pub dropped: u64,
    pub words: Vec<u64>,
}

impl Ring {
    /// "Making fills lent words with 0."
    pub fn empty(capacity: usize, size: usize) -> Ring {
        Ring {
            capacity,
            size,
            head: 0,
            held: 0,
            dropped: 0,
            words: vec![0; capacity * size],
        }
    }

    /// The words of the record at the place `i` from the oldest on.
    pub fn record(&self, i: usize) -> &[u64] {
        let at = (self.head + i) % self.capacity * self.size;
        &self.words[at..at + self.size]
    }

    /// The records, oldest first.
    pub fn records(&self) -> Vec<Vec<u64>> {
        (0..self.held).map(|i| self.record(i).to_vec()).collect()
    }

    /// "if full, the oldest goes and the dropped count rises"; "A ring writes at (head + count)
    /// mod capacity; dropping moves the head on by one, mod capacity too."
    pub fn with(mut self, record: &[u64]) -> Ring {
        if self.held == self.capacity {
            self.head = (self.head + 1) % self.capacity;
            self.held -= 1;
            self.dropped += 1;
        }
        let at = (self.head + self.held) % self.capacity * self.size;
        self.words[at..at + self.size].copy_from_slice(record);
        self.held += 1;
        self
    }
}

/// A span ring and its count of samples.
#[derive(Debug, Clone, PartialEq, Eq)]
pub struct SpanRing {
    pub count: u64,
    pub ring: Ring,
}

impl SpanRing {
    /// "A mark of length 0 does nothing. Another adds its length to its count; starting where the
    /// ring's newest span ends, it lengthens that span; else" it is a span of its own. "A span is
    /// two u64 words".
    pub fn marked(self, (start, len): Span) -> SpanRing {
        if len == 0 {
            return self;
        }
        let SpanRing { count, mut ring } = self;
        let newest = ring
            .held
            .checked_sub(1)
            .map(|i| (ring.head + i) % ring.capacity * ring.size);
        let ring = match newest {
            Some(at) if ring.words[at] + ring.words[at + 1] == start => {
                ring.words[at + 1] += len;
                ring
            }
            _ => ring.with(&[start, len]),
        };
        SpanRing {
            count: count + len,
            ring,
        }
    }

    /// The ring after the marks that are addressed to it.
    pub fn of(capacity: usize, marks: &[Span]) -> SpanRing {
        let fresh = SpanRing {
            count: 0,
            ring: Ring::empty(capacity, 2),
        };
        marks.iter().fold(fresh, |ring, &mark| ring.marked(mark))
    }

    /// The spans, oldest first.
    pub fn spans(&self) -> Vec<Span> {
        (0..self.ring.held)
            .map(|i| {
                let words = self.ring.record(i);
                (words[0], words[1])
            })
            .collect()
    }
}

/// "a repair six: start, length, four originals (bits of re in the low half, im in the high;
/// unused ones 0)"
pub fn repair_words(xs: &[Sample], (start, len): Span) -> [u64; 6] {
    let mut words = [0; 6];
    words[0] = start;
    words[1] = len;
    let run = &xs[start as usize..(start + len) as usize];
    for (word, x) in words[2..].iter_mut().zip(run) {
        *word = x.word();
    }
    words
}

/// "The repair ring does the same without joining." The ring after the mended runs of `xs`.
pub fn repair_ring(capacity: usize, xs: &[Sample], mended: &[Span]) -> Ring {
    mended
        .iter()
        .filter(|run| run.1 > 0)
        .fold(Ring::empty(capacity, 6), |ring, &run| {
            ring.with(&repair_words(xs, run))
        })
}

/// "Logged originals return to their places, oldest first; those outside the slice are skipped."
/// The first place of the slice `ys` is sample `first`.
pub fn undone(repairs: &Ring, ys: &[Sample], first: u64) -> Vec<Sample> {
    let mut out = ys.to_vec();
    for i in 0..repairs.held {
        let record = repairs.record(i);
        for t in 0..record[1] {
            let place = (record[0] + t).checked_sub(first);
            if let Some(y) = place.and_then(|place| out.get_mut(place as usize)) {
                *y = Sample::of_word(record[2 + t as usize]);
            }
        }
    }
    out
}
