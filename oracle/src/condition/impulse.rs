// From manta-dsp (commit 0fab1724d4), MIT or Apache-2.0; see NOTICE.
//! Short-impulse suppression (MAN-203 D6): a trimmed-mean power gate that
//! repairs isolated runs of up to [`IMPULSE_MAX_RUN`] samples and never
//! touches a longer burst.
//!
//! A sample is flagged when its power exceeds [`IMPULSE_RATIO`]² times the
//! reference power of the [`IMPULSE_WINDOW`] samples centred on it (fewer at
//! the stream's start): their mean once the [`IMPULSE_TRIM`] strongest are
//! left out, so up to two repairable runs in one window do not raise it. A
//! zero reference never flags, so lead-in padding is left alone. (A median
//! reference flagged clean 45 dB scenes: two strong stations whose beat is
//! near `fs/2` leave every other sample near zero, so the median sits in
//! the nulls.) A flagged run of at most [`IMPULSE_MAX_RUN`] samples is
//! repaired by linear interpolation between its unflagged neighbours; a
//! longer run is counted in [`ConditioningLog::impulse_long_runs`], marked
//! [`Mark::Flagged`] and never written. When more than
//! [`IMPULSE_PAUSE_FRACTION`] of a one-second block (`round(fs)` samples)
//! is flagged, the next block repairs nothing and is marked
//! [`Mark::Uncertain`]: dense flags mean the gate's "isolated impulse"
//! assumption has failed.
//!
//! Deciding a sample needs the [`IMPULSE_LOOKAHEAD`] samples after it, so
//! an applying suppressor releases each sample exactly that many samples
//! late; the channelizer forms hops only from released samples, so sample
//! indices do not move. The last [`IMPULSE_HALF_WINDOW`] samples of a
//! stream (or of a decode segment, which builds a new channelizer) are
//! never judged, and a run still open there is neither repaired nor
//! logged. The original value of every repaired sample is kept
//! in a bounded ring, and [`revert_repairs`] restores it bit for bit.

use super::{ConditioningLog, Mark, Stage};
// CHANGED: the local stand-in, with document 01's meaning of each operation.
use crate::num_complex::Complex32;
use std::collections::VecDeque;

/// The reference window, samples, centred on the sample being judged.
pub const IMPULSE_WINDOW: usize = 33;

/// Samples on each side of the judged one in [`IMPULSE_WINDOW`].
pub const IMPULSE_HALF_WINDOW: usize = IMPULSE_WINDOW / 2;

/// A sample is flagged when its power exceeds `IMPULSE_RATIO²` times the
/// window's reference power.
pub const IMPULSE_RATIO: f32 = 12.0;

/// The window's strongest powers left out of the reference mean: room for
/// two repairable runs.
pub const IMPULSE_TRIM: usize = 2 * IMPULSE_MAX_RUN;

/// The longest flagged run the suppressor repairs. Longer runs are never
/// touched.
pub const IMPULSE_MAX_RUN: usize = 4;

/// When more than this fraction of a one-second block is flagged, the next
/// block repairs nothing and is marked uncertain.
pub const IMPULSE_PAUSE_FRACTION: f64 = 1e-3;

/// How many samples an applying suppressor holds back:
/// the half window, a full repairable run, and the run's right neighbour.
pub const IMPULSE_LOOKAHEAD: usize = IMPULSE_HALF_WINDOW + IMPULSE_MAX_RUN + 1;

/// Repaired runs whose originals the log keeps; older ones are dropped and
/// counted in [`ConditioningLog::repairs_dropped`].
pub const REPAIR_LOG_CAPACITY: usize = 4096;

/// One repaired run: its first sample's channelizer-input index and the
/// original values of its `len` samples.
#[derive(Debug, Clone, Copy, PartialEq)]
pub struct Repair {
    /// The first repaired sample's channelizer-input index.
    pub start_sample: u64,
    /// The number of repaired samples, 1 to [`IMPULSE_MAX_RUN`].
    pub len: u8,
    /// The original values; entries past `len` are zero.
    pub originals: [Complex32; IMPULSE_MAX_RUN],
}

/// An open flagged run.
// CHANGED: public with its fields, so that a test can read them.
#[derive(Debug, Clone, Copy)]
pub struct Run {
    pub start: u64,
    pub len: u64,
    /// A sample of the run lies in a paused block, so it is never
    /// repaired.
    pub paused: bool,
}

/// The suppressor's state.
// CHANGED: its fields public, so that a test can read them.
#[derive(Debug, Clone)]
pub struct ImpulseSuppressor {
    pub apply: bool,
    pub block_len: u64,
    /// Received samples not yet released, oldest first; `pending[0]` has
    /// index `next_out`.
    pub pending: VecDeque<Complex32>,
    pub next_out: u64,
    pub received: u64,
    /// The newest `IMPULSE_WINDOW` (or fewer) raw powers, oldest first, and
    /// the same values sorted.
    pub window: VecDeque<f32>,
    pub sorted: Vec<f32>,
    pub run: Option<Run>,
    /// The newest unflagged judged sample (never written by this stage).
    pub left: Option<Complex32>,
    pub block: u64,
    pub block_flagged: u64,
    pub paused: bool,
    // CHANGED: another pause rule (document 02, R-6). `None` is the original's.
    pub pause_rule: Option<PauseRule>,
}

// CHANGED: whether a block is paused, by whether the one before was, how many of that were flagged,
// and the block length.
pub type PauseRule = fn(bool, u64, u64) -> bool;

impl ImpulseSuppressor {
    /// A suppressor at sample rate `fs`; `apply` repairs, otherwise it only
    /// flags.
    pub fn new(fs: f64, apply: bool) -> Self {
        ImpulseSuppressor {
            apply,
            block_len: (fs.round() as u64).max(1),
            pending: VecDeque::with_capacity(IMPULSE_LOOKAHEAD + 1),
            next_out: 0,
            received: 0,
            window: VecDeque::with_capacity(IMPULSE_WINDOW + 1),
            sorted: Vec::with_capacity(IMPULSE_WINDOW + 1),
            run: None,
            left: None,
            block: 0,
            block_flagged: 0,
            paused: false,
            pause_rule: None,
        }
    }

    /// Takes the next raw sample and returns the sample released
    /// [`IMPULSE_LOOKAHEAD`] samples earlier (repaired when the suppressor
    /// applies), or `None` while the first samples are still held back.
    pub fn push(&mut self, x: Complex32, log: &mut ConditioningLog) -> Option<Complex32> {
        let p = x.norm_sqr();
        self.pending.push_back(x);
        self.window.push_back(p);
        let at = self.sorted.partition_point(|&q| q < p);
        self.sorted.insert(at, p);
        if self.window.len() > IMPULSE_WINDOW {
            let old = self.window.pop_front().expect("window is non-empty");
            let at = self.sorted.partition_point(|&q| q < old);
            self.sorted.remove(at);
        }
        self.received += 1;
        if self.received > IMPULSE_HALF_WINDOW as u64 {
            self.judge(self.received - 1 - IMPULSE_HALF_WINDOW as u64, log);
        }
        if self.received > IMPULSE_LOOKAHEAD as u64 {
            self.next_out += 1;
            self.pending.pop_front()
        } else {
            None
        }
    }

    /// Judges sample `j`, whose window ends at the newest sample.
    fn judge(&mut self, j: u64, log: &mut ConditioningLog) {
        let block = j / self.block_len;
        if block != self.block {
            // CHANGED: where another rule is set, it decides.
            self.paused = match self.pause_rule {
                Some(pauses) => pauses(self.paused, self.block_flagged, self.block_len),
                None => self.block_flagged as f64 > IMPULSE_PAUSE_FRACTION * self.block_len as f64,
            };
            self.block = block;
            self.block_flagged = 0;
        }
        if self.paused {
            log.mark(Stage::Impulse, Mark::Uncertain, j, 1);
        }
        let first = self.received - self.window.len() as u64;
        let p = self.window[(j - first) as usize];
        // The window holds at least `IMPULSE_HALF_WINDOW + 1 > IMPULSE_TRIM`
        // powers here.
        let kept = &self.sorted[..self.sorted.len() - IMPULSE_TRIM];
        let reference = kept.iter().map(|&q| q as f64).sum::<f64>() / kept.len() as f64;
        let flagged =
            reference > 0.0 && p as f64 > (IMPULSE_RATIO * IMPULSE_RATIO) as f64 * reference;
        let x = self.pending[(j - self.next_out) as usize];
        if flagged {
            self.block_flagged += 1;
            match self.run.as_mut() {
                Some(run) => {
                    run.len += 1;
                    // A run that reaches into a paused block is not repaired.
                    run.paused |= self.paused;
                }
                None => {
                    self.run = Some(Run {
                        start: j,
                        len: 1,
                        paused: self.paused,
                    })
                }
            }
        } else {
            if let Some(run) = self.run.take() {
                self.close(run, x, log);
            }
            self.left = Some(x);
        }
    }

    /// Ends `run` at its unflagged right neighbour `right`: repairs it, or
    /// marks it flagged when it is too long, paused or only observed.
    fn close(&mut self, run: Run, right: Complex32, log: &mut ConditioningLog) {
        if run.len > IMPULSE_MAX_RUN as u64 {
            log.impulse_long_runs += 1;
            log.mark(Stage::Impulse, Mark::Flagged, run.start, run.len);
            return;
        }
        if !self.apply || run.paused {
            log.mark(Stage::Impulse, Mark::Flagged, run.start, run.len);
            return;
        }
        let left = self.left.unwrap_or(right);
        let base = (run.start - self.next_out) as usize;
        let mut originals = [Complex32::new(0.0, 0.0); IMPULSE_MAX_RUN];
        let steps = (run.len + 1) as f32;
        for (t, original) in originals.iter_mut().take(run.len as usize).enumerate() {
            let s = &mut self.pending[base + t];
            *original = *s;
            let frac = (t + 1) as f32 / steps;
            *s = left + (right - left) * frac;
        }
        log.record_repair(Repair {
            start_sample: run.start,
            len: run.len as u8,
            originals,
        });
        log.mark(Stage::Impulse, Mark::Repaired, run.start, run.len);
    }
}

/// Restores the original value of every repaired sample the log still
/// holds, in `y`, whose first element is channelizer-input sample
/// `first_sample`. Repairs outside `y` are skipped. Bit-exact: the log keeps
/// the originals themselves.
pub fn revert_repairs(y: &mut [Complex32], first_sample: u64, log: &ConditioningLog) {
    for r in log.repairs() {
        for t in 0..r.len as u64 {
            let idx = r.start_sample + t;
            if idx >= first_sample && ((idx - first_sample) as usize) < y.len() {
                y[(idx - first_sample) as usize] = r.originals[t as usize];
            }
        }
    }
}
