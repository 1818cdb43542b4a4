//! **Impulse** (half window 16, window 33, trim 8, longest run 4, lookahead 21), and the second
//! edition of its pause rule (document 02, R-6).
//!
//! `xs` are all samples so far, numbered from 0; `flags` is [`flags`] of them, a value for each
//! judged sample; `block` is the block length; `paused` is [`paused`] of the flags, a value for
//! each block with a judged sample. One more sample changes none of what was said.

use super::{Edition, Sample};

pub const HALF: usize = 16;
pub const TRIM: usize = 8;
pub const LONGEST: usize = 4;
pub const LOOKAHEAD: usize = 21;

/// A run of samples: its start and its length.
pub type Span = (u64, u64);

/// "powers are f32"; "power: re·re + im·im"
pub fn power(x: Sample) -> f32 {
    x.re * x.re + x.im * x.im
}

/// How many samples are judged once `n` have arrived: "Sample j is judged when j+16 arrives."
pub fn judged(n: usize) -> usize {
    n.saturating_sub(HALF)
}

/// "Its window is samples j−16 to j+16, cut at 0; powers are f32."
pub fn window(xs: &[Sample], j: usize) -> Vec<f32> {
    xs[j.saturating_sub(HALF)..=j + HALF]
        .iter()
        .map(|&x| power(x))
        .collect()
}

/// "Sort ascending, drop the 8 strongest, sum the rest in that order in f64, divide by their
/// number: the reference."
pub fn reference(xs: &[Sample], j: usize) -> f64 {
    let mut powers = window(xs, j);
    powers.sort_by(f32::total_cmp);
    let rest = &powers[..powers.len() - TRIM];
    let mut sum = 0.0f64;
    for &p in rest {
        sum += f64::from(p);
    }
    sum / rest.len() as f64
}

/// "j is flagged exactly if reference > 0 and power > 144 × reference."
pub fn flagged(xs: &[Sample], j: usize) -> bool {
    let reference = reference(xs, j);
    reference > 0.0 && f64::from(power(xs[j])) > 144.0 * reference
}

/// [`flagged`] of each judged sample.
pub fn flags(xs: &[Sample]) -> Vec<bool> {
    (0..judged(xs.len())).map(|j| flagged(xs, j)).collect()
}

/// How many flagged samples stand right before `j`.
pub fn before(flags: &[bool], j: usize) -> usize {
    flags[..j].iter().rev().take_while(|&&f| f).count()
}

/// "A run of flagged samples ends at the next unflagged one, its right neighbour." The run that
/// ends at the judged sample `j`.
pub fn closes(flags: &[bool], j: usize) -> Option<Span> {
    if j >= flags.len() || flags[j] {
        return None;
    }
    match before(flags, j) {
        0 => None,
        len => Some(((j - len) as u64, len as u64)),
    }
}

/// "block length, fs rounded half away from zero"
pub fn block_length(fs: f64) -> u64 {
    fs.round() as u64
}

/// How many samples are flagged in each block with a judged sample.
fn counts(flags: &[bool], block: u64) -> Vec<usize> {
    flags
        .chunks(block as usize)
        .map(|places| places.iter().filter(|&&f| f).count())
        .collect()
}

/// The entry limit: "more than 0.001 × block length flagged (f64)".
fn over_entry(flagged: usize, block: u64) -> bool {
    flagged as f64 > 0.001 * block as f64
}

/// The exit limit (document 02, R-6): "at most 0.0005 × block length flagged (f64)".
fn within_exit(flagged: usize, block: u64) -> bool {
    flagged as f64 <= 0.0005 * block as f64
}

/// Whether a block that begins with `edition` is paused, by the one before: whether that
/// `was_paused`, and how many it had `flagged`.
///
/// Edition 1: "A block is paused exactly if the one before had more than 0.001 × block length
/// flagged (f64)."
///
/// Edition 2 (document 02, R-6): "Edition 2 pauses as now, but a paused stretch ends after its
/// first block with at most 0.0005 × block length flagged (f64)." That block is still paused, and
/// the one after it is not.
pub fn begins_paused(edition: Edition, was_paused: bool, flagged: usize, block: u64) -> bool {
    match edition {
        Edition::First => over_entry(flagged, block),
        Edition::Second if was_paused => !within_exit(flagged, block),
        Edition::Second => over_entry(flagged, block),
    }
}

/// Which blocks with a judged sample are paused, where block `b` begins with `edition(b)`.
pub fn paused(edition: impl Fn(usize) -> Edition, flags: &[bool], block: u64) -> Vec<bool> {
    let counts = counts(flags, block);
    let mut all = Vec::with_capacity(counts.len());
    for b in 0..counts.len() {
        // The first block has none before it.
        all.push(b > 0 && begins_paused(edition(b), all[b - 1], counts[b - 1], block));
    }
    all
}

/// "Block of j: j divided by block length"; whether it is paused, for a judged `j`.
pub fn pauses(paused: &[bool], block: u64, j: u64) -> bool {
    paused[(j / block) as usize]
}

/// A run "with any sample in a paused block".
pub fn touches_paused(paused: &[bool], block: u64, (start, len): Span) -> bool {
    (start..start + len).any(|j| pauses(paused, block, j))
}

/// A run "Over 4".
fn is_long((_, len): Span) -> bool {
    len > LONGEST as u64
}

/// All ended runs, in order.
fn runs(flags: &[bool]) -> impl Iterator<Item = Span> + '_ {
    (0..flags.len()).filter_map(move |j| closes(flags, j))
}

/// The run that ends at `j` is neither over 4 nor touches a paused block: it is mended where the
/// stage applies.
pub fn mendable(flags: &[bool], paused: &[bool], block: u64, j: usize) -> Option<Span> {
    closes(flags, j)
        .filter(|&run| !is_long(run))
        .filter(|&run| !touches_paused(paused, block, run))
}

/// "each sample t (0 first) becomes left + (right − left) × ((t+1)/(len+1)) in f32"; "left is the
/// last raw unflagged sample before, or right if none".
pub fn mended(xs: &[Sample], (start, len): Span, t: u64) -> Sample {
    let right = xs[(start + len) as usize];
    // The sample before a run is unflagged, or the run would have started earlier.
    let left = match start {
        0 => right,
        _ => xs[start as usize - 1],
    };
    let part = (t + 1) as f32 / (len + 1) as f32;
    Sample {
        re: left.re + (right.re - left.re) * part,
        im: left.im + (right.im - left.im) * part,
    }
}

/// Sample `k` as an applying stage hands it on: mended if it lies in a mended run, else raw.
/// "A run still open is unmarked", and unmended.
pub fn value(xs: &[Sample], flags: &[bool], paused: &[bool], block: u64, k: usize) -> Sample {
    if k >= flags.len() || !flags[k] {
        return xs[k];
    }
    // The run's right neighbour; past the judged samples if the run is still open.
    let end = k + flags[k..].iter().take_while(|&&f| f).count();
    match mendable(flags, paused, block, end) {
        Some(run) => mended(xs, run, k as u64 - run.0),
        None => xs[k],
    }
}

/// The marks of the ring Uncertain: "Each judged j of a paused block is marked Uncertain."
pub fn uncertain(flags: &[bool], paused: &[bool], block: u64) -> Vec<Span> {
    (0..flags.len() as u64)
        .filter(|&j| pauses(paused, block, j))
        .map(|j| (j, 1))
        .collect()
}

/// The marks of the ring Repaired, which is also the list of mended runs: an ended run that is
/// not long, where the stage applies and no sample lies in a paused block.
pub fn repaired(flags: &[bool], paused: &[bool], block: u64, applies: bool) -> Vec<Span> {
    if !applies {
        return Vec::new();
    }
    (0..flags.len())
        .filter_map(|j| mendable(flags, paused, block, j))
        .collect()
}

/// The marks of the ring Flagged: "Over 4: marked Flagged [..]. Else, observing or with any
/// sample in a paused block: Flagged."
pub fn kept(flags: &[bool], paused: &[bool], block: u64, applies: bool) -> Vec<Span> {
    runs(flags)
        .filter(|&run| is_long(run) || !applies || touches_paused(paused, block, run))
        .collect()
}

/// "Over 4: [..] long-run count plus 1."
pub fn long_runs(flags: &[bool]) -> u64 {
    runs(flags).filter(|&run| is_long(run)).count() as u64
}

/// "held min(21, seen) if impulse applies, else 0"
pub fn held(applies: bool, seen: usize) -> usize {
    if applies {
        seen.min(LOOKAHEAD)
    } else {
        0
    }
}

/// "If applying, sample k is released when k+21 arrives, otherwise with its own call."
pub fn released(applies: bool, seen: usize) -> usize {
    if applies {
        seen.saturating_sub(LOOKAHEAD)
    } else {
        seen
    }
}
