//! **Mirror monitor.**
//!
//! `hops` are all accepted hops in order: each starts at or after the end of the one before.

use super::impulse::Span;
use super::Sample;

/// An accepted hop: its start and its n channels.
#[derive(Debug, Clone)]
pub struct Hop {
    pub start: u64,
    pub channels: Vec<Sample>,
}

/// What a completed window reports.
#[derive(Debug, Clone, Copy)]
pub struct Evidence {
    pub first: u64,
    pub end: u64,
    pub suspected: bool,
    pub coherence: f64,
    pub floor: f64,
    /// p: the strongest eligible channel's power.
    pub strongest: f64,
    /// q: its mirror's.
    pub mirror: f64,
}

/// The sums of a window, channel by channel.
#[derive(Debug, Clone)]
pub struct Sums {
    pub power: Vec<f64>,
    pub cross_re: Vec<f64>,
    pub cross_im: Vec<f64>,
}

/// "`powf(0.6)` of 10 is the f64 nearest 3.9810717055349725"
const TEN_TO_0_6: f64 = 3.9810717055349725;

/// A channel's parts in f64.
fn wide(x: Sample) -> (f64, f64) {
    (f64::from(x.re), f64::from(x.im))
}

/// "power: re·re + im·im"
fn power((re, im): (f64, f64)) -> f64 {
    re * re + im * im
}

/// "channel (n−k) mod n"
fn mirror(n: usize, k: usize) -> usize {
    (n - k) % n
}

/// "hop = n/4", whole division: a hop's newly covered samples.
pub fn end(n: usize, hop: &Hop) -> u64 {
    hop.start + (n / 4) as u64
}

/// "max(1, ceiling of 5·fs)"
pub fn window_length(fs: f64) -> u64 {
    ((5.0 * fs).ceil() as u64).max(1)
}

/// For each hop, the number of the hop that opened its window: "When end − first ≥ [..], it
/// reports and starts afresh."
pub fn opened_by(fs: f64, n: usize, hops: &[Hop]) -> Vec<usize> {
    let mut opened = 0;
    let mut all = Vec::with_capacity(hops.len());
    for i in 0..hops.len() {
        all.push(opened);
        if reports(fs, n, hops, opened, i) {
            opened = i + 1;
        }
    }
    all
}

/// Whether hop `i` completes the window that hop `opened` opened.
pub fn reports(fs: f64, n: usize, hops: &[Hop], opened: usize, i: usize) -> bool {
    end(n, &hops[i]) - hops[opened].start >= window_length(fs)
}

/// "Each hop adds each channel's power and its product with channel (n−k) mod n, in f64."
pub fn sums(n: usize, hops: &[Hop]) -> Sums {
    let mut sums = Sums {
        power: vec![0.0; n],
        cross_re: vec![0.0; n],
        cross_im: vec![0.0; n],
    };
    for hop in hops {
        for k in 0..n {
            let a = wide(hop.channels[k]);
            let b = wide(hop.channels[mirror(n, k)]);
            sums.power[k] += power(a);
            sums.cross_re[k] += a.0 * b.0 - a.1 * b.1;
            sums.cross_im[k] += a.0 * b.1 + a.1 * b.0;
        }
    }
    sums
}

/// "Eligible: k > 2, k+2 < n, |k − n/2| > 2 (whole division)"
pub fn eligible(n: usize, k: usize) -> bool {
    k > 2 && k + 2 < n && k.abs_diff(n / 2) > 2
}

/// "the strongest wins, equals to the greatest k"
pub fn strongest(n: usize, power: &[f64]) -> Option<usize> {
    let mut best = None;
    for k in (0..n).filter(|&k| eligible(n, k)) {
        if best.is_none_or(|b: usize| power[k] >= power[b]) {
            best = Some(k);
        }
    }
    best
}

/// "Floor: half the sum of sorted places (n−1)/2 and n/2."
pub fn floor(n: usize, power: &[f64]) -> f64 {
    let mut sorted = power.to_vec();
    sorted.sort_by(f64::total_cmp);
    (sorted[(n - 1) / 2] + sorted[n / 2]) * 0.5
}

/// The report of the window of the hops `hops`. "Coherence: cross power/(p·q) clamped to 0..1, or
/// 0 if p·q is 0. Suspected: p, q > 0, p ≥ 1000·floor, q ≥ 10^0.6·floor, q ≤ p."; no eligible
/// channel "gives p, q and coherence 0".
pub fn evidence(n: usize, hops: &[Hop]) -> Evidence {
    let sums = sums(n, hops);
    let floor = floor(n, &sums.power);
    let (p, q, coherence) = match strongest(n, &sums.power) {
        None => (0.0, 0.0, 0.0),
        Some(k) => {
            let p = sums.power[k];
            let q = sums.power[mirror(n, k)];
            let cross = power((sums.cross_re[k], sums.cross_im[k]));
            let coherence = if p * q == 0.0 {
                0.0
            } else {
                (cross / (p * q)).clamp(0.0, 1.0)
            };
            (p, q, coherence)
        }
    };
    Evidence {
        first: hops[0].start,
        end: end(n, &hops[hops.len() - 1]),
        suspected: p > 0.0 && q > 0.0 && p >= 1000.0 * floor && q >= TEN_TO_0_6 * floor && q <= p,
        coherence,
        floor,
        strongest: p,
        mirror: q,
    }
}

/// The answers of the accepted hops, in order; `None` is the answer "that no report is due".
pub fn answers(fs: f64, n: usize, hops: &[Hop]) -> Vec<Option<Evidence>> {
    opened_by(fs, n, hops)
        .into_iter()
        .enumerate()
        .map(|(i, opened)| reports(fs, n, hops, opened, i).then(|| evidence(n, &hops[opened..=i])))
        .collect()
}

/// The hops of the window that is still open.
pub fn open_window(fs: f64, n: usize, hops: &[Hop]) -> &[Hop] {
    match opened_by(fs, n, hops).last() {
        Some(&opened) if !reports(fs, n, hops, opened, hops.len() - 1) => &hops[opened..],
        _ => &[],
    }
}

/// "Its lent f64 words are n powers, n real and n imaginary product sums, and n for sorting that
/// an accepted hop leaves 0; a report leaves all 0."
pub fn words(fs: f64, n: usize, hops: &[Hop]) -> Vec<f64> {
    let open = sums(n, open_window(fs, n, hops));
    [open.power, open.cross_re, open.cross_im, vec![0.0; n]].concat()
}

/// The suspected windows, in order: "A suspected window is marked Uncertain only while
/// observing."
pub fn suspected(fs: f64, n: usize, hops: &[Hop]) -> Vec<Span> {
    answers(fs, n, hops)
        .into_iter()
        .flatten()
        .filter(|e| e.suspected)
        .map(|e| (e.first, e.end - e.first))
        .collect()
}
