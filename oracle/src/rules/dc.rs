//! **DC**, and the count that document 02 adds to it.

use super::Sample;

/// The level, and how many updates made it.
#[derive(Debug, Clone, Copy)]
pub struct Level {
    pub re: f64,
    pub im: f64,
    pub updates: u64,
}

/// The level of a fresh chain.
pub const FRESH: Level = Level {
    re: 0.0,
    im: 0.0,
    updates: 0,
};

/// "a = 5 times the f64 6.283185307179586, then divided by fs."
#[allow(clippy::approx_constant)]
pub fn weight(fs: f64) -> f64 {
    5.0 * 6.283185307179586 / fs
}

/// "y = x − level in f64, rounded to f32."
pub fn blocked(level: Level, x: Sample) -> Sample {
    Sample {
        re: (f64::from(x.re) - level.re) as f32,
        im: (f64::from(x.im) - level.im) as f32,
    }
}

/// "`norm`: the f64 nearest the exact root of the rounded f64 power."
pub fn norm(re: f64, im: f64) -> f64 {
    (re * re + im * im).sqrt()
}

/// The limit acts on a step: "where norm(y) > 1".
pub fn clamps(y: Sample) -> bool {
    norm(f64::from(y.re), f64::from(y.im)) > 1.0
}

/// "If no update has happened and both parts of y are zero, nothing moves. Else level +=
/// y·max(a, 1/(n+1)), with n earlier updates, y first multiplied by 1/norm(y) where norm(y) > 1."
pub fn moved(a: f64, level: Level, y: Sample) -> Level {
    if level.updates == 0 && y.re == 0.0 && y.im == 0.0 {
        return level;
    }
    let (mut re, mut im) = (f64::from(y.re), f64::from(y.im));
    if clamps(y) {
        let scale = 1.0 / norm(re, im);
        re *= scale;
        im *= scale;
    }
    let start = 1.0 / (level.updates + 1) as f64;
    let step = if a > start { a } else { start };
    Level {
        re: level.re + re * step,
        im: level.im + im * step,
        updates: level.updates + 1,
    }
}

/// The levels before each of the samples `xs` that enter the stage, and last the level after all.
pub fn levels(fs: f64, xs: &[Sample]) -> Vec<Level> {
    let a = weight(fs);
    let mut level = FRESH;
    let mut all = vec![level];
    for &x in xs {
        level = moved(a, level, blocked(level, x));
        all.push(level);
    }
    all
}

/// What an applying stage writes for the samples `xs`.
pub fn outputs(fs: f64, xs: &[Sample]) -> Vec<Sample> {
    xs.iter()
        .zip(levels(fs, xs))
        .map(|(&x, level)| blocked(level, x))
        .collect()
}

/// Document 02, R-1: "A DC step says beside its sample whether the limit acted, and the log counts
/// those steps." Their number among the samples `xs` that enter the stage, applying or observing.
/// Where nothing moves y is zero, so the limit does not act there.
pub fn clamped(fs: f64, xs: &[Sample]) -> u64 {
    outputs(fs, xs).into_iter().filter(|&y| clamps(y)).count() as u64
}

/// "DC undo writes y + level to a second slice, the level advancing from y."
pub fn undone(fs: f64, ys: &[Sample]) -> Vec<Sample> {
    let a = weight(fs);
    let mut level = FRESH;
    let mut xs = Vec::with_capacity(ys.len());
    for &y in ys {
        xs.push(Sample {
            re: (f64::from(y.re) + level.re) as f32,
            im: (f64::from(y.im) + level.im) as f32,
        });
        level = moved(a, level, y);
    }
    xs
}
