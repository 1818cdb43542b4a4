//! **Guard.**

use super::Sample;

/// "A part is usable if its size is at most 1.0e17 (the f32 constant); NaN isn't."
pub fn part_usable(part: f32) -> bool {
    part.abs() <= 1.0e17f32
}

/// Both parts are.
pub fn usable(x: Sample) -> bool {
    part_usable(x.re) && part_usable(x.im)
}

/// "Guarding replaces unusable samples by 0 and counts them." The samples and the count.
pub fn guarded(xs: &[Sample]) -> (Vec<Sample>, u64) {
    let samples = xs
        .iter()
        .map(|&x| if usable(x) { x } else { Sample::ZERO })
        .collect();
    let count = xs.iter().filter(|&&x| !usable(x)).count() as u64;
    (samples, count)
}
