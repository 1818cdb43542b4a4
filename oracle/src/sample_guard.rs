// From manta-dsp (commit 0fab1724d4), MIT or Apache-2.0; see NOTICE.
//! Input sample guard (MAN-234, SPEC §1.3 step 0): an input sample whose
//! `re` or `im` is NaN, infinite or larger in magnitude than
//! `MAX_SAMPLE_MAGNITUDE` is replaced with silence (`0+0j`) and counted,
//! so no input value can panic the pipeline or latch its floor and gate
//! averages. A usable sample is never written, so clean input stays
//! bit-identical.

// CHANGED: the local stand-in.
use crate::num_complex::Complex32;

/// Largest `|re|` or `|im|` an input sample may have. The prototype filter's
/// absolute tap sum is below 1.34 for every supported N, so a window of
/// samples within this bound gives channel power below 3.6e34, four decades
/// under `f32::MAX`; every source manta reads delivers full scale at 1.0.
pub const MAX_SAMPLE_MAGNITUDE: f32 = 1.0e17;

/// Whether both components are within `±MAX_SAMPLE_MAGNITUDE`. NaN compares
/// false, so it is never usable.
#[inline]
pub fn is_usable(s: Complex32) -> bool {
    s.re.abs() <= MAX_SAMPLE_MAGNITUDE && s.im.abs() <= MAX_SAMPLE_MAGNITUDE
}

/// Replace every unusable sample with `0+0j`; returns how many were
/// replaced. A slice of usable samples is read once and not written.
pub fn replace_unusable(samples: &mut [Complex32]) -> u64 {
    if samples.iter().all(|&s| is_usable(s)) {
        return 0;
    }
    let mut replaced = 0;
    for s in samples.iter_mut().filter(|s| !is_usable(**s)) {
        *s = Complex32::new(0.0, 0.0);
        replaced += 1;
    }
    replaced
}
