// From manta-dsp (commit 0fab1724d4), MIT or Apache-2.0; see NOTICE.
//! DC removal (MAN-203 D5): a first-order DC blocker with a 5 Hz corner.
//!
//! The estimate `dc` starts at zero and updates once per sample:
//! `y[n] = x[n] - dc[n]`, then `dc[n+1] = dc[n] + a_n * clamp(y[n])`, with
//! `a_n = max(2π·DC_CORNER_HZ/fs, 1/(n+1))` (a running mean at the start,
//! so the estimate settles fast) and `clamp` limiting the update's
//! magnitude to [`DC_UPDATE_CLAMP`] (full scale, SPEC §1.3), so a stray
//! impulse moves the estimate by at most `a_n`. The update reads only
//! the f32 output `y`, so [`revert_dc`] rebuilds every `dc[n]` from the
//! corrected stream and restores `x[n] = y[n] + dc[n]` exactly up to the
//! f32 rounding of `y`. State is f64. Exact-zero samples before the first
//! nonzero one (lead-in padding) do not advance the state, so `n` counts
//! from the first real sample and reverting the stream with or without
//! its leading zeros gives the same result.

// CHANGED: the local stand-in, with document 01's meaning of each operation
// (`norm` is the root of the rounded power and not `hypot`).
use crate::num_complex::{Complex32, Complex64};

/// The blocker's corner frequency, Hz. A constant, not a config key: 2, 5
/// and 20 Hz were indistinguishable in the MAN-203 research, and a station
/// within about 40 Hz of the centre is undecodable anyway.
pub const DC_CORNER_HZ: f64 = 5.0;

/// The largest magnitude one sample's update may move the estimate by
/// before the `a_n` weight (full scale).
pub const DC_UPDATE_CLAMP: f64 = 1.0;

/// The DC blocker's state.
#[derive(Debug, Clone)]
pub struct DcBlocker {
    // CHANGED: public, so that a test can read them.
    pub a: f64,
    pub n: u64,
    pub dc: Complex64,
    // CHANGED: on how many updates the clamp acted (document 02, R-1).
    pub clamped: u64,
}

impl DcBlocker {
    /// A blocker for sample rate `fs`, with a zero estimate.
    pub fn new(fs: f64) -> Self {
        DcBlocker {
            a: std::f64::consts::TAU * DC_CORNER_HZ / fs,
            n: 0,
            dc: Complex64::new(0.0, 0.0),
            // CHANGED: none yet.
            clamped: 0,
        }
    }

    /// The current DC estimate (the value the next sample will have
    /// subtracted).
    pub fn level(&self) -> Complex64 {
        self.dc
    }

    /// Returns `x` minus the current estimate, and advances the estimate.
    pub fn process_sample(&mut self, x: Complex32) -> Complex32 {
        let y64 = Complex64::new(x.re as f64, x.im as f64) - self.dc;
        let y = Complex32::new(y64.re as f32, y64.im as f32);
        self.advance(y);
        y
    }

    /// Advances the estimate from one corrected output sample. Exact-zero
    /// samples before the first nonzero one (the engine's lead-in padding)
    /// leave the state untouched, so the fast start begins at the first
    /// real sample. The rule reads only `y` and the state, so
    /// [`revert_dc`] applies it identically.
    fn advance(&mut self, y: Complex32) {
        if self.n == 0 && y.re == 0.0 && y.im == 0.0 {
            return;
        }
        let a = self.a.max(1.0 / (self.n as f64 + 1.0));
        let mut innov = Complex64::new(y.re as f64, y.im as f64);
        let mag = innov.norm();
        if mag > DC_UPDATE_CLAMP {
            innov *= DC_UPDATE_CLAMP / mag;
            // CHANGED: counts it.
            self.clamped += 1;
        }
        self.dc += innov * a;
        self.n += 1;
    }
}

/// The inverse of an applied DC blocker that started at the stream's first
/// sample: rebuilds the estimate from the corrected samples `y` and returns
/// the original `x[n] = y[n] + dc[n]`.
pub fn revert_dc(y: &[Complex32], fs: f64) -> Vec<Complex32> {
    let mut b = DcBlocker::new(fs);
    y.iter()
        .map(|&yn| {
            let x = Complex64::new(yn.re as f64, yn.im as f64) + b.dc;
            b.advance(yn);
            Complex32::new(x.re as f32, x.im as f32)
        })
        .collect()
}
