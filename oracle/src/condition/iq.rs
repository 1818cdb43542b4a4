// From manta-dsp (commit 0fab1724d4), MIT or Apache-2.0; see NOTICE.
//! Fixed receiver IQ calibration, controlled-tone measurement and conservative
//! mirror observation. A mirror observation never supplies correction coefficients.
// CHANGED: the local stand-in, with document 01's sine, cosine and radians.
use crate::num_complex::{self, Complex32, Complex64};

// CHANGED: no FFT and no TAU, which only the tone meter used.
fn wide(x: Complex32) -> Complex64 {
    Complex64::new(x.re as f64, x.im as f64)
}
fn narrow(x: Complex64) -> Complex32 {
    Complex32::new(x.re as f32, x.im as f32)
}

/// A receiver calibration measured with a separate, continuous single tone.
#[derive(Debug, Clone, Copy, PartialEq)]
pub struct IqCalibration {
    /// Q-channel gain divided by I-channel gain, in [0.5, 2].
    pub gain_ratio: f64,
    /// Q phase error in degrees, in [-45, 45].
    pub phase_deg: f64,
    /// Actual receiver centre when measured, in Hz.
    pub center_freq_hz: f64,
}
impl IqCalibration {
    /// Reject unusable calibration values at every entry point.
    pub fn validate(&self) -> Result<(), String> {
        if !self.gain_ratio.is_finite() || !(0.5..=2.0).contains(&self.gain_ratio) {
            return Err("iq_gain_ratio must be finite and in [0.5, 2.0]".into());
        }
        if !self.phase_deg.is_finite() || !(-45.0..=45.0).contains(&self.phase_deg) {
            return Err("iq_phase_deg must be finite and in [-45, 45]".into());
        }
        if !self.center_freq_hz.is_finite() || self.center_freq_hz <= 0.0 {
            return Err("iq_calibrated_center_hz must be finite and positive".into());
        }
        Ok(())
    }
    /// Conjugate leakage coefficient for `m.im = g*(s.im*cos(phi)+s.re*sin(phi))`.
    pub fn image_ratio(&self) -> Complex64 {
        // CHANGED: `to_radians` with document 01's constant.
        let w = Complex64::from_polar(self.gain_ratio, -num_complex::to_radians(self.phase_deg));
        (1.0 - w) / (1.0 + w)
    }
    // CHANGED: `from_image_ratio` left out, as document 01 does.
}

/// Fixed, validated conjugate cancellation. No observation changes `rho`.
#[derive(Debug, Clone)]
pub struct IqCorrector {
    // CHANGED: public, so that a test can read it.
    pub rho: Complex64,
}
impl IqCorrector {
    /// Build an invertible correction from a finite, nonsingular coefficient.
    pub fn new(rho: Complex64) -> Result<Self, String> {
        if !rho.re.is_finite() || !rho.im.is_finite() || rho.norm_sqr() >= 1.0 - 1e-12 {
            return Err("IQ image coefficient must be finite with magnitude below one".into());
        }
        Ok(Self { rho })
    }
    /// `y = m - rho*conj(m)`, evaluated in f64 then rounded once to f32.
    pub fn process_sample(&self, m: Complex32) -> Complex32 {
        narrow(wide(m) - self.rho * wide(m).conj())
    }
}
/// Undo IQ correction before undoing DC and impulse repairs.
pub fn revert_iq(samples: &mut [Complex32], rho: Complex64) -> Result<(), String> {
    IqCorrector::new(rho)?;
    for s in samples {
        let y = wide(*s);
        *s = narrow((y + rho * y.conj()) / (1.0 - rho.norm_sqr()));
    }
    Ok(())
}
// CHANGED: `image_rejection_db`, `ToneRejection`, `ToneResult`, `ToneMeter` and the
// functions only they use left out, as document 01 does.

/// Evidence from one complete five-second mirror window. Powers are finite
/// accumulated channel powers, not dB. Coherence never authorizes correction.
#[derive(Debug, Clone, PartialEq)]
pub struct ImageResult {
    /// First newly covered channelizer-input sample.
    pub start_sample: u64,
    /// Exclusive end of newly covered input, without FFT overlap duplication.
    pub end_sample: u64,
    /// Strong primary and detectable weaker mirror over the median floor.
    pub suspected: bool,
    /// Normalized mirror correlation, clamped into `0..=1`.
    pub coherence: f64,
    /// Median channel power.
    pub floor_power: f64,
    /// Strongest usable channel's power.
    pub strongest_power: f64,
    /// Corresponding conjugate-mirror power.
    pub mirror_power: f64,
}
/// Hop-domain mirror evidence in disjoint five-second input intervals.
#[derive(Debug, Clone)]
pub struct ImageMonitor {
    n: usize,
    hop: u64,
    window_samples: u64,
    // CHANGED: these four public, so that a test can read the window's words.
    pub start: Option<u64>,
    pub end: u64,
    pub power: Vec<f64>,
    pub cross: Vec<Complex64>,
}
impl ImageMonitor {
    /// Geometry of the actual channelizer. Every hop is observed once.
    pub fn new(fs: f64, n: usize, hop: usize) -> Self {
        Self {
            n,
            hop: hop as u64,
            window_samples: (fs * 5.0).ceil().max(1.0) as u64,
            start: None,
            end: 0,
            power: vec![0.0; n],
            cross: vec![Complex64::new(0.0, 0.0); n],
        }
    }
    /// Observe a hop at its absolute input position. Partial windows wait.
    /// Each hop contributes only its newly covered interval to span coverage.
    pub fn observe(&mut self, x: &[Complex32], start_sample: u64) -> Option<ImageResult> {
        if x.len() != self.n || self.n < 8 {
            return None;
        }
        let first = *self.start.get_or_insert(start_sample);
        self.end = self.end.max(start_sample + self.hop);
        for (k, &sample) in x.iter().enumerate() {
            let value = wide(sample);
            self.power[k] += value.norm_sqr();
            self.cross[k] += value * wide(x[(self.n - k) % self.n]);
        }
        if self.end - first < self.window_samples {
            return None;
        }
        let eligible = |k: usize| k > 2 && k + 2 < self.n && k.abs_diff(self.n / 2) > 2;
        let strongest = (0..self.n)
            .filter(|&k| eligible(k))
            .max_by(|&a, &b| self.power[a].total_cmp(&self.power[b]));
        let mut sorted = self.power.clone();
        sorted.sort_by(f64::total_cmp);
        let floor = (sorted[(self.n - 1) / 2] + sorted[self.n / 2]) * 0.5;
        let (primary, mirror, coherence) = if let Some(k) = strongest {
            let m = (self.n - k) % self.n;
            let p = self.power[k];
            let q = self.power[m];
            let denominator = p * q;
            let coherence = if denominator > 0.0 {
                (self.cross[k].norm_sqr() / denominator).clamp(0.0, 1.0)
            } else {
                0.0
            };
            (p, q, coherence)
        } else {
            (0.0, 0.0, 0.0)
        };
        let result = ImageResult {
            start_sample: first,
            end_sample: self.end,
            suspected: primary > 0.0
                && mirror > 0.0
                && primary >= 1000.0 * floor
                // CHANGED: `powf` gives document 01's constant.
                && mirror >= num_complex::TEN_TO_0_6 * floor
                && mirror <= primary,
            coherence,
            floor_power: floor,
            strongest_power: primary,
            mirror_power: mirror,
        };
        self.start = None;
        self.power.fill(0.0);
        self.cross.fill(Complex64::new(0.0, 0.0));
        Some(result)
    }
}
