//! The types of the two sides, the original and the second reading, each as the other's; and the
//! original made for a setting.

use crate::condition::impulse::PauseRule;
use crate::condition::iq::IqCalibration;
use crate::condition::{ConditioningConfig, InputConditioner, StageMode};
use crate::num_complex::Complex32;
use crate::rules::impulse::begins_paused;
use crate::rules::{Calibration, Edition, Mode, Sample, Setting};

pub fn c32(x: Sample) -> Complex32 {
    Complex32::new(x.re, x.im)
}

pub fn sample(c: Complex32) -> Sample {
    Sample::new(c.re, c.im)
}

pub fn all_c32(xs: &[Sample]) -> Vec<Complex32> {
    xs.iter().map(|&x| c32(x)).collect()
}

pub fn words(xs: &[Sample]) -> Vec<u64> {
    xs.iter().map(|x| x.word()).collect()
}

pub fn words_c32(xs: &[Complex32]) -> Vec<u64> {
    xs.iter().map(|&c| sample(c).word()).collect()
}

pub fn stage_mode(mode: Mode) -> StageMode {
    match mode {
        Mode::Off => StageMode::Off,
        Mode::Observe => StageMode::Observe,
        Mode::Apply => StageMode::Apply,
    }
}

pub fn calibration(c: Calibration) -> IqCalibration {
    IqCalibration {
        gain_ratio: c.gain,
        phase_deg: c.phase,
        center_freq_hz: c.centre,
    }
}

pub fn config(s: &Setting) -> ConditioningConfig {
    ConditioningConfig {
        impulse: stage_mode(s.impulse),
        dc: stage_mode(s.dc),
        iq: stage_mode(s.iq),
        iq_calibration: s.calibration.map(calibration),
    }
}

/// The original, made for the setting. It has edition 1 of the pause rule; under edition 2 it pauses
/// as the second reading says.
pub fn original(s: &Setting) -> Option<InputConditioner> {
    let mut chain =
        InputConditioner::with_geometry(s.fs, s.centre, s.n, &config(s), s.spans, s.repairs)?;
    if let Some(impulse) = &mut chain.impulse {
        impulse.pause_rule = pause_rule(s.edition);
    }
    Some(chain)
}

fn pause_rule(edition: Edition) -> Option<PauseRule> {
    match edition {
        Edition::First => None,
        Edition::Second => Some(|was_paused, flagged, block| {
            begins_paused(Edition::Second, was_paused, flagged as usize, block)
        }),
    }
}

/// A setting with the given modes; the rest as the tests mostly want it.
pub fn setting(fs: f64, impulse: Mode, dc: Mode, iq: Mode) -> Setting {
    Setting {
        fs,
        centre: f64::NAN,
        n: 8,
        impulse,
        dc,
        iq,
        edition: Edition::First,
        calibration: None,
        spans: 256,
        repairs: 4096,
    }
}
