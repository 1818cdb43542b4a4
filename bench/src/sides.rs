//! The two sides: the C library, and the Rust original. Each takes the whole input in place, call after
//! call: the samples held from the call before, and then the new ones.

use oracle::condition::dc::revert_dc;
use oracle::condition::impulse::revert_repairs;
use oracle::condition::iq::{revert_iq, IqCalibration};
use oracle::condition::{ConditioningConfig, InputConditioner, StageMode};
use oracle::num_complex::Complex32;
use oracle::sample_guard::replace_unusable;
use vatgorge::*;

pub const GAIN: f64 = 1.05;
pub const PHASE: f64 = 2.0;
pub const CENTRE: f64 = 7.1e6;

/// Which stages apply; the others are off.
#[derive(Clone, Copy)]
pub struct Stages {
    pub impulse: bool,
    pub dc: bool,
    pub iq: bool,
}

/// A chain's rate, and how many spans a ring and how many repairs the log hold.
#[derive(Clone, Copy)]
pub struct Setting {
    pub stages: Stages,
    pub fs: f64,
    pub spans: usize,
    pub repairs: usize,
}

pub fn word(x: Complex32) -> u64 {
    u64::from(x.re.to_bits()) | u64::from(x.im.to_bits()) << 32
}

// ---- the C library

/// The stores that a caller lends.
pub struct Stores {
    pub spans: Vec<u64>,
    pub repairs: Vec<u64>,
    pub words: Vec<f64>,
}
impl Stores {
    pub fn new(spans: usize, repairs: usize, n: usize) -> Self {
        Stores {
            spans: vec![0; 24 * spans],
            repairs: vec![0; 6 * repairs],
            words: vec![0.0; 4 * n],
        }
    }
}

// The pause rule that the original has.
const FIRST_EDITION: u64 = 1;

// A chain whose capacities the stores' lengths say.
fn made(modes: [u64; 3], fs: f64, stores: &mut Stores) -> State {
    let [impulse, dc, iq] = modes;
    let [gain, phase, centre] = [GAIN, PHASE, CENTRE].map(f64::to_bits);
    let n = stores.words.len() as u64 / 4;
    let spans = stores.spans.len() as u64 / 24;
    let repairs = stores.repairs.len() as u64 / 6;
    let config = [
        impulse,
        dc,
        iq,
        fs.to_bits(),
        centre,
        n,
        1,
        gain,
        phase,
        centre,
        spans,
        repairs,
        FIRST_EDITION,
    ];
    let mut state = [0; STATE_WORDS];
    let Stores {
        spans,
        repairs,
        words,
    } = stores;
    let number = vg_make(&config, &mut state, spans, repairs, words);
    assert_eq!(number, 0, "no chain is made");
    state
}

/// Answers how many samples it released, which stand in front, and the state.
pub fn proved(
    setting: Setting,
    block: usize,
    samples: &mut [u64],
    stores: &mut Stores,
) -> (usize, State) {
    let Stages { impulse, dc, iq } = setting.stages;
    let modes = [impulse, dc, iq].map(|applies| 2 * u64::from(applies));
    let mut state = made(modes, setting.fs, stores);
    let (mut at, mut held) = (0, 0);
    let mut out = [0; CONDITION_WORDS];
    while at + held < samples.len() {
        let end = samples.len().min(at + held + block);
        let slice = &mut samples[at..end];
        let number = vg_condition(
            &mut state,
            slice,
            &mut stores.spans,
            &mut stores.repairs,
            &mut out,
        );
        assert_eq!(number, 0, "a call is refused");
        at += out[0] as usize;
        held = end - at;
    }
    (at, state)
}

/// Answers how many reports there were.
pub fn proved_hops(fs: f64, hops: usize, x: &[u64], stores: &mut Stores) -> usize {
    let mut state = made([0, 0, 1], fs, stores);
    let mut reports = 0;
    let mut out = [0; HOP_WORDS];
    for k in 0..hops {
        let start = (k * (x.len() / 4)) as u64;
        let number = vg_hop(
            &mut state,
            x,
            start,
            &mut stores.spans,
            &mut stores.words,
            &mut out,
        );
        assert_eq!(number, 0, "a hop is refused");
        reports += out[0] as usize;
    }
    reports
}

// ---- the Rust original

fn mode(applies: bool) -> StageMode {
    if applies {
        StageMode::Apply
    } else {
        StageMode::Off
    }
}

pub fn original(
    setting: Setting,
    block: usize,
    samples: &mut [Complex32],
) -> (usize, InputConditioner) {
    let config = ConditioningConfig {
        impulse: mode(setting.stages.impulse),
        dc: mode(setting.stages.dc),
        iq: mode(setting.stages.iq),
        iq_calibration: Some(IqCalibration {
            gain_ratio: GAIN,
            phase_deg: PHASE,
            center_freq_hz: CENTRE,
        }),
    };
    let mut chain = InputConditioner::with_geometry(
        setting.fs,
        CENTRE,
        8,
        &config,
        setting.spans,
        setting.repairs,
    )
    .expect("a stage runs");
    let mut at = 0;
    while at + chain.held < samples.len() {
        let end = samples.len().min(at + chain.held + block);
        at += chain.condition(&mut samples[at..end]);
    }
    (at, chain)
}

pub fn original_hops(fs: f64, hops: usize, x: &[Complex32]) -> (usize, InputConditioner) {
    let config = ConditioningConfig {
        iq: StageMode::Observe,
        ..ConditioningConfig::default()
    };
    let mut chain = InputConditioner::with_geometry(fs, f64::NAN, x.len(), &config, 1, 1)
        .expect("a stage runs");
    let mut reports = 0;
    for k in 0..hops {
        let start = (k * (x.len() / 4)) as u64;
        reports += usize::from(chain.observe_hop(x, start).is_some());
    }
    (reports, chain)
}

// ---- the undos and the guard

/// What is done to samples behind a chain, or in front of it.
#[derive(Clone, Copy)]
pub enum Other {
    RepairUndo,
    DcUndo,
    IqUndo,
    Guard,
}

/// A chain that has run, on both sides, with room for a part of DC undo.
pub struct Ran {
    pub chain: InputConditioner,
    pub state: State,
    pub repairs: Vec<u64>,
    pub fs: f64,
    pub room: Vec<u64>,
}

/// Over the samples in place, part after part.
pub fn proved_other(what: Other, ran: &mut Ran, block: usize, samples: &mut [u64]) {
    let rho = ran.chain.iq.as_ref().expect("IQ corrects").rho;
    let (mut first, mut place) = (0, 0);
    for part in samples.chunks_mut(block) {
        let number = match what {
            Other::RepairUndo => vg_undo_repairs(&ran.state, &ran.repairs, part, first),
            Other::DcUndo => {
                let out = &mut ran.room[..part.len()];
                let number = vg_undo_dc(part, ran.fs, out, &mut place);
                part.copy_from_slice(out);
                number
            }
            Other::IqUndo => vg_undo_iq(part, rho.re, rho.im, &mut place),
            Other::Guard => {
                vg_guard(part);
                0
            }
        };
        assert_eq!(number, 0, "it is refused");
        first += part.len() as u64;
    }
}

pub fn original_other(what: Other, ran: &Ran, block: usize, samples: &mut [Complex32]) {
    let rho = ran.chain.iq.as_ref().expect("IQ corrects").rho;
    let mut first = 0;
    for part in samples.chunks_mut(block) {
        match what {
            Other::RepairUndo => revert_repairs(part, first, ran.chain.log()),
            Other::DcUndo => part.copy_from_slice(&revert_dc(part, ran.fs)),
            Other::IqUndo => revert_iq(part, rho).expect("a coefficient of a chain"),
            Other::Guard => {
                replace_unusable(part);
            }
        }
        first += part.len() as u64;
    }
}
