// From manta-dsp (commit 0fab1724d4), MIT or Apache-2.0; see NOTICE.
//! Optional, reversible input conditioning (MAN-203), run inside
//! [`crate::channelizer::Channelizer::process`] right after the MAN-234
//! sample guard (SPEC §1.3 step 0a).
//!
//! Each stage is [`StageMode::Off`] (the default: no conditioner exists, so
//! the channelizer is bit-identical to one built with
//! [`crate::channelizer::Channelizer::new`]), [`StageMode::Observe`]
//! (measure and annotate, never write a sample) or [`StageMode::Apply`].
//! Every stage records the samples it touched in a bounded span log
//! ([`ConditioningLog`]) and has an exact inverse given that log, so a
//! correction can be audited and undone. Raw recordings are taken upstream
//! of the channelizer, so an A/B comparison is a re-decode of the same file
//! with a different config.
//!
//! The chain runs short-impulse suppression ([`impulse`]), DC removal
//! ([`dc`]), tone measurement, then calibrated IQ correction ([`iq`]).
//! An applying impulse stage holds back
//! [`impulse::IMPULSE_LOOKAHEAD`] samples, so [`InputConditioner::condition`]
//! returns how many samples are final and the channelizer forms hops only
//! from those.

pub mod dc;
pub mod impulse;
pub mod iq;

// CHANGED: the local stand-in, with document 01's meaning of each operation.
use crate::num_complex::{Complex32, Complex64};
use std::collections::VecDeque;

/// How one conditioning stage runs.
#[derive(Debug, Clone, Copy, PartialEq, Eq, Default)]
pub enum StageMode {
    /// The stage does nothing and allocates nothing (the default).
    #[default]
    Off,
    /// The stage measures and annotates, and never writes a sample.
    Observe,
    /// The stage corrects the samples and annotates what it changed.
    Apply,
}

/// Which conditioning stages run, and how. The default turns every stage
/// off.
#[derive(Debug, Clone, PartialEq, Default)]
pub struct ConditioningConfig {
    /// Short-impulse suppression: repair isolated runs of up to
    /// [`impulse::IMPULSE_MAX_RUN`] samples; longer bursts are never
    /// touched.
    pub impulse: StageMode,
    /// DC removal: a 5 Hz first-order high-pass at the centre frequency
    /// ([`dc::DC_CORNER_HZ`]).
    pub dc: StageMode,
    /// Calibrated IQ correction, or conservative mirror observation.
    pub iq: StageMode,
    /// Controlled-tone calibration for this receiver and centre frequency.
    pub iq_calibration: Option<iq::IqCalibration>,
    // CHANGED: `iq_tone_hz` left out, as document 01 does.
}

impl ConditioningConfig {
    /// True when every stage is off, so no conditioner is built.
    pub fn is_off(&self) -> bool {
        self.impulse == StageMode::Off && self.dc == StageMode::Off && self.iq == StageMode::Off
    }

    /// The impulse and DC stages with every non-`apply` mode forced to
    /// [`StageMode::Observe`] (`Off` becomes `Observe`; `Apply` stays
    /// `Apply`); any other stage this struct gains later keeps its
    /// configured mode, so that stage's observation surface lands with
    /// its own ticket. Built by cloning and overwriting the two fields
    /// (never an exhaustive literal), so a sibling ticket adding a stage
    /// does not break the build. What a diagnostic command runs so it
    /// measures while never writing a sample the operator did not ask to
    /// have corrected (MAN-203: doctor observes the impulse and DC
    /// stages).
    pub fn observing(&self) -> Self {
        let force = |mode: StageMode| match mode {
            StageMode::Off | StageMode::Observe => StageMode::Observe,
            StageMode::Apply => StageMode::Apply,
        };
        let mut observed = self.clone();
        observed.impulse = force(self.impulse);
        observed.dc = force(self.dc);
        observed
    }
}

/// IQ correction authorization, frozen at stream construction.
#[derive(Debug, Clone, Copy, PartialEq, Eq)]
pub enum IqStatus {
    /// No IQ work requested.
    Off,
    /// Evidence only; samples are unchanged.
    Observing,
    /// Valid calibration at a matching receiver centre.
    Correcting,
    /// Requested correction withheld, including invalid or absent calibration.
    CalibrationMismatch,
}

/// A conditioning stage, for span and counter labels.
#[derive(Debug, Clone, Copy, PartialEq, Eq, PartialOrd, Ord, Hash)]
pub enum Stage {
    /// Short-impulse suppression ([`impulse`]).
    Impulse,
    /// DC removal ([`dc`]).
    Dc,
    /// IQ imbalance ([`iq`]).
    Iq,
}

impl Stage {
    /// Every stage, in chain order.
    pub const ALL: [Stage; 3] = [Stage::Impulse, Stage::Dc, Stage::Iq];
}

/// What a stage did to a span of samples.
#[derive(Debug, Clone, Copy, PartialEq, Eq, PartialOrd, Ord, Hash)]
pub enum Mark {
    /// The impulse stage replaced these samples by interpolation; the log
    /// keeps their originals.
    Repaired,
    /// The impulse stage judged these samples impulsive and left them
    /// unchanged: an `Observe` stage, a run too long to repair, or a run in
    /// a paused block.
    Flagged,
    /// The stage changed these samples (an `Apply` DC or IQ stage).
    Corrected,
    /// The stage's assumption did not hold here, so it changed nothing:
    /// a block the impulse stage paused itself in.
    Uncertain,
}

impl Mark {
    /// Every mark.
    pub const ALL: [Mark; 4] = [
        Mark::Repaired,
        Mark::Flagged,
        Mark::Corrected,
        Mark::Uncertain,
    ];
}

/// A run of consecutive input samples one stage marked the same way.
/// `start_sample` counts channelizer-input samples from construction,
/// including any lead-in padding the caller fed.
#[derive(Debug, Clone, Copy, PartialEq, Eq)]
pub struct MarkedSpan {
    /// The stage that marked the span.
    pub stage: Stage,
    /// What it did.
    pub mark: Mark,
    /// The first marked sample's channelizer-input index.
    pub start_sample: u64,
    /// The number of samples in the span.
    pub len: u64,
}

/// Span-log capacity per (stage, mark): once one is full, its oldest span is
/// dropped and counted in [`ConditioningLog::spans_dropped`]. Counters never
/// drop.
pub const SPAN_LOG_CAPACITY: usize = 256;

/// What the conditioner did since construction: a bounded span log, exact
/// per-(stage, mark) sample counts, and the stages' latest measurements.
#[derive(Debug, Clone, PartialEq)]
pub struct ConditioningLog {
    config: ConditioningConfig,
    /// One span ring per (stage, mark), in [`Stage::ALL`] then
    /// [`Mark::ALL`] order, so each ring is in stream order however the
    /// input is split.
    spans: [[VecDeque<MarkedSpan>; Mark::ALL.len()]; Stage::ALL.len()],
    spans_dropped: u64,
    counts: [[u64; Mark::ALL.len()]; Stage::ALL.len()],
    samples_seen: u64,
    dc_level: Option<Complex64>,
    // CHANGED: the DC stage's count of clamped updates.
    dc_clamped: u64,
    impulse_long_runs: u64,
    repairs: VecDeque<impulse::Repair>,
    repairs_dropped: u64,
    iq_status: IqStatus,
    image_result: Option<iq::ImageResult>,
    // CHANGED: no tone result; the two capacities, constants in the original; the marks and repairs
    // as they were told, if a listener asked for them.
    span_capacity: usize,
    repair_capacity: usize,
    told: Option<Told>,
}

// CHANGED: what a log was told, in order, so that a listener can lay out ring words.
#[derive(Debug, Clone, PartialEq, Default)]
pub struct Told {
    pub marks: Vec<MarkedSpan>,
    pub repairs: Vec<impulse::Repair>,
}

impl ConditioningLog {
    // CHANGED: takes the two capacities.
    fn new(config: ConditioningConfig, span_capacity: usize, repair_capacity: usize) -> Self {
        ConditioningLog {
            config,
            spans: std::array::from_fn(|_| std::array::from_fn(|_| VecDeque::new())),
            spans_dropped: 0,
            counts: [[0; Mark::ALL.len()]; Stage::ALL.len()],
            samples_seen: 0,
            dc_level: None,
            // CHANGED: none yet.
            dc_clamped: 0,
            impulse_long_runs: 0,
            repairs: VecDeque::new(),
            repairs_dropped: 0,
            iq_status: IqStatus::Off,
            image_result: None,
            // CHANGED: no tone result; the two capacities; no listener.
            span_capacity,
            repair_capacity,
            told: None,
        }
    }

    /// Whether calibration authorized correction for this stream.
    pub fn iq_status(&self) -> IqStatus {
        self.iq_status
    }
    /// Latest completed five-second image window.
    pub fn image_result(&self) -> Option<&iq::ImageResult> {
        self.image_result.as_ref()
    }
    // CHANGED: `tone_result` left out with the tone meter.

    /// The config the conditioner runs.
    pub fn config(&self) -> &ConditioningConfig {
        &self.config
    }

    /// The retained spans: stage by stage in chain order, then mark by
    /// mark in [`Mark::ALL`] order, each (stage, mark) oldest first. A span
    /// that starts where the newest one with the same stage and mark ends
    /// extends it instead of adding a span.
    pub fn spans(&self) -> impl Iterator<Item = &MarkedSpan> {
        self.spans.iter().flatten().flatten()
    }

    /// Spans dropped from the front of the log because it was full.
    pub fn spans_dropped(&self) -> u64 {
        self.spans_dropped
    }

    /// Samples `stage` marked `mark` since construction. Exact, never
    /// bounded by the span log.
    pub fn count(&self, stage: Stage, mark: Mark) -> u64 {
        self.counts[stage as usize][mark as usize]
    }

    /// Channelizer-input samples the conditioner has seen.
    pub fn samples_seen(&self) -> u64 {
        self.samples_seen
    }

    /// The DC stage's current estimate of the input's DC offset (full scale
    /// 1.0), or `None` when the DC stage is off.
    pub fn dc_level(&self) -> Option<Complex64> {
        self.dc_level
    }

    // CHANGED: read like the others.
    /// DC updates that were clamped to full scale.
    pub fn dc_clamped(&self) -> u64 {
        self.dc_clamped
    }

    /// Flagged runs longer than [`impulse::IMPULSE_MAX_RUN`] samples, which
    /// the impulse stage never touches.
    pub fn impulse_long_runs(&self) -> u64 {
        self.impulse_long_runs
    }

    /// The repaired runs whose originals the log still holds, oldest first
    /// ([`impulse::revert_repairs`] restores them).
    pub fn repairs(&self) -> impl Iterator<Item = &impulse::Repair> {
        self.repairs.iter()
    }

    /// Repaired runs dropped from the front of the repair log because it
    /// was full; their originals are lost.
    pub fn repairs_dropped(&self) -> u64 {
        self.repairs_dropped
    }

    fn record_repair(&mut self, r: impulse::Repair) {
        // CHANGED: a listener hears of it.
        if let Some(told) = &mut self.told {
            told.repairs.push(r);
        }
        // CHANGED: the capacity given at construction, for the constant 4096.
        if self.repairs.len() == self.repair_capacity {
            self.repairs.pop_front();
            self.repairs_dropped += 1;
        }
        self.repairs.push_back(r);
    }

    /// Records `len` samples from `start_sample` as `mark` by `stage`,
    /// extending the newest span with the same stage and mark when it ends
    /// at `start_sample`.
    fn mark(&mut self, stage: Stage, mark: Mark, start_sample: u64, len: u64) {
        if len == 0 {
            return;
        }
        // CHANGED: a listener hears of it.
        if let Some(told) = &mut self.told {
            told.marks.push(MarkedSpan {
                stage,
                mark,
                start_sample,
                len,
            });
        }
        self.counts[stage as usize][mark as usize] += len;
        let ring = &mut self.spans[stage as usize][mark as usize];
        if let Some(last) = ring.back_mut() {
            if last.start_sample + last.len == start_sample {
                last.len += len;
                return;
            }
        }
        // CHANGED: the capacity given at construction, for the constant 256.
        if ring.len() == self.span_capacity {
            ring.pop_front();
            self.spans_dropped += 1;
        }
        ring.push_back(MarkedSpan {
            stage,
            mark,
            start_sample,
            len,
        });
    }
}

/// The conditioning chain one channelizer runs. Build it with
/// [`InputConditioner::new`], which returns `None` when every stage is off.
#[derive(Debug, Clone)]
pub struct InputConditioner {
    // CHANGED: `impulse` and `dc` public, so that a test can read them.
    pub impulse: Option<impulse::ImpulseSuppressor>,
    impulse_apply: bool,
    pub dc: Option<dc::DcBlocker>,
    dc_apply: bool,
    // CHANGED: `iq` and `image` public, so that a test can read them; no tone meter.
    pub iq: Option<iq::IqCorrector>,
    pub image: Option<iq::ImageMonitor>,
    /// Samples an earlier [`InputConditioner::condition`] call held back
    /// (not yet final).
    // CHANGED: public, so that a test can read it.
    pub held: usize,
    /// Samples released as final since construction.
    // CHANGED: public, so that a test can read it.
    pub released: u64,
    log: ConditioningLog,
}

impl InputConditioner {
    /// The chain for `cfg` at sample rate `fs`, or `None` when every stage
    /// is off (so an all-off channelizer does no per-sample work).
    pub fn new(fs: f64, cfg: &ConditioningConfig) -> Option<Self> {
        // CHANGED: names the two capacities.
        Self::with_geometry(
            fs,
            f64::NAN,
            (fs / 93.75).round() as usize,
            cfg,
            SPAN_LOG_CAPACITY,
            impulse::REPAIR_LOG_CAPACITY,
        )
    }

    /// Construct with the actual receiver centre and channelizer geometry.
    /// Unknown centres never authorize correction.
    // CHANGED: takes the capacities of the span rings and of the repair log.
    pub fn with_geometry(
        fs: f64,
        center: f64,
        n: usize,
        cfg: &ConditioningConfig,
        spans: usize,
        repairs: usize,
    ) -> Option<Self> {
        if cfg.is_off() {
            return None;
        }
        let impulse_apply = cfg.impulse == StageMode::Apply;
        let impulse = (cfg.impulse != StageMode::Off)
            .then(|| impulse::ImpulseSuppressor::new(fs, impulse_apply));
        let dc = (cfg.dc != StageMode::Off).then(|| dc::DcBlocker::new(fs));
        // CHANGED: hands the capacities on.
        let mut log = ConditioningLog::new(cfg.clone(), spans, repairs);
        log.dc_level = dc.as_ref().map(dc::DcBlocker::level);
        let iq = if cfg.iq == StageMode::Apply {
            cfg.iq_calibration
                .as_ref()
                .filter(|c| {
                    c.validate().is_ok()
                        && center.is_finite()
                        && center > 0.0
                        && (c.center_freq_hz - center).abs() <= 1.0
                })
                .and_then(|c| iq::IqCorrector::new(c.image_ratio()).ok())
        } else {
            None
        };
        log.iq_status = match cfg.iq {
            StageMode::Off => IqStatus::Off,
            StageMode::Observe => IqStatus::Observing,
            StageMode::Apply if iq.is_some() => IqStatus::Correcting,
            StageMode::Apply => IqStatus::CalibrationMismatch,
        };
        Some(InputConditioner {
            iq,
            // CHANGED: no tone meter.
            image: (cfg.iq != StageMode::Off).then(|| iq::ImageMonitor::new(fs, n, n / 4)),
            impulse,
            impulse_apply,
            dc,
            dc_apply: cfg.dc == StageMode::Apply,
            held: 0,
            released: 0,
            log,
        })
    }

    /// The most samples the chain ever holds back: the applying impulse
    /// stage's lookahead, otherwise 0.
    pub fn lookahead(&self) -> usize {
        if self.impulse.is_some() && self.impulse_apply {
            impulse::IMPULSE_LOOKAHEAD
        } else {
            0
        }
    }

    /// Conditions `tail` in place, in stream order, and returns how many of
    /// its leading samples are now final. `tail` is every sample not yet
    /// final: the ones the previous call held back (`len - ready` of it),
    /// then the newly arrived ones. The stages are sample-by-sample state
    /// machines and an applying impulse stage releases each sample a fixed
    /// [`impulse::IMPULSE_LOOKAHEAD`] samples late, so the result does not
    /// depend on how the stream is split into calls.
    pub fn condition(&mut self, tail: &mut [Complex32]) -> usize {
        let held = self.held;
        debug_assert!(held <= tail.len());
        self.log.samples_seen += (tail.len() - held) as u64;
        let mut ready = tail.len();
        if let Some(imp) = self.impulse.as_mut() {
            let mut out = 0;
            for k in held..tail.len() {
                let released = imp.push(tail[k], &mut self.log);
                if self.impulse_apply {
                    if let Some(y) = released {
                        tail[out] = y;
                        out += 1;
                    }
                }
            }
            if self.impulse_apply {
                ready = out;
            }
        }
        // `tail[..ready]` is exactly the samples released by this call: a
        // stage that holds nothing back leaves `held` at 0.
        let start = self.released;
        if let Some(dc) = self.dc.as_mut() {
            for s in tail[..ready].iter_mut() {
                let y = dc.process_sample(*s);
                if self.dc_apply {
                    *s = y;
                }
            }
            self.log.dc_level = Some(dc.level());
            // CHANGED: the log has the count after each call.
            self.log.dc_clamped = dc.clamped;
            if self.dc_apply {
                self.log
                    .mark(Stage::Dc, Mark::Corrected, start, ready as u64);
            }
        }
        for sample in &mut tail[..ready] {
            // CHANGED: no tone meter is fed.
            if let Some(iq) = self.iq.as_ref() {
                *sample = iq.process_sample(*sample);
            }
        }
        // CHANGED: no tone result is logged.
        if self.iq.is_some() {
            self.log
                .mark(Stage::Iq, Mark::Corrected, start, ready as u64);
        } else if self.log.iq_status == IqStatus::CalibrationMismatch {
            self.log
                .mark(Stage::Iq, Mark::Uncertain, start, ready as u64);
        }
        self.released += ready as u64;
        self.held = tail.len() - ready;
        ready
    }

    /// Observe each completed channelizer hop once. Windows cover disjoint
    /// input intervals, independent of overlapping FFT support.
    // CHANGED: answers the evidence when a window completes; the original
    // answers nothing and keeps it in the log alone.
    pub fn observe_hop(&mut self, x: &[Complex32], start_sample: u64) -> Option<iq::ImageResult> {
        if let Some(result) = self.image.as_mut().and_then(|m| m.observe(x, start_sample)) {
            if result.suspected
                && self.iq.is_none()
                && self.log.iq_status != IqStatus::CalibrationMismatch
            {
                self.log.mark(
                    Stage::Iq,
                    Mark::Uncertain,
                    result.start_sample,
                    result.end_sample - result.start_sample,
                );
            }
            self.log.image_result = Some(result);
            // CHANGED: the answer, as above.
            return self.log.image_result.clone();
        }
        // CHANGED: no window completed.
        None
    }

    /// What the chain did so far.
    pub fn log(&self) -> &ConditioningLog {
        &self.log
    }

    // CHANGED: what the log was told since the last time that this was asked; the first time nothing,
    // and from then on it listens.
    pub fn take_told(&mut self) -> Told {
        self.log.told.replace(Told::default()).unwrap_or_default()
    }
}
