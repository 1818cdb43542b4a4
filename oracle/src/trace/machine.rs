//! The oracle's answer to each operation of a trace: the original's where it decides, under edition 2 of
//! the pause rule with the second reading's pauses; the second reading's refusals, and its rings, laid
//! out from what the original told its log.

use super::*;
use crate::condition::dc::{revert_dc, DcBlocker};
use crate::condition::impulse::{revert_repairs, ImpulseSuppressor};
use crate::condition::iq::{revert_iq, ImageResult};
use crate::condition::{InputConditioner, IqStatus, Mark, Stage, StageMode};
use crate::num_complex::Complex64;
use crate::rules::iq::Coefficient;
use crate::rules::log::{self, Ring, SpanRing};
use crate::rules::refusals::{self, Answer as Decided, Refusal};
use crate::rules::{Calibration, Edition, Mode, Sample, Setting};
use crate::sample_guard::replace_unusable;
use crate::sides::{all_c32, config, original, sample, words_c32};

/// Why an operation has no answer here: it is none, or the original can't follow it.
#[derive(Debug)]
pub struct NoCase(pub &'static str);

/// The chain before the first making.
pub fn first() -> Setting {
    Setting {
        fs: 48000.0,
        centre: 0.0,
        n: 8,
        impulse: Mode::Apply,
        dc: Mode::Apply,
        iq: Mode::Observe,
        edition: Edition::First,
        calibration: None,
        spans: 2,
        repairs: 2,
    }
}

pub struct Machine {
    setting: Setting,
    chain: InputConditioner,
    rings: Vec<SpanRing>,
    repairs: Ring,
    /// The three stores as they stood when they were last laid out.
    span_words: Vec<u64>,
    repair_words: Vec<u64>,
    monitor_words: Vec<f64>,
    /// Their owner wrote a word, so that the original's log need not agree.
    written: bool,
}

/// The bits of a float, a NaN's being those of the one NaN.
pub fn bits(x: f64) -> u64 {
    if x.is_nan() {
        0x7ff8_0000_0000_0000
    } else {
        x.to_bits()
    }
}

fn mode(word: u64) -> Mode {
    match word {
        0 => Mode::Off,
        1 => Mode::Observe,
        _ => Mode::Apply,
    }
}

pub fn mode_word(mode: Mode) -> u64 {
    match mode {
        Mode::Off => 0,
        Mode::Observe => 1,
        Mode::Apply => 2,
    }
}

fn stage_mode_word(mode: StageMode) -> u64 {
    match mode {
        StageMode::Off => 0,
        StageMode::Observe => 1,
        StageMode::Apply => 2,
    }
}

fn edition(word: u64) -> Edition {
    match word {
        2 => Edition::Second,
        _ => Edition::First,
    }
}

pub fn edition_word(edition: Edition) -> u64 {
    match edition {
        Edition::First => 1,
        Edition::Second => 2,
    }
}

/// The configuration of thirteen words.
pub fn setting(words: &[u64]) -> Result<Setting, NoCase> {
    let &[impulse, dc, iq, fs, centre, n, present, gain, phase, at, spans, repairs, which] = words
    else {
        return Err(NoCase("a configuration has thirteen words"));
    };
    let calibration = Calibration {
        gain: f64::from_bits(gain),
        phase: f64::from_bits(phase),
        centre: f64::from_bits(at),
    };
    Ok(Setting {
        fs: f64::from_bits(fs),
        centre: f64::from_bits(centre),
        n: n as usize,
        impulse: mode(impulse),
        dc: mode(dc),
        iq: mode(iq),
        edition: edition(which),
        calibration: (present != 0).then_some(calibration),
        spans: spans as usize,
        repairs: repairs as usize,
    })
}

/// The thirteen words of a configuration.
pub fn setting_words(s: &Setting) -> Vec<u64> {
    let c = s.calibration.unwrap_or(Calibration {
        gain: 0.0,
        phase: 0.0,
        centre: 0.0,
    });
    vec![
        mode_word(s.impulse),
        mode_word(s.dc),
        mode_word(s.iq),
        bits(s.fs),
        bits(s.centre),
        s.n as u64,
        u64::from(s.calibration.is_some()),
        bits(c.gain),
        bits(c.phase),
        bits(c.centre),
        s.spans as u64,
        s.repairs as u64,
        edition_word(s.edition),
    ]
}

fn samples(words: &[u64]) -> Vec<Sample> {
    words.iter().map(|&w| Sample::of_word(w)).collect()
}

fn evidence(r: &ImageResult) -> Vec<u64> {
    vec![
        r.start_sample,
        r.end_sample,
        u64::from(r.suspected),
        bits(r.coherence),
        bits(r.floor_power),
        bits(r.strongest_power),
        bits(r.mirror_power),
    ]
}

/// An answer that names nothing but its number.
pub fn plain(number: u64) -> Answer {
    said(number, 0)
}

/// One that names its number and a value.
pub fn said(number: u64, value: u64) -> Answer {
    Answer {
        front: [0, number, value, 0, 0, 0, 0, 0],
        words: Vec::new(),
    }
}

fn refused(r: Refusal) -> Answer {
    said(u64::from(r.number), r.place.map_or(0, |k| k as u64))
}

/// With a slice, whole or as a digest.
pub fn with_slice(mut answer: Answer, how: u64, slice: Vec<u64>) -> Answer {
    answer.front[6] = slice.len() as u64;
    answer.words = whole_or_digest(how, slice);
    answer
}

/// A call's, with the count of clamped DC updates behind its slice.
pub fn with_clamped(mut answer: Answer, clamped: u64) -> Answer {
    answer.words.push(clamped);
    answer
}

/// The words themselves, or their digest.
pub fn whole_or_digest(how: u64, words: Vec<u64>) -> Vec<u64> {
    if how == 1 {
        vec![digest(&words)]
    } else {
        words
    }
}

fn empty_rings(capacity: usize) -> Vec<SpanRing> {
    vec![SpanRing::of(capacity, &[]); log::RINGS]
}

impl Default for Machine {
    fn default() -> Self {
        let setting = first();
        let mut chain = original(&setting).expect("not all off");
        chain.take_told();
        Machine {
            rings: empty_rings(setting.spans),
            repairs: Ring::empty(setting.repairs, 6),
            span_words: vec![0; SPAN_WORDS],
            repair_words: vec![0; REPAIR_WORDS],
            monitor_words: vec![0.0; MONITOR_WORDS],
            written: false,
            setting,
            chain,
        }
    }
}

impl Machine {
    /// What the operation answers.
    pub fn answer(&mut self, o: &Operation) -> Result<Answer, NoCase> {
        let mut answer = match o.op {
            MAKE => self.make(o)?,
            CONFIG => config_answer(o)?,
            CALL => self.call(o)?,
            HOP => self.hop(o),
            LOG => self.log_words(),
            STATE => self.state_words(),
            STORES => self.stores(o),
            SPAN => self.span(o),
            UNDO => self.undo(o),
            DC_UNDO => dc_undo(o),
            IQ_UNDO => iq_undo(o),
            GUARD => guard(o),
            VALIDATE => validate(o),
            WRITE => self.write(o),
            _ => return Err(NoCase("no such operation")),
        };
        answer.front[0] = o.op;
        answer.front[7] = answer.words.len() as u64;
        Ok(answer)
    }

    /// How many samples the chain has seen.
    pub fn seen(&self) -> u64 {
        self.chain.log().samples_seen()
    }

    pub fn held(&self) -> usize {
        self.chain.held
    }

    /// On how many DC steps the limit acted.
    fn clamped(&self) -> u64 {
        self.chain.log().dc_clamped()
    }

    pub fn setting(&self) -> &Setting {
        &self.setting
    }

    /// The end of the last accepted hop, or 0.
    pub fn end(&self) -> u64 {
        self.chain.image.as_ref().map_or(0, |image| image.end)
    }

    /// A span ring and the ring of repairs.
    pub fn ring(&self, which: usize) -> &SpanRing {
        &self.rings[which]
    }

    pub fn repair_ring(&self) -> &Ring {
        &self.repairs
    }

    /// Whether IQ corrects, and the coefficient.
    pub fn coefficient(&self) -> Option<Complex64> {
        self.chain.iq.as_ref().map(|iq| iq.rho)
    }

    // ---- the stores

    /// Puts the rings' words and the monitor's into the stores.
    fn lay_out(&mut self) {
        let size = 2 * self.setting.spans;
        for (i, ring) in self.rings.iter().enumerate() {
            self.span_words[i * size..][..size].copy_from_slice(&ring.ring.words);
        }
        let repairs = &self.repairs.words;
        self.repair_words[..repairs.len()].copy_from_slice(repairs);
        self.lay_out_monitor();
    }

    /// Those of the monitor; its words for sorting stand there already.
    fn lay_out_monitor(&mut self) {
        let n = self.setting.n;
        if let Some(image) = &self.chain.image {
            for k in 0..n {
                self.monitor_words[k] = image.power[k];
                self.monitor_words[n + k] = image.cross[k].re;
                self.monitor_words[2 * n + k] = image.cross[k].im;
            }
        }
    }

    /// The rings and the monitor as the stores have them.
    fn take_up(&mut self) {
        let size = 2 * self.setting.spans;
        for (i, ring) in self.rings.iter_mut().enumerate() {
            let words = &self.span_words[i * size..][..size];
            ring.ring.words.copy_from_slice(words);
        }
        let used = self.repairs.words.len();
        self.repairs
            .words
            .copy_from_slice(&self.repair_words[..used]);
        let n = self.setting.n;
        if let Some(image) = &mut self.chain.image {
            for k in 0..n {
                image.power[k] = self.monitor_words[k];
                image.cross[k].re = self.monitor_words[n + k];
                image.cross[k].im = self.monitor_words[2 * n + k];
            }
        }
    }

    /// The rings after what the original told its log.
    fn hear(&mut self) {
        let told = self.chain.take_told();
        for span in &told.marks {
            let ring = &mut self.rings[log::place(span.stage as usize, span.mark as usize)];
            let before = std::mem::replace(ring, SpanRing::of(0, &[]));
            *ring = before.marked((span.start_sample, span.len));
        }
        for r in &told.repairs {
            let mut record = vec![r.start_sample, u64::from(r.len)];
            record.extend(words_c32(&r.originals));
            let before = std::mem::replace(&mut self.repairs, Ring::empty(0, 6));
            self.repairs = before.with(&record);
        }
    }

    fn write(&mut self, o: &Operation) -> Answer {
        let [store, place, word, ..] = o.args;
        self.lay_out();
        let at = place as usize;
        match store {
            0 if at < SPAN_WORDS => self.span_words[at] = word,
            1 if at < REPAIR_WORDS => self.repair_words[at] = word,
            2 if at < MONITOR_WORDS => self.monitor_words[at] = f64::from_bits(word),
            _ => (),
        }
        self.take_up();
        self.written = true;
        plain(0)
    }

    fn stores(&mut self, o: &Operation) -> Answer {
        self.lay_out();
        let [a, b, c, ..] = o.args;
        let a = (a as usize).min(SPAN_WORDS);
        let b = (b as usize).min(REPAIR_WORDS);
        let c = (c as usize).min(MONITOR_WORDS);
        let words = [
            self.span_words[..a].to_vec(),
            self.repair_words[..b].to_vec(),
            self.monitor_words[..c].iter().map(|&x| bits(x)).collect(),
        ];
        let mut answer = plain(0);
        answer.front[3..6].copy_from_slice(&[a as u64, b as u64, c as u64]);
        answer.words = words.map(|w| whole_or_digest(o.how, w)).concat();
        answer
    }

    // ---- making

    fn make(&mut self, o: &Operation) -> Result<Answer, NoCase> {
        let s = setting(&o.words)?;
        let [a, b, c, ..] = o.args;
        let spans = (a as usize).min(SPAN_WORDS);
        let repairs = (b as usize).min(REPAIR_WORDS);
        let monitor = (c as usize).min(MONITOR_WORDS);
        match refusals::making(&s, repairs, spans, monitor) {
            Decided::Nothing => {
                assert!(original(&s).is_none(), "the original makes nothing");
                Ok(plain(NOTHING))
            }
            Decided::Refused(r) => Ok(refused(r)),
            Decided::Accepted => {
                self.lay_out();
                self.chain = original(&s).expect("the original makes a chain");
                self.chain.take_told();
                self.rings = empty_rings(s.spans);
                self.repairs = Ring::empty(s.repairs, 6);
                self.span_words[..spans].fill(0);
                self.repair_words[..repairs].fill(0);
                self.monitor_words[..monitor].fill(0.0);
                self.setting = s;
                self.written = false;
                Ok(plain(0))
            }
        }
    }

    // ---- a call

    /// Number 5 of a state that differs from the chain's in having seen `seen` samples.
    fn moved_is_bad(&self, seen: u64) -> Result<bool, NoCase> {
        if seen > refusals::COUNTER {
            return Ok(true);
        }
        let runs = self.setting.impulse != Mode::Off;
        if runs && seen.min(33) != self.seen().min(33) {
            return Err(NoCase("a window of another size"));
        }
        Ok(false)
    }

    fn ends_are_bad(&self) -> bool {
        !self.rings.iter().all(refusals::newest_fits)
    }

    /// Why a call is refused.
    fn call_refusal(
        &self,
        o: &Operation,
        seen: u64,
        slice: &[u64],
    ) -> Result<Option<Answer>, NoCase> {
        let [a, b, ..] = o.args;
        if self.moved_is_bad(seen)? {
            return Ok(Some(plain(5)));
        }
        if b as usize != 6 * self.setting.repairs || a as usize != 24 * self.setting.spans {
            return Ok(Some(plain(4)));
        }
        if self.ends_are_bad() {
            return Ok(Some(plain(5)));
        }
        Ok(refusals::call(seen, self.chain.held, &samples(slice)).map(refused))
    }

    fn call(&mut self, o: &Operation) -> Result<Answer, NoCase> {
        let [_, _, c, d, _] = o.args;
        let front = if c == AS_HELD {
            self.chain.held
        } else {
            (c as usize).min(HELD)
        };
        let slice: Vec<u64> = filler(front).chain(o.words.iter().copied()).collect();
        let seen = if d == 0 { self.seen() } else { d };
        if let Some(mut answer) = self.call_refusal(o, seen, &slice)? {
            let held = self.chain.held as u64;
            answer.front[3..6].copy_from_slice(&[seen, seen.wrapping_sub(held), held]);
            return Ok(with_clamped(
                with_slice(answer, o.how, slice),
                self.clamped(),
            ));
        }
        if d != 0 {
            return Err(NoCase("a moved state that is taken"));
        }
        let mut conditioned = all_c32(&samples(&slice));
        let ready = self.chain.condition(&mut conditioned);
        self.hear();
        let mut answer = said(0, ready as u64);
        answer.front[3..6].copy_from_slice(&[
            self.seen(),
            self.chain.released,
            self.chain.held as u64,
        ]);
        let answer = with_slice(answer, o.how, words_c32(&conditioned));
        Ok(with_clamped(answer, self.clamped()))
    }

    // ---- a hop

    fn hop(&mut self, o: &Operation) -> Answer {
        let [start, b, c, ..] = o.args;
        let n = self.setting.n;
        let with_evidence = |mut answer: Answer, words: Vec<u64>| {
            answer.words = words;
            answer
        };
        let none = vec![0; 7];
        if b as usize != 24 * self.setting.spans || c as usize != 4 * n {
            return with_evidence(plain(4), none);
        }
        self.lay_out_monitor();
        if self.ends_are_bad() || !refusals::monitor_fits(n, &self.monitor_words[..4 * n]) {
            return with_evidence(plain(5), none);
        }
        let channels = samples(&o.words);
        match refusals::hop(&self.setting, self.end(), start, &channels) {
            Decided::Nothing => with_evidence(plain(NOTHING), none),
            Decided::Refused(r) => with_evidence(refused(r), none),
            Decided::Accepted => {
                let result = self.chain.observe_hop(&all_c32(&channels), start);
                self.hear();
                self.monitor_words[3 * n..4 * n].fill(0.0);
                match result {
                    Some(r) => with_evidence(plain(REPORT), evidence(&r)),
                    None => with_evidence(plain(0), none),
                }
            }
        }
    }

    // ---- reading

    /// How many spans the rings dropped.
    fn dropped(&self) -> u64 {
        self.rings.iter().map(|r| r.ring.dropped).sum()
    }

    /// The original's log, and the rings that were laid out, say the same.
    fn agree(&self) {
        let log = self.chain.log();
        for (i, ring) in self.rings.iter().enumerate() {
            let (stage, mark) = (Stage::ALL[i / 4], Mark::ALL[i % 4]);
            let spans = log
                .spans()
                .filter(|span| span.stage == stage && span.mark == mark)
                .map(|span| (span.start_sample, span.len));
            assert!(spans.eq(ring.spans()), "spans of ring {i}");
            assert_eq!(log.count(stage, mark), ring.count, "count of ring {i}");
        }
        assert_eq!(log.spans_dropped(), self.dropped(), "dropped spans");
        let repairs = log.repairs().map(|r| {
            let mut record = vec![r.start_sample, u64::from(r.len)];
            record.extend(words_c32(&r.originals));
            record
        });
        assert!(repairs.eq(self.repairs.records()), "repairs");
        assert_eq!(
            log.repairs_dropped(),
            self.repairs.dropped,
            "dropped repairs"
        );
    }

    fn iq_words(&self) -> [u64; 3] {
        let kind = match self.chain.log().iq_status() {
            IqStatus::Off => 0,
            IqStatus::Observing => 1,
            IqStatus::Correcting => 2,
            IqStatus::CalibrationMismatch => 3,
        };
        let rho = self.coefficient().unwrap_or(Complex64::new(0.0, 0.0));
        [kind, bits(rho.re), bits(rho.im)]
    }

    fn log_words(&self) -> Answer {
        if !self.written {
            self.agree();
        }
        let log = self.chain.log();
        let mut words = vec![self.seen(), self.chain.released, self.chain.held as u64];
        for (i, ring) in self.rings.iter().enumerate() {
            words.push(log.count(Stage::ALL[i / 4], Mark::ALL[i % 4]));
            words.extend([ring.ring.head as u64, ring.ring.held as u64]);
            words.push(ring.ring.dropped);
        }
        words.push(self.dropped());
        let r = &self.repairs;
        words.extend([r.head as u64, r.held as u64, r.dropped]);
        words.push(log.impulse_long_runs());
        let level = log.dc_level().unwrap_or(Complex64::new(0.0, 0.0));
        words.push(u64::from(log.dc_level().is_some()));
        words.extend([bits(level.re), bits(level.im), self.clamped()]);
        words.extend(self.iq_words());
        let mut answer = plain(0);
        answer.words = words;
        answer
    }

    fn state_words(&self) -> Answer {
        let s = &self.setting;
        let mut words = vec![bits(s.fs), s.n as u64, s.spans as u64, s.repairs as u64];
        words.push(u64::from(s.impulse != Mode::Off));
        words.push(mode_word(s.dc));
        words.push(self.iq_words()[0]);
        let fresh = ImpulseSuppressor::new(s.fs, false);
        let imp = self.chain.impulse.as_ref().unwrap_or(&fresh);
        words.extend(gate_words(imp, s.edition));
        let fresh = DcBlocker::new(s.fs);
        let dc = self.chain.dc.as_ref().unwrap_or(&fresh);
        words.extend([bits(dc.a), dc.n, bits(dc.dc.re), bits(dc.dc.im)]);
        let first = self.chain.image.as_ref().and_then(|image| image.start);
        words.extend([u64::from(first.is_some()), first.unwrap_or(0), self.end()]);
        words.extend(array_words(imp));
        let mut answer = plain(0);
        answer.words = words;
        answer
    }

    fn span(&self, o: &Operation) -> Answer {
        let [stage, mark, i, lent, _] = o.args;
        let ring = &self.rings[log::place(stage.min(2) as usize, mark.min(3) as usize)];
        if lent as usize != 24 * self.setting.spans || i >= ring.ring.held as u64 {
            return plain(NOTHING);
        }
        let (start, len) = ring.spans()[i as usize];
        let mut answer = plain(0);
        answer.front[3..5].copy_from_slice(&[start, len]);
        answer
    }

    // ---- repair undo

    fn undo(&self, o: &Operation) -> Answer {
        let [first, lent, ..] = o.args;
        if lent as usize != 6 * self.setting.repairs {
            return with_slice(plain(4), o.how, o.words.clone());
        }
        if !refusals::records_fit(&self.repairs) {
            return with_slice(plain(5), o.how, o.words.clone());
        }
        let rules = log::undone(&self.repairs, &samples(&o.words), first);
        let words: Vec<u64> = rules.iter().map(|y| y.word()).collect();
        if !self.written {
            let mut slice = all_c32(&samples(&o.words));
            revert_repairs(&mut slice, first, self.chain.log());
            assert_eq!(words_c32(&slice), words, "undo of repairs");
        }
        with_slice(plain(0), o.how, words)
    }
}

// ---- parts of a state

fn gate_words(imp: &ImpulseSuppressor, edition: Edition) -> Vec<u64> {
    let run = imp.run;
    vec![
        u64::from(imp.apply),
        edition_word(edition),
        imp.block_len,
        imp.received,
        u64::from(run.is_some()),
        run.map_or(0, |r| r.start),
        run.map_or(0, |r| r.len),
        u64::from(run.is_some_and(|r| r.paused)),
        u64::from(imp.left.is_some()),
        imp.left.map_or(0, |x| sample(x).word()),
        imp.block,
        imp.block_flagged,
        u64::from(imp.paused),
    ]
}

/// The window, the sorted powers and the pending samples: the first and the last circular, by sample
/// number, the second with zeros behind.
fn array_words(imp: &ImpulseSuppressor) -> Vec<u64> {
    let mut window = [0; 33];
    let mut sorted = [0; 33];
    let mut pending = [0; 21];
    let received = imp.received as usize;
    for (i, p) in imp.window.iter().rev().enumerate() {
        window[(received - 1 - i) % 33] = u64::from(p.to_bits());
    }
    for (word, p) in sorted.iter_mut().zip(&imp.sorted) {
        *word = u64::from(p.to_bits());
    }
    for (i, &x) in imp.pending.iter().rev().enumerate() {
        pending[(received - 1 - i) % 21] = sample(x).word();
    }
    [&window[..], &sorted[..], &pending[..]].concat()
}

// ---- operations without a chain

fn config_answer(o: &Operation) -> Result<Answer, NoCase> {
    let s = setting(&o.words)?;
    let observing = config(&s).observing();
    let mut words = o.words.clone();
    words[0] = stage_mode_word(observing.impulse);
    words[1] = stage_mode_word(observing.dc);
    words[2] = stage_mode_word(observing.iq);
    for k in [3, 4, 7, 8, 9] {
        words[k] = bits(f64::from_bits(words[k]));
    }
    words[6] = u64::from(observing.iq_calibration.is_some());
    if words[6] == 0 {
        words[7..10].fill(0);
    }
    words[12] = edition_word(s.edition);
    let mut answer = plain(u64::from(config(&s).is_off()));
    answer.words = words;
    Ok(answer)
}

fn dc_undo(o: &Operation) -> Answer {
    let [fs, len, ..] = o.args;
    let fs = f64::from_bits(fs);
    let len = (len as usize).min(WORDS + HELD);
    let ys = samples(&o.words);
    match refusals::dc_undo(fs, &ys, len) {
        Some(r) => with_slice(refused(r), o.how, filler(len).collect()),
        None => with_slice(plain(0), o.how, words_c32(&revert_dc(&all_c32(&ys), fs))),
    }
}

fn iq_undo(o: &Operation) -> Answer {
    let [re, im, ..] = o.args;
    let (re, im) = (f64::from_bits(re), f64::from_bits(im));
    let ys = samples(&o.words);
    match refusals::iq_undo(Coefficient { re, im }, &ys) {
        Some(r) => with_slice(refused(r), o.how, o.words.clone()),
        None => {
            let mut slice = all_c32(&ys);
            revert_iq(&mut slice, Complex64::new(re, im)).expect("an accepted coefficient");
            with_slice(plain(0), o.how, words_c32(&slice))
        }
    }
}

fn guard(o: &Operation) -> Answer {
    let mut slice = all_c32(&samples(&o.words));
    let replaced = replace_unusable(&mut slice);
    with_slice(said(0, replaced), o.how, words_c32(&slice))
}

fn validate(o: &Operation) -> Answer {
    let [gain, phase, centre, ..] = o.args;
    let c = Calibration {
        gain: f64::from_bits(gain),
        phase: f64::from_bits(phase),
        centre: f64::from_bits(centre),
    };
    let refusal = refusals::validation(c);
    let original = crate::sides::calibration(c).validate();
    assert_eq!(original.is_err(), refusal.is_some(), "validation");
    refusal.map_or(plain(0), refused)
}
