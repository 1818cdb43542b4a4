//! What the tests share: the original run beside the second reading, and the comparison of the
//! two, bit for bit.

#![allow(dead_code)]

use oracle::condition::impulse::revert_repairs;
use oracle::condition::iq::{revert_iq, ImageResult};
use oracle::condition::{dc::revert_dc, InputConditioner, IqStatus, Mark, Stage};
pub use oracle::draw::Rng;
use oracle::num_complex::Complex64;
use oracle::rules::chain::{self, Record};
use oracle::rules::iq::{Coefficient, Settled};
use oracle::rules::monitor::{self, Evidence, Hop};
use oracle::rules::{dc, iq, log, Mode, Sample, Setting};
pub use oracle::sides::*;
use std::io::Write;

/// Says `line` past the test harness, so that a plain run shows it.
pub fn say(line: &str) {
    writeln!(std::io::stdout(), "{line}").expect("standard output takes a line");
}

/// One call: the held samples (whatever stands there), then the new. Answers what it released.
pub fn call(chain: &mut InputConditioner, held: &[Sample], new: &[Sample]) -> Vec<Sample> {
    assert_eq!(
        held.len(),
        chain.held,
        "the caller hands the held ones over"
    );
    let before = [all_c32(held), all_c32(new)].concat();
    let mut slice = before.clone();
    let ready = chain.condition(&mut slice);
    assert_eq!(
        words_c32(&slice[ready..]),
        words_c32(&before[ready..]),
        "places from ready on stay as they were"
    );
    slice[..ready].iter().map(|&c| sample(c)).collect()
}

/// The original run over all samples in one call.
pub fn run_whole(s: &Setting, xs: &[Sample]) -> (InputConditioner, Vec<Sample>) {
    let mut chain = original(s).expect("not all off");
    let out = call(&mut chain, &[], xs);
    (chain, out)
}

// ---- the comparison

pub fn evidence_words(e: &Evidence) -> [u64; 7] {
    [
        e.first,
        e.end,
        u64::from(e.suspected),
        e.coherence.to_bits(),
        e.floor.to_bits(),
        e.strongest.to_bits(),
        e.mirror.to_bits(),
    ]
}

pub fn result_words(r: &ImageResult) -> [u64; 7] {
    [
        r.start_sample,
        r.end_sample,
        u64::from(r.suspected),
        r.coherence.to_bits(),
        r.floor_power.to_bits(),
        r.strongest_power.to_bits(),
        r.mirror_power.to_bits(),
    ]
}

/// The log and the state of the original against the record of the second reading.
pub fn compare(chain: &InputConditioner, s: &Setting, record: &Record, hops: &[Hop], at: &str) {
    let log = chain.log();
    assert_eq!(log.samples_seen(), record.seen, "{at}: seen");
    assert_eq!(chain.released, record.released, "{at}: released");
    assert_eq!(chain.held as u64, record.held, "{at}: held");
    assert_eq!(record.seen, record.released + record.held, "{at}: sum");
    assert_eq!(record.rings.len(), log::RINGS);
    for (i, ring) in record.rings.iter().enumerate() {
        let (stage, mark) = (Stage::ALL[i / 4], Mark::ALL[i % 4]);
        assert_eq!(log.count(stage, mark), ring.count, "{at}: count {i}");
        let spans: Vec<(u64, u64)> = log
            .spans()
            .filter(|span| span.stage == stage && span.mark == mark)
            .map(|span| (span.start_sample, span.len))
            .collect();
        assert_eq!(spans, ring.spans(), "{at}: spans of ring {i}");
    }
    assert_eq!(
        log.spans_dropped(),
        record.spans_dropped(),
        "{at}: dropped spans"
    );
    assert_eq!(log.impulse_long_runs(), record.long_runs, "{at}: long runs");
    assert_eq!(log.dc_clamped(), record.clamped, "{at}: clamped updates");
    let repairs: Vec<Vec<u64>> = log
        .repairs()
        .map(|r| {
            let originals = r.originals.map(|c| sample(c).word());
            [&[r.start_sample, u64::from(r.len)][..], &originals[..]].concat()
        })
        .collect();
    assert_eq!(repairs, record.repairs.records(), "{at}: repairs");
    assert_eq!(
        log.repairs_dropped(),
        record.repairs.dropped,
        "{at}: dropped repairs"
    );
    assert_eq!(
        log.dc_level().map(|l| (l.re.to_bits(), l.im.to_bits())),
        record.dc.map(|l| (l.re.to_bits(), l.im.to_bits())),
        "{at}: DC level"
    );
    let status = match record.iq {
        Settled::Off => IqStatus::Off,
        Settled::Observing => IqStatus::Observing,
        Settled::Correcting(_) => IqStatus::Correcting,
        Settled::Withheld => IqStatus::CalibrationMismatch,
    };
    assert_eq!(log.iq_status(), status, "{at}: what IQ settled");
    let coefficient = match record.iq {
        Settled::Correcting(c) => Some((c.re.to_bits(), c.im.to_bits())),
        _ => None,
    };
    assert_eq!(
        chain
            .iq
            .as_ref()
            .map(|iq| (iq.rho.re.to_bits(), iq.rho.im.to_bits())),
        coefficient,
        "{at}: coefficient"
    );
    assert_eq!(
        log.image_result().map(result_words),
        monitor::answers(s.fs, s.n, hops)
            .iter()
            .flatten()
            .last()
            .map(evidence_words),
        "{at}: latest evidence"
    );
    compare_monitor(chain, s, record, hops, at);
}

/// The monitor's words, its first and its end.
fn compare_monitor(chain: &InputConditioner, s: &Setting, record: &Record, hops: &[Hop], at: &str) {
    let bits = |words: &[f64]| words.iter().map(|w| w.to_bits()).collect::<Vec<_>>();
    assert_eq!(record.monitor.len(), 4 * s.n, "{at}: monitor words");
    assert_eq!(
        bits(&record.monitor[3 * s.n..]),
        vec![0; s.n],
        "{at}: words for sorting"
    );
    assert_eq!(chain.image.is_some(), s.iq != Mode::Off, "{at}: a monitor");
    let Some(image) = &chain.image else {
        assert_eq!(bits(&record.monitor), vec![0; 4 * s.n]);
        return;
    };
    let cross_re: Vec<f64> = image.cross.iter().map(|c| c.re).collect();
    let cross_im: Vec<f64> = image.cross.iter().map(|c| c.im).collect();
    let words = [image.power.clone(), cross_re, cross_im].concat();
    assert_eq!(
        bits(&words),
        bits(&record.monitor[..3 * s.n]),
        "{at}: monitor words"
    );
    let open = monitor::open_window(s.fs, s.n, hops);
    assert_eq!(
        image.start,
        open.first().map(|hop| hop.start),
        "{at}: first"
    );
    let end = hops.last().map_or(0, |hop| monitor::end(s.n, hop));
    assert_eq!(image.end, end, "{at}: end");
}

/// The three undos of the original against the second reading's, on the released samples.
pub fn compare_undos(
    chain: &InputConditioner,
    s: &Setting,
    record: &Record,
    xs: &[Sample],
    rng: &mut Rng,
    at: &str,
) {
    // Repairs, on the whole and on a part.
    let out = &record.out;
    let a = rng.from(0, out.len());
    let b = rng.from(a, out.len());
    let jump = rng.from(0, 40) as u64;
    for (slice, first) in [
        (&out[..], 0),
        (&out[a..b], a as u64),
        (&out[a..b], jump),
        (&out[..], u64::MAX - jump),
    ] {
        let mut undone = all_c32(slice);
        revert_repairs(&mut undone, first, chain.log());
        assert_eq!(
            words_c32(&undone),
            words(&log::undone(&record.repairs, slice, first)),
            "{at}: undo of repairs from {first}"
        );
    }
    let impulse_alone = s.dc != Mode::Apply && !matches!(record.iq, Settled::Correcting(_));
    if impulse_alone && record.repairs.dropped == 0 {
        assert_eq!(
            words(&log::undone(&record.repairs, out, 0)),
            words(&xs[..out.len()]),
            "{at}: the input comes back"
        );
    }
    // DC.
    assert_eq!(
        words_c32(&revert_dc(&all_c32(out), s.fs)),
        words(&dc::undone(s.fs, out)),
        "{at}: undo of DC"
    );
    // IQ.
    if let Settled::Correcting(c) = record.iq {
        compare_iq_undo(out, c, at);
    }
}

pub fn compare_iq_undo(ys: &[Sample], c: Coefficient, at: &str) {
    let mut undone = all_c32(ys);
    revert_iq(&mut undone, Complex64::new(c.re, c.im)).expect("an accepted coefficient");
    let rules: Vec<Sample> = ys.iter().map(|&y| iq::undone(c, y)).collect();
    assert_eq!(words_c32(&undone), words(&rules), "{at}: undo of IQ");
}

/// The original and the second reading on the same samples, in one call; answers the record.
pub fn agree(s: &Setting, xs: &[Sample]) -> Record {
    let record = chain::whole(s, xs, &[]);
    let (chain, out) = run_whole(s, xs);
    assert_eq!(words(&out), words(&record.out), "released samples");
    compare(&chain, s, &record, &[], "one call");
    compare_undos(&chain, s, &record, xs, &mut Rng::new(1), "one call");
    record
}
