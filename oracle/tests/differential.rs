//! The original against the second reading, bit for bit, on random settings, samples, cuttings
//! into calls and hops. The seeds are fixed. Under edition 2 of the pause rule, which the original does
//! not have, it pauses by the second reading's step from block to block.

mod common;

use common::*;
use oracle::condition::dc::revert_dc;
use oracle::condition::iq::{revert_iq, IqCorrector};
use oracle::draw::*;
use oracle::num_complex::Complex64;
use oracle::rules::iq::{Coefficient, Settled};
use oracle::rules::monitor::{self, Hop};
use oracle::rules::refusals::{self, Answer, Refusal};
use oracle::rules::{chain, dc, guard, impulse, iq, Edition, Mode, Sample, Setting};
use oracle::sample_guard::replace_unusable;

/// How often what happened, so that a generator that no longer reaches a rule is seen.
#[derive(Default)]
struct Reached {
    cases: u64,
    samples: u64,
    calls: u64,
    points: u64,
    repaired_runs: u64,
    kept_runs: u64,
    long_runs: u64,
    clamped: u64,
    uncertain: u64,
    dropped_spans: u64,
    dropped_repairs: u64,
    correcting: u64,
    withheld: u64,
    hops: u64,
    reports: u64,
    suspected: u64,
    refused_hops: u64,
    inputs_undone: u64,
}

impl Reached {
    /// Says what was reached, without what was not.
    fn say(&self, name: &str) {
        let reached = [
            (self.cases, "cases"),
            (self.samples, "samples"),
            (self.calls, "calls"),
            (self.points, "points between calls"),
            (self.repaired_runs, "repaired runs"),
            (self.kept_runs, "kept spans"),
            (self.long_runs, "long runs"),
            (self.clamped, "clamped DC updates"),
            (self.uncertain, "uncertain samples"),
            (self.dropped_spans, "dropped spans"),
            (self.dropped_repairs, "dropped repairs"),
            (self.correcting, "correcting"),
            (self.withheld, "withheld"),
            (self.hops, "hops"),
            (self.reports, "reports"),
            (self.suspected, "suspected"),
            (self.refused_hops, "refused hops"),
            (self.inputs_undone, "mended inputs undone"),
        ];
        let said: Vec<String> = reached
            .iter()
            .filter(|(count, _)| *count > 0)
            .map(|(count, what)| format!("{count} {what}"))
            .collect();
        say(&format!("{name}: {}", said.join(", ")));
    }
}

// ---- a case

/// One case: the cut run beside the rules at some points and at the end, one call with all
/// samples, and the undos.
fn case(rng: &mut Rng, s: &Setting, xs: &[Sample], hops_wanted: usize, at: &str, r: &mut Reached) {
    let lengths = cutting(rng, xs.len());
    let mut chain = original(s).expect("not all off");
    let (mut seen, mut end) = (0, 0);
    let mut out = Vec::new();
    let mut hops: Vec<Hop> = Vec::new();
    let mut answered = Vec::new();
    let mut tail: Vec<Sample> = Vec::new();
    let mut hops_left = hops_wanted;
    for i in 0..=lengths.len() {
        // Hops before this call; after the last call, the rest.
        let calls_left = lengths.len() - i;
        while hops_left > 0 && (calls_left == 0 || rng.below(calls_left + 1) == 0) {
            hops_left -= 1;
            one_hop(
                rng,
                s,
                &mut chain,
                &mut hops,
                &mut end,
                &mut answered,
                at,
                r,
            );
        }
        let Some(&len) = lengths.get(i) else { break };
        let new = &xs[seen..seen + len];
        if rng.once_in(3) {
            // "held ones are never read": anything may stand there.
            tail = vec![Sample::of_word(rng.next()); chain.held];
        }
        assert_eq!(
            refusals::call(seen as u64, tail.len(), &[&tail, new].concat()),
            None
        );
        let ready = call(&mut chain, &tail, new);
        let slice = [&tail, new].concat();
        assert_eq!(ready.len(), chain::ready(s, seen, len), "{at}: ready");
        tail = slice[ready.len()..].to_vec();
        out.extend(ready);
        seen += len;
        r.calls += 1;
        if rng.below(lengths.len()) == 0 {
            let record = chain::whole(s, &xs[..seen], &hops);
            assert_eq!(words(&out), words(&record.out), "{at}: released at {seen}");
            compare(&chain, s, &record, &hops, &format!("{at}, at {seen}"));
            r.points += 1;
        }
    }
    let record = chain::whole(s, xs, &hops);
    assert_eq!(words(&out), words(&record.out), "{at}: released");
    compare(&chain, s, &record, &hops, at);
    let answers: Vec<_> = monitor::answers(s.fs, s.n, &hops)
        .iter()
        .map(|e| e.as_ref().map(evidence_words))
        .collect();
    assert_eq!(answered, answers, "{at}: evidence of every hop");
    compare_undos(&chain, s, &record, xs, rng, at);

    // One call with all samples, the hops behind it.
    let (mut one, one_out) = run_whole(s, xs);
    for (hop, answer) in hops.iter().zip(&answered) {
        let result = one.observe_hop(&all_c32(&hop.channels), hop.start);
        assert_eq!(result.as_ref().map(result_words), *answer, "{at}: one call");
    }
    assert_eq!(words(&one_out), words(&out), "{at}: one call");
    compare(&one, s, &record, &hops, &format!("{at}, one call"));

    r.cases += 1;
    r.samples += xs.len() as u64;
    let runs =
        |ring: usize| record.rings[ring].spans().len() as u64 + record.rings[ring].ring.dropped;
    r.repaired_runs += record.repairs.held as u64 + record.repairs.dropped;
    r.kept_runs += runs(1);
    r.long_runs += record.long_runs;
    r.clamped += record.clamped;
    r.uncertain += record.rings[3].count;
    r.dropped_spans += record.spans_dropped();
    r.dropped_repairs += record.repairs.dropped;
    r.correcting += u64::from(matches!(record.iq, Settled::Correcting(_)));
    r.withheld += u64::from(matches!(record.iq, Settled::Withheld));
    r.inputs_undone += u64::from(
        s.dc != Mode::Apply
            && !matches!(record.iq, Settled::Correcting(_))
            && record.repairs.dropped == 0
            && record.repairs.held > 0,
    );
}

/// One hop: given to the original where the rules accept it or answer nothing.
#[allow(clippy::too_many_arguments)]
fn one_hop(
    rng: &mut Rng,
    s: &Setting,
    chain: &mut oracle::condition::InputConditioner,
    hops: &mut Vec<Hop>,
    end: &mut u64,
    answered: &mut Vec<Option<[u64; 7]>>,
    at: &str,
    r: &mut Reached,
) {
    let (hop, meant) = some_hop(rng, s, *end);
    let refused = |number, place| Answer::Refused(Refusal { number, place });
    let answer = refusals::hop(s, *end, hop.start, &hop.channels);
    let expected = match meant {
        Meant::Accepted => Answer::Accepted,
        Meant::Nothing => Answer::Nothing,
        Meant::Nine => refused(9, None),
        Meant::Seven(place) => refused(7, Some(place)),
    };
    assert_eq!(answer, expected, "{at}: hop at {}", hop.start);
    match answer {
        Answer::Refused(_) => r.refused_hops += 1,
        Answer::Nothing => {
            let result = chain.observe_hop(&all_c32(&hop.channels), hop.start);
            assert!(result.is_none(), "{at}: answered by nothing");
        }
        Answer::Accepted => {
            let result = chain.observe_hop(&all_c32(&hop.channels), hop.start);
            r.hops += 1;
            r.reports += u64::from(result.is_some());
            r.suspected += u64::from(result.as_ref().is_some_and(|e| e.suspected));
            answered.push(result.as_ref().map(result_words));
            *end = monitor::end(s.n, &hop);
            hops.push(hop);
        }
    }
}

#[test]
fn short_inputs() {
    let mut r = Reached::default();
    for seed in 0..24_000 {
        let rng = &mut Rng::new(seed);
        let s = some_setting(rng);
        let n = match rng.below(8) {
            0 => rng.below(45),
            1 => rng.from(300, 900),
            _ => rng.below(300),
        };
        let xs = some_samples(rng, n);
        let hops = if rng.once_in(3) { rng.below(30) } else { 0 };
        case(rng, &s, &xs, hops, &format!("short {seed}"), &mut r);
    }
    r.say("short inputs");
    assert!(r.repaired_runs > 1000 && r.kept_runs > 1000 && r.long_runs > 300 && r.clamped > 1000);
    assert!(r.uncertain > 1000 && r.dropped_spans > 1000 && r.dropped_repairs > 300);
    assert!(r.correcting > 300 && r.withheld > 300 && r.suspected > 30);
    assert!(r.inputs_undone > 300);
}

/// Whether the editions of the pause rule mark different blocks.
fn editions_differ(s: &Setting, xs: &[Sample]) -> bool {
    let uncertain = |edition| {
        let s = Setting {
            edition,
            ..s.clone()
        };
        chain::whole(&s, xs, &[]).rings[3].count
    };
    uncertain(Edition::First) != uncertain(Edition::Second)
}

#[test]
fn long_inputs() {
    let mut r = Reached::default();
    let mut differ = 0;
    for seed in 0..240 {
        let rng = &mut Rng::new(1_000_000 + seed);
        let mut s = some_setting(rng);
        if rng.once_in(2) {
            s.fs = rng.pick(&[400.0, 998.5, 999.0, 999.5, 1000.0, 1000.49, 1999.0, 2000.0]);
            s.impulse = Mode::Apply;
        }
        let n = rng.from(2000, 9000);
        let mut xs = some_samples(rng, n);
        if rng.once_in(2) {
            // Few clicks among ones, so that blocks of 1000 have 0 to 3 flagged.
            xs = vec![Sample::new(1.0, 0.0); n];
            for _ in 0..n / 700 {
                xs[rng.below(n)] = Sample::new(100.0, 0.0);
            }
        }
        case(rng, &s, &xs, 20, &format!("long {seed}"), &mut r);
        differ += usize::from(s.edition == Edition::Second && editions_differ(&s, &xs));
    }
    r.say("long inputs");
    say(&format!(
        "long inputs: {differ} under edition 2 that edition 1 pauses otherwise"
    ));
    assert!(differ >= 10);
    assert!(r.repaired_runs > 1000 && r.uncertain > 10_000);
}

#[test]
fn order_of_the_sum() {
    // The window of the bench mark on unsorted sums, in any order, at any scale: sample 16 stands
    // at the flag's limit, and only the sum in ascending order says so.
    let mut r = Reached::default();
    let (tiny, below_one) = (2f32.powi(-12), 1.0 - 2f32.powi(-24));
    for seed in 0..3000 {
        let rng = &mut Rng::new(2_500_000 + seed);
        let mut xs = vec![Sample::new(10.0, 0.0); 7];
        xs.extend([Sample::new(1.0, 2.0); 4]);
        xs.extend([(1.0, 1.0), (1.0, 0.0), (0.0, 1.0)].map(|(re, im)| Sample::new(re, im)));
        xs.extend([
            Sample::new(below_one, tiny),
            Sample::new(tiny * below_one, tiny * tiny),
        ]);
        xs.extend([Sample::new(2f32.powi(-26), 0.0); 16]);
        for i in (1..xs.len()).rev() {
            xs.swap(i, rng.below(i + 1));
        }
        xs.insert(16, Sample::new(12.0, 0.0));
        xs.extend([Sample::new(1.0, 0.0); 30]);
        let scale = 2f32.powi(rng.from(0, 40) as i32 - 20);
        for x in &mut xs {
            *x = Sample::new(x.re * scale, x.im * scale);
        }
        assert!(!impulse::flagged(&xs, 16));
        let mode = rng.pick(&[Mode::Observe, Mode::Apply]);
        let s = setting(48000.0, mode, Mode::Off, Mode::Off);
        case(rng, &s, &xs, 0, &format!("order {seed}"), &mut r);
    }
    r.say("order of the sum");
}

#[test]
fn every_pattern_of_clicks() {
    // Each set of the first twelve of 52 samples, and each set of twelve from place 17 on.
    let mut r = Reached::default();
    for pattern in 0..4096_usize {
        let rng = &mut Rng::new(2_000_000 + pattern as u64);
        for (fs, first, impulse) in [
            (48000.0, 0, Mode::Apply),
            (48000.0, 17, Mode::Apply),
            (5.0, 17, Mode::Apply),
            (5.0, 0, Mode::Observe),
        ] {
            let mut s = setting(fs, impulse, Mode::Off, Mode::Off);
            s.spans = rng.pick(&[1, 2, 256]);
            s.repairs = rng.pick(&[1, 2, 4096]);
            let mut xs = vec![Sample::new(1.0, 0.5); 52];
            for k in 0..12 {
                if pattern >> k & 1 == 1 {
                    xs[first + k] = Sample::new(100.0, k as f32);
                }
            }
            let at = format!("pattern {pattern} at {first}, fs {fs}");
            case(rng, &s, &xs, 0, &at, &mut r);
        }
    }
    r.say("every pattern of clicks");
}

#[test]
fn hops() {
    let mut r = Reached::default();
    for seed in 0..6000 {
        let rng = &mut Rng::new(3_000_000 + seed);
        let mut s = some_setting(rng);
        s.iq = rng.pick(&[Mode::Observe, Mode::Observe, Mode::Apply]);
        s.n = rng.from(8, 64);
        if rng.below(3) > 0 {
            s.fs = rng.pick(&[1.0, 1.5, 3.3, 7.5, 20.0]);
        }
        let n = rng.below(60);
        let xs = some_samples(rng, n);
        let hops = rng.from(1, 80);
        case(rng, &s, &xs, hops, &format!("hops {seed}"), &mut r);
    }
    r.say("hops");
    assert!(r.hops > 10_000 && r.reports > 3000 && r.suspected > 300);
}

/// The greatest f32 whose square is at most `r`.
fn root_below(r: f64) -> f32 {
    let mut root = r.sqrt() as f32;
    while f64::from(root) * f64::from(root) > r {
        root = root.next_down();
    }
    root
}

#[test]
fn limits_of_a_suspected_window() {
    // 12 channels at fs 1; two hops are a window. Floor 1, p in channel 9, q in channel 3: each
    // at its limit, and one place below.
    let mut r = Reached::default();
    let most = oracle::num_complex::TEN_TO_0_6;
    for (p, q, suspected) in [
        (1000.0, most, true),
        (1000.0, most.next_down(), false),
        (1000.0, 4.0, true),
        (999.9999999999999, 4.0, false),
        (1000.0, 1000.0, true),
    ] {
        // The parts of both hops, so that the powers' sums are p and q.
        let parts = |power: f64| {
            let a = root_below(power);
            let rest = power - f64::from(a) * f64::from(a);
            let b = root_below(rest);
            let c = root_below(rest - f64::from(b) * f64::from(b));
            [Sample::new(a, b), Sample::new(c, 0.0)]
        };
        let mut hops = Vec::new();
        for i in 0..2 {
            let channel = Sample::new(if i == 0 { 1.0 } else { 0.0 }, 0.0);
            let mut channels = vec![channel; 12];
            channels[9] = parts(p)[i];
            channels[3] = parts(q)[i];
            let start = 3 * i as u64;
            hops.push(Hop { start, channels });
        }
        let mut s = setting(1.0, Mode::Off, Mode::Off, Mode::Observe);
        s.n = 12;
        let mut chain = original(&s).expect("IQ observes");
        let answers = monitor::answers(s.fs, s.n, &hops);
        for (hop, answer) in hops.iter().zip(&answers) {
            let result = chain.observe_hop(&all_c32(&hop.channels), hop.start);
            let (result, answer) = (result.as_ref(), answer.as_ref());
            assert_eq!(result.map(result_words), answer.map(evidence_words));
        }
        let e = answers[1].expect("a window");
        assert_eq!((e.floor, e.strongest, e.mirror), (1.0, p, q));
        assert_eq!(e.suspected, suspected, "{p} {q}");
        compare(&chain, &s, &chain::whole(&s, &[], &hops), &hops, "limits");
        r.cases += 1;
        r.hops += 2;
    }
    r.say("limits of a suspected window");
}

#[test]
fn hops_of_the_greatest_size() {
    let mut r = Reached::default();
    for seed in 0..12 {
        let rng = &mut Rng::new(3_500_000 + seed);
        let mut s = setting(1000.0, Mode::Off, Mode::Off, Mode::Observe);
        s.n = rng.pick(&[2048, 2047, 512]);
        case(rng, &s, &[], 30, &format!("great hops {seed}"), &mut r);
    }
    r.say("hops of the greatest size");
}

#[test]
fn guarding() {
    let (mut samples, mut replaced) = (0, 0);
    for seed in 0..2000 {
        let rng = &mut Rng::new(4_000_000 + seed);
        let n = rng.below(100);
        let xs: Vec<Sample> = (0..n)
            .map(|_| Sample::new(anything(rng), anything(rng)))
            .collect();
        let mut slice = all_c32(&xs);
        let count = replace_unusable(&mut slice);
        let (guarded, expected) = guard::guarded(&xs);
        assert_eq!(words_c32(&slice), words(&guarded), "guard {seed}");
        assert_eq!(count, expected, "guard {seed}");
        samples += xs.len();
        replaced += count;
    }
    say(&format!(
        "guarding: 2000 cases, {samples} samples, {replaced} replaced"
    ));
    assert!(replaced > 1000);
}

#[test]
fn undoing_dc_of_anything_within() {
    let mut samples = 0;
    for seed in 0..2000 {
        let rng = &mut Rng::new(5_000_000 + seed);
        let fs = rate(rng);
        let n = rng.below(200);
        let mut ys = some_samples(rng, n);
        if rng.once_in(3) {
            ys.iter_mut().for_each(|y| y.re *= 9.9);
        }
        assert_eq!(refusals::dc_undo(fs, &ys, ys.len()), None);
        let undone = revert_dc(&all_c32(&ys), fs);
        assert_eq!(words_c32(&undone), words(&dc::undone(fs, &ys)), "{seed}");
        samples += ys.len();
    }
    say(&format!("undoing DC: 2000 cases, {samples} samples"));
}

#[test]
fn undoing_iq_with_any_coefficient() {
    let (mut samples, mut unfit) = (0, 0);
    for seed in 0..4000 {
        let rng = &mut Rng::new(6_000_000 + seed);
        let mut c = Coefficient {
            re: rng.both(),
            im: rng.both(),
        };
        match rng.below(5) {
            0 => c = iq::coefficient(some_calibration(rng)),
            1 => {
                c.im = 0.0;
                c.re = near(rng, (1.0_f64 - 1e-12).sqrt());
            }
            2 if rng.once_in(2) => c.re = odd(rng),
            2 => c.im = odd(rng),
            _ => (),
        }
        let n = rng.below(50);
        let mut ys = some_samples(rng, n);
        if rng.once_in(3) {
            ys.iter_mut().for_each(|y| y.im *= 9.9);
        }
        let wide = Complex64::new(c.re, c.im);
        assert_eq!(IqCorrector::new(wide).is_ok(), iq::accepted(c), "{seed}");
        match refusals::iq_undo(c, &ys) {
            Some(refusal) => {
                assert_eq!(refusal.number, 10, "{seed}");
                let mut slice = all_c32(&ys);
                assert!(revert_iq(&mut slice, wide).is_err(), "{seed}");
                assert_eq!(words_c32(&slice), words(&ys), "a refusal leaves all");
                unfit += 1;
            }
            None => compare_iq_undo(&ys, c, &format!("iq undo {seed}")),
        }
        samples += ys.len();
    }
    say(&format!(
        "undoing IQ: 4000 cases, {samples} samples, {unfit} unfit"
    ));
    assert!(unfit > 200);
}

#[test]
fn coefficients_and_decisions() {
    let (mut correcting, mut withheld) = (0, 0);
    for seed in 0..40_000 {
        let rng = &mut Rng::new(7_000_000 + seed);
        let mut s = some_setting(rng);
        s.iq = Mode::Apply;
        let chain = original(&s).expect("IQ is on");
        compare(
            &chain,
            &s,
            &chain::whole(&s, &[], &[]),
            &[],
            &format!("{seed}"),
        );
        match iq::settled(&s) {
            Settled::Correcting(_) => correcting += 1,
            _ => withheld += 1,
        }
        if let Some(c) = s.calibration {
            let ratio = calibration(c).image_ratio();
            let rules = iq::coefficient(c);
            if rules.re.is_nan() || rules.im.is_nan() {
                continue;
            }
            assert_eq!(
                (ratio.re.to_bits(), ratio.im.to_bits()),
                (rules.re.to_bits(), rules.im.to_bits()),
                "{c:?}"
            );
        }
    }
    say(&format!(
        "coefficients: {correcting} correcting, {withheld} withheld"
    ));
    assert!(correcting > 5000 && withheld > 5000);
}

#[test]
fn observing_and_off() {
    let modes = [Mode::Off, Mode::Observe, Mode::Apply];
    for impulse in modes {
        for dc in modes {
            for iq in modes {
                let s = setting(48000.0, impulse, dc, iq);
                assert_eq!(config(&s).observing(), config(&s.observing()));
                assert_eq!(config(&s).is_off(), s.is_off());
                assert_eq!(original(&s).is_none(), s.is_off());
            }
        }
    }
}
