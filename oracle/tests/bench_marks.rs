//! Every bench mark of document 01, and each of its 'Mistakes to shut out'. `agree` runs the
//! original and the second reading and holds them equal bit for bit, so that what is then said of
//! the record is said of both.

mod common;

use common::*;
use oracle::condition::iq::ImageResult;
use oracle::condition::{Mark, Stage};
use oracle::rules::chain::Record;
use oracle::rules::impulse::{flagged, flags, judged, power, reference, value, window, TRIM};
use oracle::rules::iq::{corrected, settled, Coefficient, Settled};
use oracle::rules::monitor::{answers, Hop};
use oracle::rules::{dc, Calibration, Mode, Sample, Setting};

const ONE: Sample = Sample { re: 1.0, im: 0.0 };
const CLICK: Sample = Sample { re: 100.0, im: 0.0 };

fn applying(fs: f64) -> Setting {
    setting(fs, Mode::Apply, Mode::Off, Mode::Off)
}

fn observing(fs: f64) -> Setting {
    setting(fs, Mode::Observe, Mode::Off, Mode::Off)
}

/// Ones, with the given samples from `first` on.
fn among_ones(n: usize, first: usize, these: &[Sample]) -> Vec<Sample> {
    let mut xs = vec![ONE; n];
    xs[first..first + these.len()].copy_from_slice(these);
    xs
}

fn count(r: &Record, stage: Stage, mark: Mark) -> u64 {
    r.rings[4 * stage as usize + mark as usize].count
}

fn spans(r: &Record, stage: Stage, mark: Mark) -> Vec<(u64, u64)> {
    r.rings[4 * stage as usize + mark as usize].spans()
}

fn re(xs: &[Sample]) -> Vec<f32> {
    assert!(xs.iter().all(|x| x.im == 0.0));
    xs.iter().map(|x| x.re).collect()
}

#[test]
fn twelve_is_unflagged_and_thirteen_flagged() {
    for (part, expected) in [(12.0, 0), (13.0, 1)] {
        let xs = among_ones(60, 20, &[Sample::new(part, 0.0)]);
        assert_eq!(flagged(&xs, 20), expected == 1);
        let seen = agree(&observing(48000.0), &xs);
        assert_eq!(count(&seen, Stage::Impulse, Mark::Flagged), expected);
        let mended = agree(&applying(48000.0), &xs);
        assert_eq!(count(&mended, Stage::Impulse, Mark::Repaired), expected);
    }
}

#[test]
fn all_zeros_but_one_is_unflagged() {
    let mut xs = vec![Sample::ZERO; 60];
    xs[20] = CLICK;
    assert!(flags(&xs).iter().all(|&f| !f));
    let r = agree(&observing(48000.0), &xs);
    assert_eq!(count(&r, Stage::Impulse, Mark::Flagged), 0);
    let r = agree(&applying(48000.0), &xs);
    assert_eq!(re(&r.out)[20], 100.0);
}

#[test]
fn four_in_a_row_are_repaired() {
    let xs = among_ones(80, 20, &[CLICK; 4]);
    let r = agree(&applying(48000.0), &xs);
    assert_eq!(re(&r.out), vec![1.0; 59]);
    assert_eq!(spans(&r, Stage::Impulse, Mark::Repaired), [(20, 4)]);
    let word = CLICK.word();
    assert_eq!(r.repairs.records(), [[20, 4, word, word, word, word]]);
    assert_eq!(r.long_runs, 0);
}

#[test]
fn five_are_kept_as_one_long_run() {
    let xs = among_ones(80, 20, &[CLICK; 5]);
    let r = agree(&applying(48000.0), &xs);
    assert_eq!(words(&r.out), words(&xs[..59]));
    assert_eq!(spans(&r, Stage::Impulse, Mark::Flagged), [(20, 5)]);
    assert_eq!(count(&r, Stage::Impulse, Mark::Repaired), 0);
    assert_eq!(r.long_runs, 1);
}

#[test]
fn nine_are_unflagged() {
    let xs = among_ones(80, 30, &[CLICK; 9]);
    for j in 30..39 {
        assert_eq!(window(&xs, j).len(), 33);
        assert_eq!(reference(&xs, j), 400.96);
    }
    let r = agree(&observing(48000.0), &xs);
    assert_eq!(count(&r, Stage::Impulse, Mark::Flagged), 0);
    let r = agree(&applying(48000.0), &xs);
    assert_eq!(words(&r.out), words(&xs[..59]));
}

#[test]
fn sample_0_becomes_its_right_neighbour() {
    let xs = among_ones(60, 0, &[CLICK]);
    let r = agree(&applying(48000.0), &xs);
    assert_eq!(r.out[0].word(), ONE.word());
    assert_eq!(spans(&r, Stage::Impulse, Mark::Repaired), [(0, 1)]);
}

#[test]
fn three_between_1_and_5_mend_to_2_3_4() {
    let xs = among_ones(60, 20, &[CLICK, CLICK, CLICK, Sample::new(5.0, 0.0)]);
    let r = agree(&applying(48000.0), &xs);
    assert_eq!(re(&r.out[19..25]), [1.0, 2.0, 3.0, 4.0, 5.0, 1.0]);
}

#[test]
fn block_1000_goes_on_after_one_and_pauses_after_two() {
    let mut xs = among_ones(3100, 500, &[CLICK]);
    xs[1500] = CLICK;
    let r = agree(&applying(1000.0), &xs);
    assert_eq!(
        spans(&r, Stage::Impulse, Mark::Repaired),
        [(500, 1), (1500, 1)]
    );
    assert_eq!(count(&r, Stage::Impulse, Mark::Uncertain), 0);

    xs[600] = CLICK;
    let r = agree(&applying(1000.0), &xs);
    assert_eq!(
        spans(&r, Stage::Impulse, Mark::Repaired),
        [(500, 1), (600, 1)]
    );
    assert_eq!(spans(&r, Stage::Impulse, Mark::Flagged), [(1500, 1)]);
    assert_eq!(spans(&r, Stage::Impulse, Mark::Uncertain), [(1000, 1000)]);
    assert_eq!(r.out[1500].word(), CLICK.word());
}

#[test]
fn sixteen_samples_judge_none() {
    let mut xs = vec![CLICK];
    xs.resize(16, ONE);
    assert_eq!((judged(16), judged(17)), (0, 1));
    for s in [applying(48000.0), observing(48000.0)] {
        assert!(agree(&s, &xs).rings.iter().all(|ring| ring.count == 0));
    }
    // The 17th judges sample 0, the 18th ends its run.
    xs.push(ONE);
    assert!(flagged(&xs, 0));
    let r = agree(&observing(48000.0), &xs);
    assert_eq!(count(&r, Stage::Impulse, Mark::Flagged), 0);
    xs.push(ONE);
    let r = agree(&observing(48000.0), &xs);
    assert_eq!(count(&r, Stage::Impulse, Mark::Flagged), 1);
}

#[test]
fn dc_levels() {
    let s = setting(48000.0, Mode::Off, Mode::Apply, Mode::Off);
    let r = agree(&s, &[Sample::new(2.0, 0.0)]);
    let level = r.dc.expect("DC runs");
    assert_eq!((level.re, level.im), (1.0, 0.0));
    let r = agree(&s, &[Sample::new(0.5, 0.0); 2]);
    assert_eq!(re(&r.out), [0.5, 0.0]);
}

fn corrector(offset: f64) -> Setting {
    let mut s = setting(48000.0, Mode::Off, Mode::Off, Mode::Apply);
    s.calibration = Some(Calibration {
        gain: 1.1,
        phase: 3.0,
        centre: 7.0e6,
    });
    s.centre = 7.0e6 + offset;
    s
}

#[test]
fn centre_off_by_1_corrects_and_by_1_5_withholds() {
    let xs = vec![Sample::new(0.25, -0.5); 3];
    for offset in [1.0, -1.0] {
        let r = agree(&corrector(offset), &xs);
        assert!(matches!(r.iq, Settled::Correcting(_)));
        assert_eq!(count(&r, Stage::Iq, Mark::Corrected), 3);
        assert_ne!(r.out[0].word(), xs[0].word());
    }
    for offset in [1.5, -1.5] {
        let r = agree(&corrector(offset), &xs);
        assert!(matches!(r.iq, Settled::Withheld));
        assert_eq!(count(&r, Stage::Iq, Mark::Uncertain), 3);
        assert_eq!(words(&r.out), words(&xs));
    }
}

// ---- Mistakes to shut out: for each, an input on which it would be seen.

#[test]
fn mistake_summing_kept_powers_unsorted() {
    // 25 kept powers, the strong ones first: seven that sum to 24, then 1 − 2^-24,
    // 2^-24 − 2^-48, and sixteen times 2^-52. Sorted, the sum is 25, the reference 1, and
    // (12,0) at its limit unflagged. In order of arrival the last sixteen are lost, and it
    // would be flagged.
    let tiny = 2f32.powi(-12);
    let below_one = 1.0 - 2f32.powi(-24);
    let mut xs = vec![Sample::new(10.0, 0.0); 7];
    xs.extend([Sample::new(1.0, 2.0); 4]);
    xs.extend([Sample::new(1.0, 1.0), ONE, ONE]);
    xs.extend([
        Sample::new(below_one, tiny),
        Sample::new(tiny * below_one, tiny * tiny),
    ]);
    xs.push(Sample::new(12.0, 0.0));
    xs.extend([Sample::new(2f32.powi(-26), 0.0); 16]);
    assert_eq!(xs.len(), 33);
    assert_eq!(power(xs[16]), 144.0);
    assert_eq!(reference(&xs, 16), 1.0);
    assert!(!flagged(&xs, 16));

    let strong = |p: f32| p > 5.0;
    let arrived: Vec<f64> = window(&xs, 16)
        .into_iter()
        .filter(|&p| !strong(p))
        .map(f64::from)
        .collect();
    assert_eq!(arrived.len(), 33 - TRIM);
    let unsorted = arrived.iter().sum::<f64>() / 25.0;
    assert!(144.0 > 144.0 * unsorted, "the mistake would flag it");

    // One more sample ends a run that began at 16; none did.
    xs.push(ONE);
    let r = agree(&observing(48000.0), &xs);
    assert_eq!(count(&r, Stage::Impulse, Mark::Flagged), 0);
}

#[test]
fn mistake_a_mended_left_neighbour() {
    // Two runs with one unflagged sample between: it is the second's left, raw.
    let between = Sample::new(5.0, 0.0);
    let xs = among_ones(60, 20, &[CLICK, between, CLICK]);
    let r = agree(&applying(48000.0), &xs);
    // The first mends to (1 + 5)/2; a left of 3 would mend the second to 2.
    assert_eq!(re(&r.out[19..24]), [1.0, 3.0, 5.0, 3.0, 1.0]);
    assert_eq!(value(&xs, &flags(&xs), &[false], 48000, 22).re, 3.0);
}

fn hop_of(start: u64, n: usize, these: &[(usize, f32, f32)]) -> Hop {
    let mut channels = vec![ONE; n];
    for &(k, re, im) in these {
        channels[k] = Sample::new(re, im);
    }
    Hop { start, channels }
}

fn report(s: &Setting, hop: &Hop) -> ImageResult {
    let mut chain = original(s).expect("IQ is on");
    chain
        .observe_hop(&all_c32(&hop.channels), hop.start)
        .expect("a jump of a whole window")
}

#[test]
fn mistake_first_instead_of_last_among_equal_channels() {
    // n = 24: channels 3 to 9 and 15 to 21 are eligible. 5 and 20 are equally strong, and their
    // mirrors 19 and 4 are not.
    let mut s = setting(1.0, Mode::Off, Mode::Off, Mode::Observe);
    s.n = 24;
    let hop = hop_of(
        0,
        24,
        &[
            (5, 40.0, 0.0),
            (19, 3.0, 0.0),
            (20, 40.0, 0.0),
            (4, 7.0, 0.0),
        ],
    );
    let answer = answers(s.fs, s.n, std::slice::from_ref(&hop));
    let evidence = answer[0].expect("hop 6 is over the window 5");
    assert_eq!(result_words(&report(&s, &hop)), evidence_words(&evidence));
    assert_eq!((evidence.strongest, evidence.mirror), (1600.0, 49.0));
    assert!(evidence.suspected);
}

#[test]
fn mistake_resetting_the_dc_count_on_zeros() {
    // 0.5, then a zero y, then 1: the third update is the third, weight 1/3.
    let s = setting(48000.0, Mode::Off, Mode::Apply, Mode::Off);
    let (half, one) = (Sample::new(0.5, 0.0), Sample::new(1.0, 0.0));
    let r = agree(&s, &[half, half, one]);
    let level = r.dc.expect("DC runs");
    assert_eq!(re(&r.out), [0.5, 0.0, 0.5]);
    assert_eq!(level.updates, 3);
    assert_eq!(level.re, 0.5 + 0.5 * (1.0 / 3.0));
    // Zeros before the first update are none, of either sign.
    let zeros = [Sample::ZERO, Sample::new(-0.0, 0.0), half];
    let level = agree(&s, &zeros).dc.expect("DC runs");
    assert_eq!((level.re, level.updates), (0.5, 1));
    assert_eq!(dc::levels(48000.0, &zeros)[2].updates, 0);
}

#[test]
fn mistake_narrowing_twice_in_iq() {
    let Settled::Correcting(c) = settled(&corrector(0.0)) else {
        panic!("a matching centre");
    };
    let twice = |m: Sample, c: Coefficient| {
        let (re, im) = (f64::from(m.re), f64::from(m.im));
        let leak_re = (c.re * re - c.im * -im) as f32;
        let leak_im = (c.re * -im + c.im * re) as f32;
        Sample::new(m.re - leak_re, m.im - leak_im)
    };
    let xs: Vec<Sample> = (1..40)
        .map(|k| Sample::new(0.1 * k as f32, 0.03 * k as f32))
        .collect();
    let seen = xs
        .iter()
        .filter(|&&m| twice(m, c).word() != corrected(c, m).word())
        .count();
    assert!(seen > 0, "the mistake would be seen");
    agree(&corrector(0.0), &xs);
}
