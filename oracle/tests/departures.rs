//! Where the Rust departs from a rule of document 01. Each test shows the smallest input, what the
//! rule says and what the Rust does. All of them lie outside what document 01 accepts, but for the
//! last three, which show the platform's functions beside those that the copy has in their place.
//!
//! Not to be shown by running:
//! - number 8: the Rust never looks at the total, and 2^48 samples cannot be fed;
//! - numbers 3, 4 and 5: the Rust has no capacity to give, no lent words, and a state that nobody
//!   else can write, so that it has nothing to refuse there.

mod common;

use common::*;
use oracle::condition::dc::revert_dc;
use oracle::condition::iq::revert_iq;
use oracle::condition::{InputConditioner, Mark, Stage};
use oracle::num_complex::{Complex32, Complex64};
use oracle::rules::refusals::{self, Answer, Refusal, TOTAL};
use oracle::rules::{Calibration, Mode, Sample, Setting};

const ONE: Sample = Sample { re: 1.0, im: 0.0 };
const CLICK: Sample = Sample { re: 100.0, im: 0.0 };

fn refused(number: u8, place: Option<usize>) -> Answer {
    Answer::Refused(Refusal { number, place })
}

fn making(s: &Setting) -> Answer {
    refusals::making(s, 6 * s.repairs, 24 * s.spans, 4 * s.n)
}

fn impulse_alone(fs: f64) -> Setting {
    setting(fs, Mode::Apply, Mode::Off, Mode::Off)
}

fn dc_alone(fs: f64) -> Setting {
    setting(fs, Mode::Off, Mode::Apply, Mode::Off)
}

/// A monitor of 12 channels at fs 1: a hop covers 3 samples, a window 5.
fn monitor_alone() -> Setting {
    Setting {
        n: 12,
        ..setting(1.0, Mode::Off, Mode::Off, Mode::Observe)
    }
}

// ---- number 1

#[test]
fn a_rate_out_of_range_makes_a_chain() {
    for fs in [
        f64::NAN,
        f64::NEG_INFINITY,
        -1.0,
        0.0,
        0.2,
        1f64.next_down(),
        1e7f64.next_up(),
        1e9,
        f64::INFINITY,
    ] {
        // The rule: refused with 1. The Rust: a chain.
        assert_eq!(making(&impulse_alone(fs)), refused(1, None));
        assert!(original(&impulse_alone(fs)).is_some());
    }
}

#[test]
fn a_rate_below_a_half_has_blocks_of_one_sample() {
    // fs 0.2 rounds to 0; the Rust takes at least 1, so a flagged sample pauses the next.
    let mut xs = vec![ONE; 40];
    xs[20] = CLICK;
    let (chain, _) = run_whole(&impulse_alone(0.2), &xs);
    let spans: Vec<_> = chain
        .log()
        .spans()
        .map(|s| (s.start_sample, s.len))
        .collect();
    assert_eq!(spans, [(20, 1), (21, 1)]);
    assert_eq!(chain.log().count(Stage::Impulse, Mark::Repaired), 1);
    assert_eq!(chain.log().count(Stage::Impulse, Mark::Uncertain), 1);
}

#[test]
fn a_rate_of_nan_or_0_moves_the_level_otherwise() {
    // NaN: max leaves it out, so the level stays a plain mean. 0: the weight is infinite.
    let xs = [Sample::new(1.0, 0.0), Sample::ZERO, Sample::ZERO];
    let (chain, _) = run_whole(&dc_alone(f64::NAN), &xs);
    let level = chain.log().dc_level().expect("DC runs");
    assert!((level.re - 1.0 / 3.0).abs() < 1e-15);
    let (chain, _) = run_whole(&dc_alone(0.0), &xs[..1]);
    let level = chain.log().dc_level().expect("DC runs");
    assert!(level.re == f64::INFINITY && level.im.is_nan());
}

// ---- number 2

#[test]
fn more_than_2048_channels_make_a_chain() {
    let s = Setting {
        n: 2049,
        ..monitor_alone()
    };
    assert_eq!(making(&s), refused(2, None));
    let mut chain = original(&s).expect("the Rust makes it");
    // And it observes: a hop of 512 samples completes a window.
    assert!(chain.observe_hop(&vec![c32(ONE); 2049], 0).is_some());
}

// ---- number 6

#[test]
fn a_slice_shorter_than_held_is_taken() {
    // One sample is held. The rule: an empty slice is refused with 6 and leaves all.
    assert_eq!(
        refusals::call(1, 1, &[]),
        Some(Refusal {
            number: 6,
            place: None
        })
    );
    let (mut chain, _) = run_whole(&impulse_alone(48000.0), &[ONE]);
    assert_eq!((chain.held, chain.log().samples_seen()), (1, 1));
    let condition = |chain: &mut InputConditioner| chain.condition(&mut []);
    if cfg!(debug_assertions) {
        // The Rust with its assertions: a panic.
        let answer = std::panic::catch_unwind(move || condition(&mut chain));
        assert!(answer.is_err());
    } else {
        // The Rust without: the count of seen samples wraps down, and the held one is forgotten.
        assert_eq!(condition(&mut chain), 0);
        assert_eq!((chain.held, chain.log().samples_seen()), (0, 0));
    }
}

// ---- number 7, samples

#[test]
fn an_unusable_sample_is_taken() {
    for part in [f32::NAN, f32::INFINITY, 1.0e17f32.next_up(), -2e17] {
        for x in [Sample::new(part, 0.0), Sample::new(0.0, part)] {
            let refusal = refusals::call(0, 0, &[x]).expect("not usable");
            assert_eq!((refusal.number, refusal.place), (7, Some(0)));
            let (chain, out) = run_whole(&dc_alone(48000.0), &[x]);
            assert_eq!((chain.log().samples_seen(), out.len()), (1, 1));
        }
    }
}

#[test]
fn one_infinite_sample_spoils_the_level_for_good() {
    let xs = [Sample::new(f32::INFINITY, 0.0), ONE, ONE];
    let (chain, out) = run_whole(&dc_alone(48000.0), &xs);
    assert!(chain.log().dc_level().expect("DC runs").re.is_nan());
    assert!(out[1].re.is_nan() && out[2].re.is_nan());
}

#[test]
fn one_nan_sample_stays_in_the_ordered_powers() {
    // Two runs of four among ones, far behind the NaN. They are mended, as the guard's 0 in its
    // place shows; behind a NaN they are not: its power never leaves the ordered list, where it
    // counts among the eight strongest.
    let mut xs = vec![ONE; 140];
    for k in [100, 101, 102, 103, 106, 107, 108, 109] {
        xs[k] = CLICK;
    }
    xs[0] = Sample::ZERO;
    let (chain, _) = run_whole(&impulse_alone(48000.0), &xs);
    assert_eq!(chain.log().count(Stage::Impulse, Mark::Repaired), 8);
    xs[0] = Sample::new(f32::NAN, 0.0);
    assert!(refusals::call(0, 0, &xs).is_some());
    let (chain, _) = run_whole(&impulse_alone(48000.0), &xs);
    assert_eq!(chain.log().count(Stage::Impulse, Mark::Repaired), 0);
}

// ---- number 9

#[test]
fn a_hop_before_the_last_end_is_added() {
    let s = monitor_alone();
    let hop = [ONE; 12];
    let mut chain = original(&s).expect("IQ observes");
    assert!(chain.observe_hop(&all_c32(&hop), 0).is_none());
    // The hop ended at 3. The rule: another at 0 is refused with 9. The Rust: it is added.
    assert_eq!(refusals::hop(&s, 3, 0, &hop), refused(9, None));
    assert!(chain.observe_hop(&all_c32(&hop), 0).is_none());
    let image = chain.image.as_ref().expect("a monitor");
    assert_eq!((image.power[0], image.end), (2.0, 3));
}

#[test]
fn a_hop_before_a_reported_end_reports_the_same_samples_again() {
    let s = monitor_alone();
    let hop = all_c32(&[ONE; 12]);
    let mut chain = original(&s).expect("IQ observes");
    assert!(chain.observe_hop(&hop, 0).is_none());
    let first = chain.observe_hop(&hop, 3).expect("0 to 6 is a window");
    assert_eq!((first.start_sample, first.end_sample), (0, 6));
    // One hop of 3 samples, and the Rust reports 6, which it has reported before.
    assert_eq!(refusals::hop(&s, 6, 0, &[ONE; 12]), refused(9, None));
    let again = chain.observe_hop(&hop, 0).expect("the end stands");
    assert_eq!((again.start_sample, again.end_sample), (0, 6));
}

#[test]
fn a_hop_start_above_2_48_is_added() {
    let s = monitor_alone();
    let hop = [ONE; 12];
    assert_eq!(refusals::hop(&s, 0, TOTAL + 1, &hop), refused(9, None));
    let mut chain = original(&s).expect("IQ observes");
    assert!(chain.observe_hop(&all_c32(&hop), TOTAL + 1).is_none());
    assert_eq!(chain.image.as_ref().expect("a monitor").end, TOTAL + 4);
}

#[test]
fn a_hop_start_near_2_64_overflows() {
    let s = monitor_alone();
    let hop = all_c32(&[ONE; 12]);
    assert_eq!(refusals::hop(&s, 0, u64::MAX, &[ONE; 12]), refused(9, None));
    let mut chain = original(&s).expect("IQ observes");
    if cfg!(debug_assertions) {
        let answer = std::panic::catch_unwind(move || chain.observe_hop(&hop, u64::MAX));
        assert!(answer.is_err());
    } else {
        assert!(chain.observe_hop(&hop, u64::MAX).is_none());
        let image = chain.image.as_ref().expect("a monitor");
        assert_eq!((image.start, image.end), (Some(u64::MAX), 2));
    }
}

// ---- number 7, hops

#[test]
fn a_hop_part_beyond_1e18_is_added() {
    let s = monitor_alone();
    let mut hop = [ONE; 12];
    hop[0] = Sample::new(f32::MAX, 0.0);
    assert_eq!(refusals::hop(&s, 0, 0, &hop), refused(7, Some(0)));
    let mut chain = original(&s).expect("IQ observes");
    chain.observe_hop(&all_c32(&hop), 0);
    // A word that number 5 would not let pass.
    assert!(chain.image.as_ref().expect("a monitor").power[0] > 1e60);
}

#[test]
fn a_hop_part_of_nan_is_added_and_wins() {
    let s = monitor_alone();
    let mut hop = [ONE; 12];
    hop[3] = Sample::new(f32::NAN, 0.0);
    assert_eq!(refusals::hop(&s, 0, 0, &hop), refused(7, Some(3)));
    let mut chain = original(&s).expect("IQ observes");
    chain.observe_hop(&all_c32(&hop), 0);
    // The NaN is the strongest of all in the Rust's order, and is reported.
    let report = chain
        .observe_hop(&all_c32(&[ONE; 12]), 3)
        .expect("a window");
    assert!(report.strongest_power.is_nan());
    assert_eq!((report.mirror_power, report.coherence), (2.0, 0.0));
}

// ---- undoing

#[test]
fn dc_undo_takes_any_rate() {
    for fs in [f64::NAN, 0.0, 0.2, 1e9] {
        let refusal = refusals::dc_undo(fs, &[ONE], 1).expect("not in 1..1e7");
        assert_eq!(refusal.number, 1);
        assert_eq!(words_c32(&revert_dc(&[c32(ONE)], fs)), [ONE.word()]);
    }
}

#[test]
fn dc_undo_takes_any_value() {
    for part in [f32::NAN, f32::INFINITY, 2e18] {
        let ys = [Sample::new(part, 0.0), ONE];
        let refusal = refusals::dc_undo(48000.0, &ys, 2).expect("not within 1e18");
        assert_eq!((refusal.number, refusal.place), (7, Some(0)));
        assert_eq!(revert_dc(&all_c32(&ys), 48000.0).len(), 2);
    }
    // And an infinite one spoils what follows.
    let ys = [Complex32::new(f32::INFINITY, 0.0), c32(ONE)];
    assert!(revert_dc(&ys, 48000.0)[1].re.is_nan());
}

#[test]
fn iq_undo_takes_any_value() {
    let c = oracle::rules::iq::Coefficient { re: 0.5, im: 0.0 };
    for part in [f32::NAN, f32::INFINITY, 2e18] {
        let ys = [Sample::new(part, 0.0)];
        let refusal = refusals::iq_undo(c, &ys).expect("not within 1e18");
        assert_eq!((refusal.number, refusal.place), (7, Some(0)));
        let mut slice = all_c32(&ys);
        assert!(revert_iq(&mut slice, Complex64::new(c.re, c.im)).is_ok());
    }
}

#[test]
fn refusals_10_to_13_are_strings() {
    let unfit = oracle::rules::iq::Coefficient { re: 1.0, im: 0.0 };
    assert_eq!(refusals::iq_undo(unfit, &[]).map(|r| r.number), Some(10));
    assert_eq!(
        revert_iq(&mut [], Complex64::new(1.0, 0.0)).unwrap_err(),
        "IQ image coefficient must be finite with magnitude below one"
    );
    let good = Calibration {
        gain: 1.0,
        phase: 0.0,
        centre: 1.0,
    };
    for (c, number, text) in [
        (
            Calibration { gain: 3.0, ..good },
            11,
            "iq_gain_ratio must be finite and in [0.5, 2.0]",
        ),
        (
            Calibration {
                phase: 46.0,
                ..good
            },
            12,
            "iq_phase_deg must be finite and in [-45, 45]",
        ),
        (
            Calibration {
                centre: 0.0,
                ..good
            },
            13,
            "iq_calibrated_center_hz must be finite and positive",
        ),
    ] {
        assert_eq!(refusals::validation(c).map(|r| r.number), Some(number));
        assert_eq!(calibration(c).validate().unwrap_err(), text);
    }
}

// ---- the platform's functions, which the original calls and the copy does not. They differ from
// ---- platform to platform: what is shown is glibc's.

#[cfg(all(target_os = "linux", target_env = "gnu", target_arch = "x86_64"))]
mod platform {
    use super::*;
    use oracle::num_complex::{cos, sin, to_radians, TEN_TO_0_6};
    use std::hint::black_box;

    /// `num_complex` has `hypot` for `norm`.
    #[test]
    fn norm_by_hypot() {
        // Greatest part 27: the first whole numbers on which the two differ.
        let root = |re: f64, im: f64| Complex64::new(re, im).norm();
        for re in 0..=27_i32 {
            for im in 0..=re.min(if re == 27 { 16 } else { 27 }) {
                let (re, im) = (black_box(f64::from(re)), f64::from(im));
                assert_eq!(re.hypot(im), root(re, im));
            }
        }
        assert_eq!(root(27.0, 17.0).to_bits(), 0x403f_e7f6_f939_a553);
        let hypot = black_box(27f64).hypot(17.0);
        assert_eq!(hypot.to_bits(), 0x403f_e7f6_f939_a554);

        // The first on which the DC level differs: one sample (45, 43).
        let (chain, _) = run_whole(&dc_alone(48000.0), &[Sample::new(45.0, 43.0)]);
        let level = chain.log().dc_level().expect("DC runs");
        let scale = 1.0 / black_box(45f64).hypot(43.0);
        assert_eq!(
            (level.re, 45.0 * scale),
            (0.7229906911531179, 0.7229906911531178)
        );
        assert_eq!(
            (level.im, 43.0 * scale),
            (0.6908577715463127, 0.6908577715463126)
        );

        // One on which the clamp would act: the norm is 1.
        let fine = 1.125 * 2f32.powi(-26);
        let (chain, _) = run_whole(&dc_alone(48000.0), &[Sample::new(1.0, fine)]);
        assert_eq!(chain.log().dc_clamped(), 0);
        assert!(black_box(1f64).hypot(f64::from(fine)) > 1.0);
    }

    /// The coefficient with the platform's sine and cosine.
    fn platform_ratio(c: Calibration) -> Complex64 {
        let t = -black_box(c.phase).to_radians();
        let w = Complex64::new(c.gain * t.cos(), c.gain * t.sin());
        (1.0 - w) / (1.0 + w)
    }

    #[test]
    fn sine_and_cosine() {
        // The first whole degrees on which they differ: the sine of 2, the cosine of 40.
        let t = |degrees: i32| black_box(to_radians(f64::from(degrees)));
        for degrees in 0..=45 {
            let differ = [2, 6, 10, 19, 26, 27, 43].contains(&degrees);
            assert_eq!(sin(t(degrees)) != t(degrees).sin(), differ, "{degrees}");
            assert_eq!(cos(t(degrees)) != t(degrees).cos(), degrees == 40);
        }
        // The coefficient of gain 1, phase 2.
        let c = Calibration {
            gain: 1.0,
            phase: 2.0,
            centre: 1e6,
        };
        let (ours, platform) = (calibration(c).image_ratio(), platform_ratio(c));
        assert_ne!(
            (ours.re.to_bits(), ours.im.to_bits()),
            (platform.re.to_bits(), platform.im.to_bits())
        );
        // To radians is the same: no departure there.
        for degrees in -45..=45 {
            let degrees = black_box(f64::from(degrees));
            assert_eq!(
                to_radians(degrees).to_bits(),
                degrees.to_radians().to_bits()
            );
        }
    }

    #[test]
    fn ten_to_the_power_of_0_6() {
        // The platform's value is the f64 below the constant.
        let power = 10f64.powf(black_box(0.6));
        assert_eq!(power.to_bits(), 0x400f_d93c_1f52_6ddf);
        assert_eq!(TEN_TO_0_6.to_bits(), 0x400f_d93c_1f52_6de0);

        // Two hops with floor 1, p 1000 and q just the platform's value: with the constant the
        // window is not suspected, with the platform's value it would be.
        let mut hops = [[ONE; 12], [Sample::ZERO; 12]];
        hops[0][9] = Sample::new(30.0, 10.0);
        hops[0][3] = Sample::new(f32::from_bits(0x3fff_64c1), f32::from_bits(0x39e9_a2e5));
        hops[1][3] = Sample::new(f32::from_bits(0x341a_feff), 0.0);
        let mut chain = original(&monitor_alone()).expect("IQ observes");
        assert!(chain.observe_hop(&all_c32(&hops[0]), 0).is_none());
        let report = chain.observe_hop(&all_c32(&hops[1]), 3).expect("a window");
        assert_eq!((report.floor_power, report.strongest_power), (1.0, 1000.0));
        assert_eq!(report.mirror_power, power);
        assert!(!report.suspected);
        let limits = report.strongest_power >= 1000.0 * report.floor_power
            && report.mirror_power <= report.strongest_power;
        assert!(limits && report.mirror_power >= power * report.floor_power);
    }
}
