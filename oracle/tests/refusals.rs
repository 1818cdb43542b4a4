//! The numbers of document 01's table that plain input decides, in its order; where the original
//! has the same test, its answer beside them.

mod common;

use common::*;
use oracle::condition::iq::revert_iq;
use oracle::num_complex::Complex64;
use oracle::rules::iq::Coefficient;
use oracle::rules::refusals::{self, Answer, Refusal, TOTAL};
use oracle::rules::{Calibration, Mode, Sample, Setting};

const ONE: Sample = Sample { re: 1.0, im: 0.0 };

fn number(number: u8) -> Option<Refusal> {
    let place = None;
    Some(Refusal { number, place })
}

fn seven(place: usize) -> Option<Refusal> {
    let place = Some(place);
    Some(Refusal { number: 7, place })
}

fn good() -> Setting {
    setting(48000.0, Mode::Apply, Mode::Apply, Mode::Observe)
}

/// Making with lent words of the right lengths.
fn made(s: &Setting) -> Answer {
    refusals::making(s, 6 * s.repairs, 24 * s.spans, 4 * s.n)
}

#[test]
fn making_1_2_3_4() {
    let refused = |n| Answer::Refused(number(n).unwrap());
    assert_eq!(made(&good()), Answer::Accepted);
    for fs in [1.0, 1e7, 1.5, 48000.0] {
        assert_eq!(made(&Setting { fs, ..good() }), Answer::Accepted);
    }
    for fs in [
        f64::NAN,
        0.0,
        -1.0,
        1f64.next_down(),
        1e7f64.next_up(),
        f64::INFINITY,
    ] {
        assert_eq!(made(&Setting { fs, ..good() }), refused(1));
    }
    for (n, answer) in [
        (0, Answer::Accepted),
        (7, Answer::Accepted),
        (2048, Answer::Accepted),
        (2049, refused(2)),
        (usize::MAX / 8, refused(2)),
    ] {
        assert_eq!(made(&Setting { n, ..good() }), answer);
    }
    for (spans, answer) in [
        (0, refused(3)),
        (1, Answer::Accepted),
        (256, Answer::Accepted),
        (257, refused(3)),
    ] {
        assert_eq!(made(&Setting { spans, ..good() }), answer);
    }
    for (repairs, answer) in [
        (0, refused(3)),
        (1, Answer::Accepted),
        (4096, Answer::Accepted),
        (4097, refused(3)),
    ] {
        assert_eq!(made(&Setting { repairs, ..good() }), answer);
    }
    let s = good();
    for (a, b, c) in [(1, 0, 0), (0, 1, 0), (0, 0, 1)] {
        let answer = refusals::making(&s, 6 * s.repairs + a, 24 * s.spans + b, 4 * s.n + c);
        assert_eq!(answer, refused(4));
    }
    // In that order, and all off before them.
    let mut s = Setting {
        fs: 0.0,
        n: 2049,
        spans: 0,
        ..good()
    };
    assert_eq!(refusals::making(&s, 0, 0, 0), refused(1));
    s.fs = 1.0;
    assert_eq!(refusals::making(&s, 0, 0, 0), refused(2));
    s.n = 8;
    assert_eq!(refusals::making(&s, 0, 0, 0), refused(3));
    s.spans = 1;
    assert_eq!(refusals::making(&s, 0, 0, 0), refused(4));
    let off = Setting {
        impulse: Mode::Off,
        dc: Mode::Off,
        iq: Mode::Off,
        fs: f64::NAN,
        ..s
    };
    assert_eq!(refusals::making(&off, 0, 0, 0), Answer::Nothing);
}

#[test]
fn a_call_6_8_7() {
    let nan = Sample::new(0.0, f32::NAN);
    let slice = [nan, nan, ONE, ONE];
    // Held ones are never read.
    assert_eq!(refusals::call(30, 2, &slice), None);
    assert_eq!(refusals::call(30, 1, &slice), seven(1));
    assert_eq!(refusals::call(30, 0, &slice), seven(0));
    assert_eq!(refusals::call(30, 4, &slice), None);
    assert_eq!(refusals::call(30, 5, &slice), number(6));
    // 8 before 7; at 2^48 a call that brings none is accepted.
    assert_eq!(refusals::call(TOTAL - 3, 1, &slice), seven(1));
    assert_eq!(refusals::call(TOTAL - 2, 1, &slice), number(8));
    assert_eq!(refusals::call(TOTAL, 4, &slice), None);
    for (part, usable) in [
        (1.0e17, true),
        (-1.0e17, true),
        (1.0e17f32.next_up(), false),
        (-1.0e17f32.next_up(), false),
        (f32::INFINITY, false),
        (-0.0, true),
        (f32::from_bits(1), true),
    ] {
        let answer = if usable { None } else { seven(0) };
        assert_eq!(refusals::call(0, 0, &[Sample::new(part, 0.0)]), answer);
        assert_eq!(refusals::call(0, 0, &[Sample::new(0.0, part)]), answer);
    }
}

#[test]
fn a_hop_9_7() {
    let refused = |r: Option<Refusal>| Answer::Refused(r.unwrap());
    let s = good();
    let mut hop = vec![ONE; 8];
    assert_eq!(refusals::hop(&s, 10, 10, &hop), Answer::Accepted);
    assert_eq!(refusals::hop(&s, 10, 9, &hop), refused(number(9)));
    assert_eq!(refusals::hop(&s, 0, TOTAL, &hop), Answer::Accepted);
    assert_eq!(refusals::hop(&s, 0, TOTAL + 1, &hop), refused(number(9)));
    hop[5].im = 1.1e18;
    assert_eq!(refusals::hop(&s, 10, 10, &hop), refused(seven(5)));
    assert_eq!(refusals::hop(&s, 10, 9, &hop), refused(number(9)));
    assert_eq!(refusals::hop(&s, 10, 9, &hop[1..]), Answer::Nothing);
    let off = Setting {
        iq: Mode::Off,
        ..good()
    };
    assert_eq!(refusals::hop(&off, 10, 9, &hop), Answer::Nothing);
    let small = Setting { n: 7, ..good() };
    assert_eq!(refusals::hop(&small, 10, 9, &hop[1..]), Answer::Nothing);
    // 1e18 lies between two f32 values.
    let most = 999_999_984_306_749_440_f32;
    assert!(refusals::within(most) && refusals::within(-most));
    assert!(!refusals::within(most.next_up()) && !refusals::within(f32::NAN));
}

#[test]
fn dc_undo_1_4_7() {
    let ys = [ONE, Sample::new(f32::NAN, 0.0)];
    assert_eq!(refusals::dc_undo(48000.0, &ys[..1], 1), None);
    assert_eq!(refusals::dc_undo(48000.0, &ys, 2), seven(1));
    assert_eq!(refusals::dc_undo(48000.0, &ys, 3), number(4));
    assert_eq!(refusals::dc_undo(0.5, &ys, 3), number(1));
    assert_eq!(refusals::dc_undo(48000.0, &[], 0), None);
}

#[test]
fn iq_undo_10_7() {
    let ys = [ONE, Sample::new(0.0, 2e18)];
    let fit = Coefficient { re: 0.5, im: 0.5 };
    assert_eq!(refusals::iq_undo(fit, &ys[..1]), None);
    assert_eq!(refusals::iq_undo(fit, &ys), seven(1));
    for unfit in [
        Coefficient { re: 1.0, im: 0.0 },
        Coefficient {
            re: f64::NAN,
            im: 0.0,
        },
        Coefficient {
            re: 0.0,
            im: f64::INFINITY,
        },
        Coefficient { re: 1e200, im: 0.0 },
    ] {
        assert_eq!(refusals::iq_undo(unfit, &ys), number(10));
        assert_eq!(refusals::iq_undo(unfit, &[]), number(10));
        assert!(revert_iq(&mut [], Complex64::new(unfit.re, unfit.im)).is_err());
    }
}

#[test]
fn a_power_at_the_limit_is_unfit() {
    // A coefficient whose power is just 1 − 1e-12, and one whose power is the f64 below.
    let limit = 1.0 - 1e-12;
    let mut met = [0, 0];
    for i in 0..4000 {
        let re = 0.6 + 1e-5 * f64::from(i);
        let c = Coefficient {
            re,
            im: (limit - re * re).sqrt(),
        };
        let power = c.re * c.re + c.im * c.im;
        let refused = revert_iq(&mut [], Complex64::new(c.re, c.im)).is_err();
        if power == limit {
            assert_eq!(refusals::iq_undo(c, &[]), number(10));
            assert!(refused);
            met[0] += 1;
        } else if power == limit.next_down() {
            assert_eq!(refusals::iq_undo(c, &[]), None);
            assert!(!refused);
            met[1] += 1;
        }
    }
    assert!(met[0] > 100 && met[1] > 100);
}

/// The original's strings as the numbers of the table.
fn of_string(c: Calibration) -> Option<u8> {
    let text = calibration(c).validate().err()?;
    let starts = ["iq_gain_ratio", "iq_phase_deg", "iq_calibrated_center_hz"];
    let at = starts.iter().position(|s| text.starts_with(s));
    Some(11 + at.expect("one of the three") as u8)
}

#[test]
fn validation_11_12_13() {
    let gains = [
        0.5,
        0.5f64.next_down(),
        2.0,
        2f64.next_up(),
        1.0,
        -1.0,
        f64::NAN,
        f64::INFINITY,
    ];
    let phases = [
        -45.0,
        45.0,
        45f64.next_up(),
        -45f64.next_up(),
        0.0,
        f64::NAN,
        f64::NEG_INFINITY,
    ];
    let centres = [
        0.0,
        -0.0,
        -1.0,
        5e-324,
        1e6,
        f64::MAX,
        f64::INFINITY,
        f64::NAN,
    ];
    let mut met = [0; 14];
    for gain in gains {
        for phase in phases {
            for centre in centres {
                let c = Calibration {
                    gain,
                    phase,
                    centre,
                };
                let refusal = refusals::validation(c).map(|r| r.number);
                assert_eq!(refusal, of_string(c), "{c:?}");
                met[refusal.unwrap_or(0) as usize] += 1;
            }
        }
    }
    assert_eq!(met[0] + met[11] + met[12] + met[13], 8 * 7 * 8);
    assert!(met[0] > 0 && met[11] > 0 && met[12] > 0 && met[13] > 0);
}
