//! The replay's header, its refusals and its printed report: the text of the second reading, and
//! the same text put together from the original's log (under edition 2 with the second reading's
//! pauses, on inputs too short to show them). What a header alone prints (document 02,
//! R-7) is written out by hand too.

mod common;

use common::*;
use oracle::condition::{IqStatus, Mark, Stage};
use oracle::draw::some_edition;
use oracle::rules::replay::{broken, header, printed, refusal, samples};
use oracle::rules::{Calibration, Mode, Sample, Setting};
use oracle::sample_guard::replace_unusable;
use oracle::trace::machine::edition_word;

fn byte(mode: Mode) -> u8 {
    match mode {
        Mode::Off => 0,
        Mode::Observe => 1,
        Mode::Apply => 2,
    }
}

/// The input that says `s` and the samples.
fn input(s: &Setting, xs: &[Sample]) -> Vec<u8> {
    let mut bytes = b"CND".to_vec();
    bytes.extend((edition_word(s.edition) as u16).to_le_bytes());
    bytes.extend([s.impulse, s.dc, s.iq].map(byte));
    bytes.push(u8::from(s.calibration.is_some()));
    let c = s.calibration.unwrap_or(Calibration {
        gain: 9.0,
        phase: f64::NAN,
        centre: -1.0,
    });
    for number in [s.fs, s.centre, c.gain, c.phase, c.centre] {
        bytes.extend(number.to_le_bytes());
    }
    for x in xs {
        bytes.extend(x.re.to_le_bytes());
        bytes.extend(x.im.to_le_bytes());
    }
    bytes
}

/// The report, from the original's own log.
fn printed_by_original(s: &Setting, xs: &[Sample]) -> String {
    let mut slice = all_c32(xs);
    let replaced = replace_unusable(&mut slice);
    let Some(mut chain) = original(s) else {
        return "off\n".into();
    };
    chain.condition(&mut slice);
    let log = chain.log();
    let mut lines = vec![
        format!("replaced {replaced}"),
        format!(
            "seen {} final {} held {}",
            log.samples_seen(),
            chain.released,
            chain.held
        ),
    ];
    let name = |stage: Stage, mark: Mark| format!("{stage:?} {mark:?}").to_lowercase();
    for stage in Stage::ALL {
        for mark in Mark::ALL {
            if log.count(stage, mark) > 0 {
                let count = log.count(stage, mark);
                lines.push(format!("count {} {count}", name(stage, mark)));
            }
        }
    }
    for span in log.spans() {
        let name = name(span.stage, span.mark);
        lines.push(format!("span {name} {} {}", span.start_sample, span.len));
    }
    let dropped = (log.spans_dropped(), log.repairs_dropped());
    lines.push(format!("dropped {} {}", dropped.0, dropped.1));
    lines.push(match log.dc_level() {
        None => "dc none".into(),
        Some(l) => format!("dc {:016x} {:016x}", l.re.to_bits(), l.im.to_bits()),
    });
    let iq = match log.iq_status() {
        IqStatus::Off => "off",
        IqStatus::Observing => "observing",
        IqStatus::Correcting => "correcting",
        IqStatus::CalibrationMismatch => "mismatch",
    };
    lines.push(format!("iq {iq}"));
    lines.join("\n") + "\n"
}

/// A setting as the replay makes it.
fn replayed(fs: f64, impulse: Mode, dc: Mode, iq: Mode) -> Setting {
    Setting {
        n: 8,
        repairs: 1024,
        spans: 256,
        ..setting(fs, impulse, dc, iq)
    }
}

const MODES: [Mode; 3] = [Mode::Off, Mode::Observe, Mode::Apply];

/// The 27 combinations of three modes: impulse, DC, IQ.
fn all_modes() -> impl Iterator<Item = [Mode; 3]> {
    (0..27).map(|i| [i / 9, i / 3 % 3, i % 3].map(|m: usize| MODES[m]))
}

/// A setting as the replay makes it, with the receiver's centre at 7 MHz.
fn tuned([impulse, dc, iq]: [Mode; 3], calibration: Option<Calibration>) -> Setting {
    Setting {
        centre: 7e6,
        calibration,
        ..replayed(48000.0, impulse, dc, iq)
    }
}

/// A calibration whose centre is `off` Hz from 7 MHz. "centre off by 1.0 corrects, by 1.5
/// withholds"
fn calibrated(off: f64) -> Option<Calibration> {
    Some(Calibration {
        gain: 1.1,
        phase: 3.0,
        centre: 7e6 + off,
    })
}

/// The level of a fresh chain: "Under dc observe or apply the level is two zero words."
const ZEROS: &str = "0000000000000000 0000000000000000";

/// Document 02, R-7: "It prints replaced 0, seen 0 final 0 held 0, the dropped, dc and iq lines."
fn fresh(dc: &str, iq: &str) -> String {
    format!("replaced 0\nseen 0 final 0 held 0\ndropped 0 0\ndc {dc}\niq {iq}\n")
}

#[test]
fn the_sample_of_document_01() {
    let s = replayed(48000.0, Mode::Apply, Mode::Off, Mode::Off);
    let mut xs = vec![Sample::new(1.0, 0.0); 60];
    xs[20] = Sample::new(100.0, 0.0);
    let expected = "replaced 0\n\
        seen 60 final 39 held 21\n\
        count impulse repaired 1\n\
        span impulse repaired 20 1\n\
        dropped 0 0\n\
        dc none\n\
        iq off\n";
    assert_eq!(printed(&input(&s, &xs)), expected);
    assert_eq!(printed_by_original(&s, &xs), expected);
}

#[test]
fn refusals_14_17_then_making() {
    let s = replayed(48000.0, Mode::Apply, Mode::Off, Mode::Off);
    let whole = input(&s, &[Sample::new(1.0, 0.0)]);
    assert_eq!(whole.len(), 57);
    assert!(printed(&whole).starts_with("replaced 0\nseen 1 final 0 held 1\n"));
    for len in 0..49 {
        assert_eq!(printed(&whole[..len]), "refused 14\n");
    }
    assert_eq!(printed(&whole[..49]), fresh("none", "off"));
    for len in 50..57 {
        assert_eq!(printed(&whole[..len]), "refused 17\n");
    }
    // Mark, version, modes and the present byte.
    for (place, good) in [
        (0, 1),
        (1, 1),
        (2, 1),
        (3, 2),
        (4, 1),
        (5, 3),
        (6, 3),
        (7, 3),
        (8, 2),
    ] {
        let mut taken = 0;
        for value in 0..=255 {
            let mut bytes = whole.clone();
            bytes[place] = value;
            let bad = printed(&bytes) == "refused 14\n";
            taken += usize::from(!bad);
            // 14 comes before 17 and all off, and a header alone meets it too.
            let or = |later| if bad { "refused 14\n" } else { later };
            assert_eq!(printed(&bytes[..50]), or("refused 17\n"));
            let alone = match (place, value) {
                (5, 0) => "off\n".to_string(),
                (6, 1 | 2) => fresh(ZEROS, "off"),
                (7, 1) => fresh("none", "observing"),
                (7, 2) => fresh("none", "mismatch"),
                _ => fresh("none", "off"),
            };
            assert_eq!(printed(&bytes[..49]), or(&alone));
        }
        assert_eq!(taken, good, "byte {place}");
    }
    // All off before 1, and 1.
    let off = replayed(0.0, Mode::Off, Mode::Off, Mode::Off);
    let slow = replayed(0.5, Mode::Off, Mode::Observe, Mode::Off);
    for xs in [&[][..], &[Sample::ZERO]] {
        assert_eq!(printed(&input(&off, xs)), "off\n");
        assert_eq!(printed(&input(&slow, xs)), "refused 1\n");
    }
}

/// Document 02, R-4: "A tail of 1 to 7 bytes, ignored so far, is therefore refused with 17, after 14
/// and before 15." R-7: "Number 15 is met no more." So 17 comes before making, without samples too.
#[test]
fn a_tail_is_refused() {
    let good = replayed(48000.0, Mode::Apply, Mode::Off, Mode::Off);
    let off = replayed(48000.0, Mode::Off, Mode::Off, Mode::Off);
    let slow = replayed(0.5, Mode::Off, Mode::Observe, Mode::Off);
    for (s, made) in [
        (good, "replaced 0\n"),
        (off, "off\n"),
        (slow, "refused 1\n"),
    ] {
        for count in [0, 1, 2, 60] {
            let mut bytes = input(&s, &vec![Sample::new(1.0, 0.0); count]);
            assert!(printed(&bytes).starts_with(made));
            for tail in 1..=7 {
                bytes.push(0xff);
                assert_eq!(printed(&bytes), "refused 17\n", "{count} and {tail}");
                let mut bad = bytes.clone();
                bad[0] = b'c';
                assert_eq!(printed(&bad), "refused 14\n", "{count} and {tail}");
            }
        }
    }
}

#[test]
fn the_form_of_a_header_and_the_bytes_behind() {
    let s = replayed(48000.0, Mode::Apply, Mode::Off, Mode::Off);
    let whole = input(&s, &[Sample::new(1.0, 0.0); 3]);
    let (head, rest) = whole.split_at(49);
    for len in 0..=rest.len() {
        let behind = &rest[..len];
        let number = match len {
            0 | 8 | 16 | 24 => None,
            _ => Some(17),
        };
        assert_eq!(broken(behind), number == Some(17));
        assert_eq!(refusal(head, behind), number);
        // Of a longer head only the header counts; a shorter one is none.
        assert_eq!(refusal(&whole, behind), number);
        assert_eq!(refusal(&whole[..50], behind), number);
        assert_eq!(refusal(&head[..48], behind), Some(14));
        assert_eq!(refusal(&[], behind), Some(14));
    }
}

/// Document 02, R-7, with every mode of each stage: without a calibration, with one that fits, and
/// with one that does not. "All off still prints `off`."
#[test]
fn a_header_alone() {
    let mut printed_off = 0;
    for modes in all_modes() {
        for (calibration, applied) in [
            (None, "mismatch"),
            (calibrated(0.0), "correcting"),
            (calibrated(1.5), "mismatch"),
        ] {
            let dc = match modes[1] {
                Mode::Off => "none",
                Mode::Observe | Mode::Apply => ZEROS,
            };
            let iq = match modes[2] {
                Mode::Off => "off",
                Mode::Observe => "observing",
                Mode::Apply => applied,
            };
            let expected = match modes {
                [Mode::Off, Mode::Off, Mode::Off] => "off\n".to_string(),
                _ => fresh(dc, iq),
            };
            let s = tuned(modes, calibration);
            let alone = input(&s, &[]);
            assert_eq!(alone.len(), 49);
            assert_eq!(refusal(&alone, &[]), None);
            assert_eq!(samples(&alone).len(), 0);
            assert_eq!(printed(&alone), expected, "{modes:?} {calibration:?}");
            // The original's log says the same after a call that brings nothing.
            assert_eq!(printed_by_original(&s, &[]), expected);
            printed_off += usize::from(expected == "off\n");
        }
    }
    assert_eq!(printed_off, 3);
}

/// "Dealers check a calibration by replaying the header alone.": what is unfit in it withholds, and
/// is asked only under apply. 11 to 13 "come only from validation; elsewhere they withhold".
#[test]
fn a_calibration_under_a_header_alone() {
    let fitting = tuned([Mode::Off, Mode::Off, Mode::Apply], calibrated(0.0));
    let good = input(&fitting, &[]);
    assert_eq!(printed(&good), fresh("none", "correcting"));
    // Places of the receiver's centre, gain, phase and calibrated centre.
    for (place, values) in [
        (17, [0.0, -7e6, 7e6 + 1.5, f64::NAN]),
        (25, [0.5f64.next_down(), 2.0f64.next_up(), -1.1, f64::NAN]),
        (33, [-45.5, 45.0f64.next_up(), f64::INFINITY, f64::NAN]),
        (41, [0.0, -7e6, 7e6 - 1.5, f64::INFINITY]),
    ] {
        for value in values {
            let mut bytes = good.clone();
            bytes[place..place + 8].copy_from_slice(&value.to_le_bytes());
            assert_eq!(printed(&bytes), fresh("none", "mismatch"), "{value}");
            bytes[7] = 1;
            assert_eq!(printed(&bytes), fresh("none", "observing"), "{value}");
            bytes[7] = 0;
            assert_eq!(printed(&bytes), "off\n", "{value}");
        }
    }
    // Said to be absent, it is not read.
    let mut bytes = good.clone();
    bytes[8] = 0;
    assert_eq!(printed(&bytes), fresh("none", "mismatch"));
}

/// "Such an input now means a fresh chain.": a rate that making refuses is refused, and "all off
/// answers nothing, before 1".
#[test]
fn a_bad_rate_under_a_header_alone() {
    for fs in [
        0.0,
        -48000.0,
        1f64.next_down(),
        1e7f64.next_up(),
        f64::INFINITY,
        f64::NEG_INFINITY,
        f64::NAN,
        -f64::NAN,
    ] {
        for modes in all_modes() {
            for calibration in [None, calibrated(0.0), calibrated(1.5)] {
                let mut s = tuned(modes, calibration);
                s.fs = fs;
                let expected = match modes {
                    [Mode::Off, Mode::Off, Mode::Off] => "off\n",
                    _ => "refused 1\n",
                };
                assert_eq!(printed(&input(&s, &[])), expected, "{fs} {modes:?}");
            }
        }
    }
    // Both ends are in range.
    for fs in [1.0, 1e7] {
        let mut s = tuned([Mode::Apply; 3], calibrated(1.0));
        s.fs = fs;
        assert_eq!(printed(&input(&s, &[])), fresh(ZEROS, "correcting"));
    }
}

/// What R-7 leaves: one whole sample prints what document 01 says.
#[test]
fn one_sample() {
    use Mode::{Apply, Observe, Off};
    let x = Sample::new(0.5, -0.25);
    for modes in all_modes() {
        for calibration in [None, calibrated(0.0), calibrated(1.5)] {
            let s = tuned(modes, calibration);
            assert_eq!(
                printed(&input(&s, &[x])),
                printed_by_original(&s, &[x]),
                "{modes:?} {calibration:?}"
            );
        }
    }
    let unusable = Sample::new(f32::NAN, 0.0);
    let texts = [
        ([Off, Off, Off], None, x, "off\n"),
        (
            [Apply, Off, Off],
            None,
            x,
            "replaced 0\n\
            seen 1 final 0 held 1\n\
            dropped 0 0\n\
            dc none\n\
            iq off\n",
        ),
        // The held sample has not reached the later stages.
        (
            [Apply, Apply, Apply],
            calibrated(0.0),
            x,
            "replaced 0\n\
            seen 1 final 0 held 1\n\
            dropped 0 0\n\
            dc 0000000000000000 0000000000000000\n\
            iq correcting\n",
        ),
        (
            [Observe, Observe, Observe],
            None,
            x,
            "replaced 0\n\
            seen 1 final 1 held 0\n\
            dropped 0 0\n\
            dc 3fe0000000000000 bfd0000000000000\n\
            iq observing\n",
        ),
        (
            [Off, Apply, Apply],
            calibrated(1.5),
            x,
            "replaced 0\n\
            seen 1 final 1 held 0\n\
            count dc corrected 1\n\
            count iq uncertain 1\n\
            span dc corrected 0 1\n\
            span iq uncertain 0 1\n\
            dropped 0 0\n\
            dc 3fe0000000000000 bfd0000000000000\n\
            iq mismatch\n",
        ),
        // Guarded to 0, it moves nothing.
        (
            [Off, Observe, Off],
            None,
            unusable,
            "replaced 1\n\
            seen 1 final 1 held 0\n\
            dropped 0 0\n\
            dc 0000000000000000 0000000000000000\n\
            iq off\n",
        ),
    ];
    for (modes, calibration, x, text) in texts {
        let s = tuned(modes, calibration);
        assert_eq!(printed(&input(&s, &[x])), text, "{modes:?} {calibration:?}");
    }
}

#[test]
fn reports_of_both() {
    let mut total = 0;
    for seed in 0..3000 {
        let rng = &mut Rng::new(9_000_000 + seed);
        let fs = rng.pick(&[1.0, 7.5, 20.0, 1000.0, 48000.0]);
        let mut s = replayed(fs, rng.pick(&MODES), rng.pick(&MODES), rng.pick(&MODES));
        s.centre = rng.pick(&[7e6, 7e6 + 1.0, 7e6 + 1.5, f64::NAN]);
        s.edition = some_edition(rng);
        s.calibration = (!rng.once_in(3)).then(|| Calibration {
            gain: 0.4 + 1.7 * rng.unit(),
            phase: 46.0 * rng.both(),
            centre: 7e6,
        });
        let n = rng.from(1, 300);
        let xs: Vec<Sample> = (0..n)
            .map(|_| match rng.below(40) {
                0 => Sample::new(100.0, rng.both() as f32),
                1 => Sample::new(f32::from_bits(rng.next() as u32), 0.0),
                2 => Sample::new(0.0, rng.pick(&[f32::NAN, f32::INFINITY, 1e17])),
                _ => Sample::new(1.0, 0.1 * rng.both() as f32),
            })
            .collect();
        let bytes = input(&s, &xs);
        let read = header(&bytes).expect("a header");
        assert_eq!(read.fs.to_bits(), s.fs.to_bits());
        assert_eq!(read.edition, s.edition);
        assert_eq!(words(&samples(&bytes)), words(&xs));
        assert_eq!(
            printed(&bytes),
            printed_by_original(&s, &xs),
            "replay {seed}"
        );
        total += n;
    }
    say(&format!("replay: 3000 cases, {total} samples"));
}
