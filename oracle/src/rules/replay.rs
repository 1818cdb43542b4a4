//! The replay program's input and its printed report (**Afterwards**), the refusal that document 02
//! adds to them, the header's version 2, and the header with no samples that it lets
//! pass.

use super::chain::{self, Record};
use super::iq::Settled;
use super::log::{MARKS, STAGES};
use super::refusals::{self, Answer};
use super::{guard, Calibration, Edition, Mode, Sample, Setting};
use std::fmt::Write;

/// "samples from byte 49"
pub const HEADER: usize = 49;

/// Bytes of a sample: "pairs of f32".
pub const SAMPLE: usize = 8;

/// "It [..] uses n = 8, 1,024 repairs, 256 spans."
pub const N: usize = 8;
pub const REPAIRS: usize = 1024;
pub const SPANS: usize = 256;

/// "u16 version 1"; document 02, R-6: "The replay header's version 2 selects it; version 1 keeps
/// the old rule."
fn edition(version: u16) -> Option<Edition> {
    match version {
        1 => Some(Edition::First),
        2 => Some(Edition::Second),
        _ => None,
    }
}

/// "mode bytes [..] (0 off, 1 observe, 2 apply)"
fn mode(byte: u8) -> Option<Mode> {
    match byte {
        0 => Some(Mode::Off),
        1 => Some(Mode::Observe),
        2 => Some(Mode::Apply),
        _ => None,
    }
}

/// The header's f64 number `i`, "little-endian".
fn wide(input: &[u8], i: usize) -> f64 {
    let at = 9 + 8 * i;
    f64::from_le_bytes(input[at..at + 8].try_into().expect("eight bytes"))
}

/// "mark CND, u16 version 1, mode bytes impulse, DC, IQ (0 off, 1 observe, 2 apply), calibration
/// present (0 or 1), then f64 fs, centre, gain, phase, calibrated centre"; nothing where number
/// 14 is met: "replay header under 49 bytes, or mark, version, mode or present byte not as above".
/// Version 2 counts as above too (document 02, R-6).
pub fn header(input: &[u8]) -> Option<Setting> {
    let as_above = input.len() >= HEADER && &input[..3] == b"CND" && input[8] <= 1;
    if !as_above {
        return None;
    }
    Some(Setting {
        edition: edition(u16::from_le_bytes([input[3], input[4]]))?,
        impulse: mode(input[5])?,
        dc: mode(input[6])?,
        iq: mode(input[7])?,
        fs: wide(input, 0),
        centre: wide(input, 1),
        n: N,
        calibration: (input[8] == 1).then(|| Calibration {
            gain: wide(input, 2),
            phase: wide(input, 3),
            centre: wide(input, 4),
        }),
        spans: SPANS,
        repairs: REPAIRS,
    })
}

/// "samples from byte 49": the bytes behind the header, none where the input is no longer than it.
fn behind(input: &[u8]) -> &[u8] {
    input.get(HEADER..).unwrap_or_default()
}

/// Whether these bytes, which end a recording and begin where a sample does, end in the middle of
/// a sample, that is in a "tail of 1 to 7 bytes" (document 02, R-4).
pub fn broken(bytes: &[u8]) -> bool {
    !bytes.len().is_multiple_of(SAMPLE)
}

/// The number that refuses a recording for its form, before making, given its header and the bytes
/// behind the header. Of `head` the first 49 bytes count; fewer meet 14.
///
/// Document 01 says "A tail under 8 bytes is ignored." and "Replay: 14, 15, then making." Document
/// 02 overrides both. R-4: "A tail of 1 to 7 bytes, ignored so far, is therefore refused with 17,
/// after 14 and before 15." R-7: "Number 15 is met no more." So the order is 14, 17, then making.
/// What R-7 lets pass is "the header alone": 1 to 7 bytes behind a header are a tail, and meet 17.
pub fn refusal(head: &[u8], behind: &[u8]) -> Option<u8> {
    if header(head).is_none() {
        Some(14)
    } else if broken(behind) {
        Some(17)
    } else {
        None
    }
}

/// "then pairs of f32; little-endian": the whole samples, none of a header alone. An input with a
/// tail behind them is refused by [`refusal`].
pub fn samples(input: &[u8]) -> Vec<Sample> {
    behind(input)
        .chunks_exact(SAMPLE)
        .map(|b| Sample::of_word(u64::from_le_bytes(b.try_into().expect("eight bytes"))))
        .collect()
}

/// What the program prints for its whole input: first what [`refusal`] says, "then making".
/// "Refused: `refused` and its number only. All modes off: `off` only."
///
/// Document 02, R-7, of the header alone: "Such an input now means a fresh chain." So it is made as
/// any other, and a rate out of range is refused with 1; "All off still prints `off`", as "all off
/// answers nothing, before 1, 2, 3, 4". A calibration that does not fit is no refusal: 11 to 13
/// "come only from validation; elsewhere they withhold". The chain made gets no samples. "It prints
/// replaced 0, seen 0 final 0 held 0, the dropped, dc and iq lines. Under dc observe or apply the
/// level is two zero words." This is the record of an empty list: no count is nonzero, no span is
/// held, and the level is that of a fresh chain.
pub fn printed(input: &[u8]) -> String {
    let refused = |number: u8| format!("refused {number}\n");
    if let Some(number) = refusal(input, behind(input)) {
        return refused(number);
    }
    let setting = header(input).expect("a header, as 14 is not met");
    match refusals::making(&setting, 6 * REPAIRS, 24 * SPANS, 4 * N) {
        Answer::Nothing => "off\n".to_string(),
        Answer::Refused(r) => refused(r.number),
        Answer::Accepted => {
            let (xs, replaced) = guard::guarded(&samples(input));
            report(replaced, &chain::whole(&setting, &xs, &[]))
        }
    }
}

/// "First samples guarded, then received, released, held. Count lines: stage, mark, count;
/// nonzero ones, ring order. Then spans: stage, mark, start, length; ring order, oldest first.
/// Dropped: spans, repairs. dc: re and im as 16-digit lower-case hexadecimal f64 words. iq: off,
/// observing, correcting, mismatch."
pub fn report(replaced: u64, r: &Record) -> String {
    let mut text = String::new();
    let mut line = |words: String| writeln!(text, "{words}").expect("a string takes all");
    line(format!("replaced {replaced}"));
    line(format!(
        "seen {} final {} held {}",
        r.seen, r.released, r.held
    ));
    let name = |i: usize| format!("{} {}", STAGES[i / 4], MARKS[i % 4]);
    for (i, ring) in r.rings.iter().enumerate() {
        if ring.count != 0 {
            line(format!("count {} {}", name(i), ring.count));
        }
    }
    for (i, ring) in r.rings.iter().enumerate() {
        for (start, len) in ring.spans() {
            line(format!("span {} {start} {len}", name(i)));
        }
    }
    line(format!(
        "dropped {} {}",
        r.spans_dropped(),
        r.repairs.dropped
    ));
    line(match r.dc {
        None => "dc none".to_string(),
        Some(level) => format!("dc {:016x} {:016x}", level.re.to_bits(), level.im.to_bits()),
    });
    let iq = match r.iq {
        Settled::Off => "off",
        Settled::Observing => "observing",
        Settled::Correcting(_) => "correcting",
        Settled::Withheld => "mismatch",
    };
    line(format!("iq {iq}"));
    text
}
