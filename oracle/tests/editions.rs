//! The two editions of the pause rule (document 02, R-6), on cases whose answers were worked out
//! by hand from the papers' sentences.
//!
//! Under edition 1, "A block is paused exactly if the one before had more than 0.001 × block length
//! flagged (f64)." "Edition 2 pauses as now, but a paused stretch ends after its first block with
//! at most 0.0005 × block length flagged (f64)." With block length 2000, 3 flagged enter and at
//! most 1 ends; with 1000, 2 enter and only 0 ends.

use oracle::rules::chain::{self, Record};
use oracle::rules::{impulse, log, replay, Edition, Mode, Sample, Setting};
use oracle::sides;

const EDITIONS: [Edition; 2] = [Edition::First, Edition::Second];

/// The block length of the closed cases, unless another is named.
const BLOCK: usize = 2000;

/// Flags with the given count in each block: half of them first in the block, the rest last.
fn flags(block: usize, counts: &[usize]) -> Vec<bool> {
    counts
        .iter()
        .flat_map(|&c| (0..block).map(move |i| i < c / 2 || i >= block - c.div_ceil(2)))
        .collect()
}

/// A letter for each block: `P` for a paused one.
fn letters(paused: &[bool]) -> String {
    paused.iter().map(|&p| if p { 'P' } else { '.' }).collect()
}

/// The paused blocks under one edition.
fn paused(edition: Edition, block: usize, counts: &[usize]) -> String {
    letters(&impulse::paused(
        |_| edition,
        &flags(block, counts),
        block as u64,
    ))
}

/// The paused blocks under a mistaken reading. It answers for a block from the answers for the
/// earlier ones, the count of the block before (0 if none) and the block's own.
fn misread(counts: &[usize], reading: impl Fn(&[bool], usize, usize) -> bool) -> String {
    let mut all = Vec::new();
    for (b, &own) in counts.iter().enumerate() {
        let before = if b == 0 { 0 } else { counts[b - 1] };
        all.push(reading(&all, before, own));
    }
    letters(&all)
}

/// Asserts a closed case: the paused blocks under editions 1 and 2, and that a mistaken reading of
/// edition 2 gives others than that.
fn closed(
    block: usize,
    counts: &[usize],
    [first, second]: [&str; 2],
    mistaken: impl Fn(&[bool], usize, usize) -> bool,
) {
    assert_eq!(paused(Edition::First, block, counts), first);
    assert_eq!(paused(Edition::Second, block, counts), second);
    assert_ne!(misread(counts, mistaken), second);
}

/// Whether the block before is paused.
fn was_paused(earlier: &[bool]) -> bool {
    earlier.last() == Some(&true)
}

/// Edition 2 as read by hand for block length 2000, for the mistaken readings to build on.
fn by_hand(earlier: &[bool], before: usize) -> bool {
    before > if was_paused(earlier) { 1 } else { 2 }
}

/// Mistaken: the exit limit at the entry.
#[test]
fn a_block_that_is_not_paused_goes_by_the_entry_limit() {
    closed(BLOCK, &[2, 2, 0, 0], ["....", "...."], |_, before, _| {
        before > 1
    });
}

/// Mistaken: the stretch ends before its first quiet block.
#[test]
fn the_quiet_block_is_still_paused() {
    closed(
        BLOCK,
        &[3, 2, 0, 0],
        [".P..", ".PP."],
        |earlier, before, own| own > 1 && by_hand(earlier, before),
    );
}

/// Mistaken: "less than" at the exit.
#[test]
fn exactly_the_exit_limit_ends_the_stretch() {
    closed(
        BLOCK,
        &[3, 2, 1, 0],
        [".P..", ".PP."],
        |earlier, before, _| before > if was_paused(earlier) { 0 } else { 2 },
    );
}

/// Mistaken: a stretch ends by the entry limit, as edition 1 has it.
#[test]
fn a_stretch_does_not_end_by_the_entry_limit() {
    closed(
        BLOCK,
        &[3, 2, 2, 2, 0, 0],
        [".P....", ".PPPP."],
        |_, before, _| before > 2,
    );
}

/// Mistaken: once there was a stretch, the exit limit decides for good.
#[test]
fn entering_again_goes_by_the_entry_limit() {
    closed(
        BLOCK,
        &[3, 0, 2, 2, 3, 0, 0],
        [".P...P.", ".P...P."],
        |earlier, before, _| before > if earlier.contains(&true) { 1 } else { 2 },
    );
}

/// Mistaken: the block that causes the pause is paused too.
#[test]
fn the_cause_is_not_in_the_stretch() {
    closed(
        BLOCK,
        &[0, 3, 2, 0, 0],
        ["..P..", "..PP."],
        |earlier, before, own| own > 2 || by_hand(earlier, before),
    );
}

/// Mistaken: a stretch has two blocks at least, its first one never ending it.
#[test]
fn the_first_paused_block_may_end_the_stretch() {
    closed(BLOCK, &[3, 1, 0], [".P.", ".P."], |earlier, before, _| {
        earlier.ends_with(&[false, true]) || by_hand(earlier, before)
    });
}

/// Mistaken: "at least" at the entry.
#[test]
fn the_editions_agree_while_no_block_is_paused() {
    closed(
        BLOCK,
        &[2, 1, 0, 2, 2],
        [".....", "....."],
        |_, before, _| before >= 2,
    );
    // Whatever the counts, the first paused block is the same.
    for list in 0..256 {
        let counts = [list / 64, list / 16 % 4, list / 4 % 4, list % 4, 0];
        let [first, second] = EDITIONS.map(|e| paused(e, BLOCK, &counts));
        assert_eq!(first.find('P'), second.find('P'), "{counts:?}");
    }
}

/// Mistaken: the exit limit 1.5 rounded to 2, and 0.5 to 1.
#[test]
fn the_limits_are_not_rounded() {
    closed(
        3000,
        &[4, 2, 1, 0],
        [".P..", ".PP."],
        |earlier, before, _| before > if was_paused(earlier) { 2 } else { 3 },
    );
    closed(1000, &[2, 1, 0, 0], [".P..", ".PP."], |_, before, _| {
        before > 1
    });
}

/// The closed cases of crates/rules/proofs/laws/EditionCases.antt, where a list goes one block further.
#[test]
fn the_cases_that_are_proved() {
    let second = |block, counts: &[usize]| paused(Edition::Second, block, counts);
    assert_eq!(second(1000, &[1, 0]), "..");
    assert_eq!(second(1000, &[2, 0, 1, 0]), ".P..");
    assert_eq!(second(1000, &[2, 0, 0]), ".P.");
    assert_eq!(second(2000, &[3, 1, 0]), ".P.");
    assert_eq!(second(2000, &[3, 2, 0]), ".PP");
    assert_eq!(second(1000, &[2, 1, 1, 0, 1, 0]), ".PPP..");
    assert_eq!(paused(Edition::First, 1000, &[2, 1, 1, 0, 1, 0]), ".P....");
}

/// Below block length 1000, one flagged is more than either limit and none is at most either.
#[test]
fn short_blocks_pause_alike_under_both_editions() {
    for edition in EDITIONS {
        assert_eq!(paused(edition, 999, &[1, 1, 0, 1, 0, 0]), ".PP.P.");
        assert_eq!(paused(edition, 1, &[1, 1, 0, 1, 0, 0]), ".PP.P.");
    }
}

/// "The block in progress decides the first edition 2 pause by that edition's entry limit; if it is
/// paused itself, by the exit limit." (R-8) Mistaken: the block before decides by the edition that
/// it began with itself.
#[test]
fn a_block_goes_by_the_edition_it_begins_with() {
    let second_from = |change: usize| {
        let edition = |b| EDITIONS[usize::from(b >= change)];
        letters(&impulse::paused(
            edition,
            &flags(BLOCK, &[3, 2, 2, 0, 0]),
            BLOCK as u64,
        ))
    };
    assert_eq!(second_from(2), ".PPP.");
    assert_eq!(second_from(3), ".P...");
}

/// "any cutting is harmless under either": what was said of a block stands when more is judged.
/// Mistaken: the block in progress counts before it is whole.
#[test]
fn more_samples_change_nothing_said() {
    let all = flags(1000, &[2, 1, 1, 0, 2, 0]);
    for edition in EDITIONS {
        let whole = impulse::paused(|_| edition, &all, 1000);
        for judged in 0..=all.len() {
            let part = impulse::paused(|_| edition, &all[..judged], 1000);
            assert_eq!(part, whole[..judged.div_ceil(1000)]);
        }
    }
}

/// A setting with the impulse stage only.
fn setting(edition: Edition, fs: f64, impulse: Mode) -> Setting {
    Setting {
        edition,
        ..sides::setting(fs, impulse, Mode::Off, Mode::Off)
    }
}

/// Ones, with (100,0) at the clicks.
fn ones_but(n: usize, clicks: &[usize]) -> Vec<Sample> {
    let mut xs = vec![Sample::new(1.0, 0.0); n];
    for &j in clicks {
        xs[j].re = 100.0;
    }
    xs
}

/// Blocks of 1000 with 2, 1, 1, 0 and 1 clicks. Block 1 is paused under both editions, blocks 2 and
/// 3 under edition 2 only: 1 is not at most 0.5.
fn five_blocks() -> Vec<Sample> {
    ones_but(5021, &[300, 600, 1500, 2500, 4500])
}

/// The spans of the impulse rings Repaired, Flagged and Uncertain.
fn spans(r: &Record) -> [Vec<impulse::Span>; 3] {
    [0, 1, 3].map(|mark| r.rings[log::place(0, mark)].spans())
}

/// The starts of the logged repairs.
fn repairs(r: &Record) -> Vec<u64> {
    r.repairs.records().iter().map(|words| words[0]).collect()
}

/// The places at which a released sample is not (1,0), with its real part.
fn not_one(r: &Record) -> Vec<(usize, f32)> {
    let reals = r.out.iter().map(|y| y.re).enumerate();
    reals.filter(|&(_, re)| re != 1.0).collect()
}

/// Mistaken: either edition for both; or Uncertain by the edition, but mending by the old rule.
#[test]
fn applying_the_editions_differ_in_the_blocks_that_only_one_pauses() {
    let [first, second] =
        EDITIONS.map(|e| chain::whole(&setting(e, 1000.0, Mode::Apply), &five_blocks(), &[]));
    assert_eq!(
        spans(&first),
        [
            vec![(300, 1), (600, 1), (2500, 1), (4500, 1)],
            vec![(1500, 1)],
            vec![(1000, 1000)],
        ]
    );
    assert_eq!(
        spans(&second),
        [
            vec![(300, 1), (600, 1), (4500, 1)],
            vec![(1500, 1), (2500, 1)],
            vec![(1000, 3000)],
        ]
    );
    assert_eq!(repairs(&first), [300, 600, 2500, 4500]);
    assert_eq!(repairs(&second), [300, 600, 4500]);
    assert_eq!(not_one(&first), [(1500, 100.0)]);
    assert_eq!(not_one(&second), [(1500, 100.0), (2500, 100.0)]);
}

/// Mistaken: the edition matters only where runs are mended.
#[test]
fn observing_the_editions_differ_in_uncertain_marks_alone() {
    let clicks = [300, 600, 1500, 2500, 4500];
    for (edition, uncertain) in EDITIONS.into_iter().zip([(1000, 1000), (1000, 3000)]) {
        let off = setting(edition, 1000.0, Mode::Off);
        // "`observing` turns off into observe", and the edition stays.
        let r = chain::whole(&off.observing(), &five_blocks(), &[]);
        let flagged = clicks.map(|j| (j as u64, 1)).to_vec();
        assert_eq!(spans(&r), [vec![], flagged, vec![uncertain]]);
        assert_eq!(not_one(&r), clicks.map(|j| (j, 100.0)));
    }
}

/// Without the impulse stage no block is paused, whatever the edition.
#[test]
fn the_edition_matters_only_where_the_impulse_stage_runs() {
    let [first, second] = EDITIONS.map(|e| {
        let s = Setting {
            dc: Mode::Apply,
            ..setting(e, 1000.0, Mode::Off)
        };
        format!("{:?}", chain::whole(&s, &five_blocks(), &[]))
    });
    assert_eq!(first, second);
}

/// Blocks of 2000. Block 0 has 300, 600 and the first of the run 1999, 2000: 3 flagged, so block 1
/// is paused. Block 1 has the second of that run and 3000: 2 flagged, so block 2 is paused under
/// edition 2 only. Block 2 has the first of the run 5999, 6000: 1 flagged, so block 3 is not
/// paused.
///
/// Mistaken: a run goes by the block of its first sample (the run at 1999 would be mended), or by
/// that of its last or of its right neighbour (edition 2 would mend the run at 5999).
#[test]
fn a_run_across_two_blocks_is_kept_if_either_is_paused() {
    let mut xs = ones_but(6100, &[300, 600, 1999, 2000, 3000, 5999, 6000]);
    xs[6001].re = 4.0;
    let [first, second] =
        EDITIONS.map(|e| chain::whole(&setting(e, 2000.0, Mode::Apply), &xs, &[]));
    assert_eq!(
        spans(&first),
        [
            vec![(300, 1), (600, 1), (5999, 2)],
            vec![(1999, 2), (3000, 1)],
            vec![(2000, 2000)],
        ]
    );
    assert_eq!(
        spans(&second),
        [
            vec![(300, 1), (600, 1)],
            vec![(1999, 2), (3000, 1), (5999, 2)],
            vec![(2000, 4000)],
        ]
    );
    let kept = [(1999, 100.0), (2000, 100.0), (3000, 100.0)];
    let mended = [(5999, 2.0), (6000, 3.0), (6001, 4.0)];
    let raw = [(5999, 100.0), (6000, 100.0), (6001, 4.0)];
    assert_eq!(not_one(&first), [kept, mended].concat());
    assert_eq!(not_one(&second), [kept, raw].concat());
}

/// A recording: impulse apply only, fs 1000.
fn recording(version: [u8; 2], xs: &[Sample]) -> Vec<u8> {
    let mut bytes = b"CND".to_vec();
    bytes.extend(version);
    bytes.extend([2, 0, 0, 0]);
    for number in [1000.0f64, 0.0, 0.0, 0.0, 0.0] {
        bytes.extend(number.to_le_bytes());
    }
    for x in xs {
        bytes.extend(x.re.to_le_bytes());
        bytes.extend(x.im.to_le_bytes());
    }
    bytes
}

/// Mistaken: only the low byte counts ((1,1) and (2,1) pass); big-endian ((0,1) and (0,2) pass);
/// version 0 or 3 passes.
#[test]
fn the_version_selects_the_edition_and_another_is_14() {
    let cases = [
        ([1, 0], Some(Edition::First)),
        ([2, 0], Some(Edition::Second)),
        ([0, 0], None),
        ([3, 0], None),
        ([1, 1], None),
        ([2, 1], None),
        ([0, 1], None),
        ([0, 2], None),
    ];
    for (version, edition) in cases {
        let input = recording(version, &[]);
        assert_eq!(replay::header(&input).map(|s| s.edition), edition);
        let number = edition.is_none().then_some(14);
        assert_eq!(replay::refusal(&input, &[]), number);
    }
    assert_eq!(replay::printed(&recording([3, 0], &[])), "refused 14\n");
}

/// Mistaken: version 2 is read, but its edition does not reach the chain.
#[test]
fn the_report_follows_the_version() {
    let printed = |version| replay::printed(&recording(version, &five_blocks()));
    assert_eq!(
        printed([1, 0]),
        "replaced 0
seen 5021 final 5000 held 21
count impulse repaired 4
count impulse flagged 1
count impulse uncertain 1000
span impulse repaired 300 1
span impulse repaired 600 1
span impulse repaired 2500 1
span impulse repaired 4500 1
span impulse flagged 1500 1
span impulse uncertain 1000 1000
dropped 0 0
dc none
iq off
"
    );
    assert_eq!(
        printed([2, 0]),
        "replaced 0
seen 5021 final 5000 held 21
count impulse repaired 3
count impulse flagged 2
count impulse uncertain 3000
span impulse repaired 300 1
span impulse repaired 600 1
span impulse repaired 4500 1
span impulse flagged 1500 1
span impulse flagged 2500 1
span impulse uncertain 1000 3000
dropped 0 0
dc none
iq off
"
    );
}
