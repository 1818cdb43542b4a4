//! Prints closed cases of the rules, whose answers are what the original gives, or the second reading
//! for flags and ring words, which the original does not show: `crates/rules/proofs/laws/Cases.antt`, and
//! with the word `impulse` the cases of the whole impulse stage, `crates/bench_marks/proofs/laws/ImpulseCases.antt`,
//! which take longer to compute.
//!
//!     cd oracle && cargo run --release --bin closed_cases > ../crates/rules/proofs/laws/Cases.antt
//!     cargo run --release --bin closed_cases impulse > ../crates/bench_marks/proofs/laws/ImpulseCases.antt
//!
//! The files have this text, with other line breaks.

use oracle::condition::dc::{revert_dc, DcBlocker};
use oracle::condition::iq::{revert_iq, ImageMonitor, ImageResult, IqCalibration, IqCorrector};
use oracle::condition::{ConditioningConfig, InputConditioner, StageMode};
use oracle::num_complex::{Complex32, Complex64};
use oracle::random::Random;
use oracle::rules::log::{Ring, SpanRing};
use oracle::rules::{self, impulse, Sample, Setting};
use oracle::sample_guard::{is_usable, replace_unusable};

// What the streams draw.
trait Draw {
    fn part(&mut self) -> f32;
}
impl Draw for Random {
    /// A part from -1 to 1 in steps of 1/64.
    fn part(&mut self) -> f32 {
        (self.next() % 129) as f32 / 64.0 - 1.0
    }
}

fn word(x: Complex32) -> u64 {
    u64::from(x.re.to_bits()) | u64::from(x.im.to_bits()) << 32
}

// ---- antt text

fn list<T>(items: &[T], show: impl Fn(&T) -> String) -> String {
    items
        .iter()
        .map(|x| show(x) + " ∷ ")
        .chain(["[]".to_string()])
        .collect()
}

fn words(ws: &[u64]) -> String {
    list(ws, |w| format!("{w:#x}"))
}

fn float(x: f64) -> String {
    format!("of_bits binary64 {:#x}", x.to_bits())
}

fn complex(z: Complex64) -> String {
    format!("record {{ re = {}; im = {} }}", float(z.re), float(z.im))
}

fn ring(r: &Ring) -> String {
    format!(
        "record {{ head = {}; count = {}; dropped = {}; words = {} }}",
        r.head,
        r.held,
        r.dropped,
        words(&r.words)
    )
}

fn marks(r: &SpanRing) -> String {
    format!(
        "record {{ samples = {}; ring = {} }}",
        r.count,
        ring(&r.ring)
    )
}

fn evidence(r: &Option<ImageResult>) -> String {
    let Some(r) = r else {
        return "no_report".to_string();
    };
    format!(
        "report (record {{ start = {}; end = {}; suspected = {}; coherence = {}; floor = {}; strongest = {}; mirror = {} }})",
        r.start_sample,
        r.end_sample,
        r.suspected,
        float(r.coherence),
        float(r.floor_power),
        float(r.strongest_power),
        float(r.mirror_power)
    )
}

fn define(name: &str, kind: &str, text: &str) {
    println!("abbrev {name} : {kind}\n{name} = {text}\n");
}

fn case(name: &str, statement: &str, unfolding: &str) {
    println!("pub {name} : {statement}\nunfolding {unfolding}\n{name} = refl\n");
}

// ---- the cases

fn guard() {
    let parts = [
        0.0,
        -1.0,
        1.0e17,
        -1.0e17,
        1.0000001e17,
        f32::INFINITY,
        f32::NAN,
        3.0e-45,
    ];
    let mut samples = Vec::new();
    for (i, &re) in parts.iter().enumerate() {
        samples.push(Complex32::new(re, parts[(i + 3) % parts.len()]));
        samples.push(Complex32::new(re, 0.5));
    }
    let ws: Vec<u64> = samples.iter().map(|&x| word(x)).collect();
    let usable: Vec<bool> = samples.iter().map(|&x| is_usable(x)).collect();
    define("guard_input", "List ℕ", &words(&ws));
    case(
        "guard_usable",
        &format!("map usable guard_input ≡ {}", list(&usable, bool::to_string)),
        "floats guard_rules",
    );
    let count = replace_unusable(&mut samples);
    let out: Vec<u64> = samples.iter().map(|&x| word(x)).collect();
    case(
        "guard_replaced",
        &format!("guarded guard_input ≡ {}", words(&out)),
        "floats guard_rules",
    );
    case(
        "guard_count",
        &format!("unusable guard_input ≡ {count}"),
        "floats guard_rules",
    );
}

/// An original chain that only mends, after one call, and what it released.
fn mended(fs: f64, samples: &[Complex32]) -> (InputConditioner, Vec<u64>) {
    let config = ConditioningConfig {
        impulse: StageMode::Apply,
        ..Default::default()
    };
    let mut chain = InputConditioner::with_geometry(fs, 0.0, 0, &config, 256, 4096).unwrap();
    let mut slice = samples.to_vec();
    let ready = chain.condition(&mut slice);
    let released = slice[..ready].iter().map(|&x| word(x)).collect();
    (chain, released)
}

/// Clicks among ones or noise, at a block length.
fn stage(name: &str, fs: f64, samples: &[Complex32], spans: usize) {
    let setting = Setting {
        fs,
        centre: 0.0,
        n: 0,
        impulse: rules::Mode::Apply,
        dc: rules::Mode::Off,
        iq: rules::Mode::Off,
        edition: rules::Edition::First,
        calibration: None,
        spans,
        repairs: 3,
    };
    let xs: Vec<Sample> = samples.iter().map(|x| Sample::new(x.re, x.im)).collect();
    let ws: Vec<u64> = samples.iter().map(|&x| word(x)).collect();
    let (chain, released) = mended(fs, samples);
    let repairs: Vec<Vec<u64>> = chain
        .log()
        .repairs()
        .map(|r| {
            let head = [r.start_sample, u64::from(r.len)];
            head.into_iter()
                .chain(r.originals.iter().map(|&x| word(x)))
                .collect()
        })
        .collect();
    let record = rules::chain::whole(&setting, &xs, &[]);
    let flags = impulse::flags(&xs);
    let block = impulse::block_length(fs);

    define(
        &format!("{name}_setting"),
        "Setting",
        &format!("standard {block} true"),
    );
    define(&format!("{name}_input"), "List ℕ", &words(&ws));
    define(
        &format!("{name}_flags"),
        "List Bool",
        &list(&flags, bool::to_string),
    );
    define(
        &format!("{name}_blocks"),
        "ℕ → Bool",
        &format!("paused (always first) {name}_setting.block (look {name}_flags)"),
    );
    case(
        &format!("{name}_flags_lem"),
        &format!(
            "flags_of {name}_setting {name}_input ≡ from (look {name}_flags) {} 0",
            flags.len()
        ),
        "floats impulse_rules flags_of from",
    );
    let all = "floats impulse_rules log_rules";
    let given = format!(
        "{name}_setting (look {name}_flags) {name}_blocks {name}_input {}",
        flags.len()
    );
    let known = |part: &str, text: &str, of: &str| {
        println!(
            "{name}_{part}_known : {of} ≡ {text}\nunfolding {all}\n{name}_{part}_known = refl\n"
        );
    };
    // what is handed on
    known(
        "handed",
        &words(&released),
        &format!("up_to (value {given}) {}", released.len()),
    );
    println!(
        "pub {name}_handed : handed_on {name}_setting (always first) {name}_input ≡ {}",
        words(&released)
    );
    println!("{name}_handed = handed_by {name}_setting (always first) {name}_input (look {name}_flags) {name}_flags_lem ∙ {name}_handed_known\n");
    let told = |part: &str, text: &str, what: &str| {
        known(part, text, &format!("{what} (events {given})"));
        println!("pub {name}_{part} : {what} (happened {name}_setting (always first) {name}_input) ≡ {text}");
        println!("{name}_{part} = ap (λ (es : List Event). {what} es) (happened_by {name}_setting (always first) {name}_input (look {name}_flags) {name}_flags_lem) ∙ {name}_{part}_known\n");
    };
    told(
        "repairs",
        &list(&repairs, |r| format!("({})", words(r))),
        "repairs_of",
    );
    told(
        "long",
        &chain.log().impulse_long_runs().to_string(),
        "long_runs",
    );
    for (k, mark) in [(0, "Repaired"), (1, "Flagged"), (3, "Uncertain")] {
        let part = ["repaired", "flagged", "", "uncertain"][k];
        let text = marks(&record.rings[k]);
        known(
            part,
            &text,
            &format!("marked {spans} (marks_of {mark} (events {given}))"),
        );
        println!("pub {name}_{part} : marked {spans} (marks_of {mark} (happened {name}_setting (always first) {name}_input)) ≡ {text}");
        println!("{name}_{part} = ap (λ (es : List Event). marked {spans} (marks_of {mark} es)) (happened_by {name}_setting (always first) {name}_input (look {name}_flags) {name}_flags_lem) ∙ {name}_{part}_known\n");
    }
    let text = ring(&record.repairs);
    known(
        "ring",
        &text,
        &format!("repaired 3 (repairs_of (events {given}))"),
    );
    println!(
        "pub {name}_ring : repaired 3 (repairs_of (happened {name}_setting (always first) {name}_input)) ≡ {text}"
    );
    println!("{name}_ring = ap (λ (es : List Event). repaired 3 (repairs_of es)) (happened_by {name}_setting (always first) {name}_input (look {name}_flags) {name}_flags_lem) ∙ {name}_ring_known\n");
}

fn stages() {
    let one = Complex32::new(1.0, 0.0);
    let click = Complex32::new(100.0, -20.0);
    // blocks of 7: two flagged samples pause the next block; runs of 1, 4, 5 and 2
    let mut a = vec![one; 58];
    for k in [9, 16, 17, 18, 19, 24, 25, 26, 27, 28, 38, 39] {
        a[k] = click;
    }
    stage("paused", 7.0, &a, 2);
    // noise, with a click on the first sample, on both sides of one sample, and at the end
    let mut random = Random(0x2545_f491_4f6c_dd1d);
    let mut b: Vec<Complex32> = (0..60)
        .map(|_| Complex32::new(random.part(), random.part()))
        .collect();
    for k in [0, 12, 14, 30, 31, 32, 40, 43] {
        b[k] = Complex32::new(30.0 + k as f32, -7.5);
    }
    stage("noise", 48000.0, &b, 3);
}

/// Two clicks with one sample between them: it is the second one's left neighbour, as it came in.
fn beside() {
    let mut xs: Vec<Complex32> = (0..40)
        .map(|k| Complex32::new(1.0 + k as f32 / 64.0, 0.5))
        .collect();
    xs[12] = Complex32::new(100.0, -20.0);
    xs[14] = Complex32::new(100.0, -20.0);
    let ws: Vec<u64> = xs.iter().map(|&x| word(x)).collect();
    let samples: Vec<Sample> = xs.iter().map(|x| Sample::new(x.re, x.im)).collect();
    let flags = impulse::flags(&samples);
    let (_, released) = mended(48000.0, &xs);
    define("beside_input", "List ℕ", &words(&ws));
    define("beside_flags", "List Bool", &list(&flags, bool::to_string));
    case(
        "beside_handed",
        &format!(
            "up_to (value (standard 48000 true) (look beside_flags) (λ b. false) beside_input {}) {} ≡ {}",
            flags.len(),
            released.len(),
            words(&released)
        ),
        "floats impulse_rules",
    );
}

/// Powers whose sum depends on its order: sorted, the reference is 1 and (12,0) at its limit.
fn order() {
    let tiny = 2f32.powi(-12);
    let below_one = 1.0 - 2f32.powi(-24);
    let mut xs = vec![Complex32::new(10.0, 0.0); 7];
    xs.extend([Complex32::new(1.0, 2.0); 4]);
    xs.extend([
        Complex32::new(1.0, 1.0),
        Complex32::new(1.0, 0.0),
        Complex32::new(1.0, 0.0),
    ]);
    xs.extend([
        Complex32::new(below_one, tiny),
        Complex32::new(tiny * below_one, tiny * tiny),
    ]);
    xs.push(Complex32::new(12.0, 0.0));
    xs.extend([Complex32::new(2f32.powi(-26), 0.0); 16]);
    let samples: Vec<Sample> = xs.iter().map(|x| Sample::new(x.re, x.im)).collect();
    let ws: Vec<u64> = xs.iter().map(|&x| word(x)).collect();
    define("order_input", "List ℕ", &words(&ws));
    case(
        "order_flag",
        &format!(
            "flagged (standard 48000 true) order_input 16 ≡ {}",
            impulse::flagged(&samples, 16)
        ),
        "floats impulse_rules",
    );
}

/// On how many of the samples, which `text` names, the original's clamp acted.
fn clamped(name: &str, fs: f64, samples: &[Complex32], text: &str) {
    let mut b = DcBlocker::new(fs);
    for &x in samples {
        b.process_sample(x);
    }
    case(
        &format!("{name}_clamped"),
        &format!(
            "clamped_steps (corner ({})) first_level {text} ≡ {}",
            float(fs),
            b.clamped
        ),
        "floats dc_rules",
    );
}

fn dc() {
    // a zero after the first update counts as one
    let mut b = DcBlocker::new(48000.0);
    let xs = [0.5, 0.5, 1.0].map(|re| Complex32::new(re, 0.0));
    for &x in &xs {
        b.process_sample(x);
    }
    case(
        "zero_counts",
        &format!(
            "(level_after (corner ({})) first_level ({})).level ≡ {}",
            float(48000.0),
            words(&xs.map(word)),
            complex(b.level())
        ),
        "floats dc_rules",
    );
    // the limit acts by the norm, not by the power, and on what is left of a sample, not on the sample
    let fine = 2f32.powi(-26);
    let pairs = [
        ("norm_one", [(0.0, 0.0), (1.0, fine)]),
        ("above_one", [(0.0, 0.0), (1.0, 2.0 * fine)]),
        ("loud_sample", [(0.75, 0.0), (1.5, 0.0)]),
        ("loud_difference", [(0.75, 0.0), (-0.75, 0.0)]),
    ];
    for (name, pair) in pairs {
        let xs = pair.map(|(re, im)| Complex32::new(re, im));
        clamped(name, 48000.0, &xs, &format!("({})", words(&xs.map(word))));
    }
    let mut random = Random(77);
    let mut samples = vec![Complex32::new(0.0, -0.0)];
    samples.extend((0..4).map(|_| Complex32::new(random.part() / 3.0, random.part())));
    samples.extend([
        Complex32::new(0.0, 0.0),
        Complex32::new(-60.0, 45.0),
        Complex32::new(1.0e17, 3.0e-45),
    ]);
    for (name, fs) in [("slow", 1.0), ("usual", 44100.5)] {
        let mut b = DcBlocker::new(fs);
        let ws: Vec<u64> = samples.iter().map(|&x| word(x)).collect();
        define(&format!("{name}_input"), "List ℕ", &words(&ws));
        let mut ys = Vec::new();
        for (k, &x) in samples.iter().enumerate() {
            ys.push(b.process_sample(x));
            if k % 3 != 1 {
                case(
                    &format!("{name}_level_{}", k + 1),
                    &format!(
                        "(level_after (corner ({})) first_level (take {} {name}_input)).level ≡ {}",
                        float(fs),
                        k + 1,
                        complex(b.level())
                    ),
                    "floats dc_rules",
                );
            }
        }
        let out: Vec<u64> = ys.iter().map(|&y| word(y)).collect();
        case(
            &format!("{name}_blocked"),
            &format!(
                "blocked_all (corner ({})) first_level {name}_input ≡ {}",
                float(fs),
                words(&out)
            ),
            "floats dc_rules",
        );
        clamped(name, fs, &samples, &format!("{name}_input"));
        let back: Vec<u64> = revert_dc(&ys, fs).into_iter().map(word).collect();
        case(
            &format!("{name}_restored"),
            &format!(
                "restored_all (corner ({})) first_level ({}) ≡ {}",
                float(fs),
                words(&out),
                words(&back)
            ),
            "floats dc_rules",
        );
    }
}

fn iq() {
    let samples = [
        Complex32::new(0.25, -0.75),
        Complex32::new(-3.0e8, 1.0),
        Complex32::new(1.0e-40, 0.0),
    ];
    for (name, gain, phase) in [
        ("level", 1.1, 3.0),
        ("turned", 0.5, -45.0),
        ("steep", 2.0, 44.9),
        ("plain", 1.0, 0.0),
    ] {
        let c = IqCalibration {
            gain_ratio: gain,
            phase_deg: phase,
            center_freq_hz: 1.0e7,
        };
        let rho = c.image_ratio();
        let text = format!(
            "record {{ gain = {}; phase = {}; centre = {} }}",
            float(gain),
            float(phase),
            float(1.0e7)
        );
        define(&format!("{name}_calibration"), "Calibration", &text);
        case(
            &format!("{name}_coefficient"),
            &format!("coefficient {name}_calibration ≡ {}", complex(rho)),
            "floats iq_rules",
        );
        let corrector = IqCorrector::new(rho).unwrap();
        let mut ys: Vec<Complex32> = samples
            .iter()
            .map(|&m| corrector.process_sample(m))
            .collect();
        let ws: Vec<u64> = samples.iter().map(|&x| word(x)).collect();
        let out: Vec<u64> = ys.iter().map(|&y| word(y)).collect();
        case(
            &format!("{name}_corrected"),
            &format!(
                "map (corrected ({})) ({}) ≡ {}",
                complex(rho),
                words(&ws),
                words(&out)
            ),
            "floats iq_rules",
        );
        revert_iq(&mut ys, rho).unwrap();
        let back: Vec<u64> = ys.iter().map(|&y| word(y)).collect();
        case(
            &format!("{name}_uncorrected"),
            &format!(
                "map (uncorrected ({})) ({}) ≡ {}",
                complex(rho),
                words(&out),
                words(&back)
            ),
            "floats iq_rules",
        );
    }
}

fn monitor() {
    let mut random = Random(4242);
    for (name, n, starts) in [
        ("odd", 9usize, vec![0u64, 2, 5, 9]),
        ("even", 16, vec![3, 7, 20]),
    ] {
        let mut m = ImageMonitor::new(1.0, n, n / 4);
        let mut hops = Vec::new();
        let mut answers = Vec::new();
        for &start in &starts {
            let mut channels: Vec<Complex32> = (0..n)
                .map(|_| Complex32::new(random.part() / 64.0, random.part() / 64.0))
                .collect();
            // a strong channel with its mirror, and equal channels
            channels[n - 3] = Complex32::new(2.0, 1.0);
            channels[3] = Complex32::new(0.25, -0.125);
            if n == 16 {
                // 4 and 5 are as strong, their mirrors 12 and 11 are not
                channels[4] = Complex32::new(9.0, -2.0);
                channels[5] = Complex32::new(9.0, -2.0);
                channels[11] = Complex32::new(0.5, 0.5);
            }
            let ws: Vec<u64> = channels.iter().map(|&x| word(x)).collect();
            hops.push(format!(
                "record {{ start = {start}; channels = {} }}",
                words(&ws)
            ));
            answers.push(m.observe(&channels, start));
        }
        define(
            &format!("{name}_hops"),
            "List Hop",
            &list(&hops, String::clone),
        );
        case(
            &format!("{name}_evidence"),
            &format!(
                "answers {n} (window_length ({})) [] {name}_hops ≡ {}",
                float(1.0),
                list(&answers, |a| format!("({})", evidence(a)))
            ),
            "floats monitor_rules",
        );
        let mut last: Vec<f64> = m.power.clone();
        last.extend(m.cross.iter().map(|c| c.re));
        last.extend(m.cross.iter().map(|c| c.im));
        last.extend(vec![0.0; n]);
        case(
            &format!("{name}_words"),
            &format!(
                "monitor_words {n} (open_window {n} (window_length ({})) [] {name}_hops) ≡ {}",
                float(1.0),
                list(&last, |&x| format!("({})", float(x)))
            ),
            "floats monitor_rules",
        );
    }
}

fn main() {
    if std::env::args().nth(1).as_deref() == Some("impulse") {
        println!("{IMPULSE_HEADER}");
        stages();
        return;
    }
    println!("{HEADER}");
    println!("-- ---- guard\n");
    guard();
    println!("-- ---- impulse: what is handed on by known flags, and a flag that depends on the order of a sum\n");
    beside();
    order();
    println!("-- ---- DC: levels on the way, outputs, how often the limit acted, undo\n");
    dc();
    println!("-- ---- IQ: coefficients, correction, undo\n");
    iq();
    println!("-- ---- the mirror monitor: answers, and the words at the end\n");
    monitor();
}

const HEADER: &str = "-- Closed cases of the rules, computed. The answers are those of the Rust original, and of the second reading for flags.
-- Made by `cd oracle && cargo run --release --bin closed_cases`. Assumes nothing.
use Rattle.std.specs.Prelude.{◌≡◌, refl, Bool, true, false, List, [], ◌∷◌, map, ℕ, take}
use Rattle.std.specs.Float.{binary64}
use Rattle.std.specs.Float.Ieee.{of_bits}
use Rattle.rules.specs.Lists.{up_to}
use Rattle.rules.specs.Guard.{usable, guarded, unusable}
use Rattle.rules.specs.Impulse.{standard, flagged, value}
use Rattle.rules.specs.Dc.{corner, first_level, level_after, blocked_all, clamped_steps, restored_all}
use Rattle.rules.specs.Iq.{Calibration, coefficient, corrected, uncorrected}
use Rattle.rules.specs.Monitor.{Hop, no_report, report, window_length, answers, open_window, monitor_words}
use Rattle.rules.proofs.laws.ByFlags.{look}
use Rattle.rules.proofs.laws.Computing.{floats, guard_rules, impulse_rules, dc_rules, iq_rules, monitor_rules}
";

const IMPULSE_HEADER: &str = "-- Closed cases of the impulse stage's rules, computed: flags, and by the flags what is handed on, repairs, rings of spans and of repairs,
-- long runs. The answers are those of the Rust original, and of the second reading for flags and ring words.
-- Made by `cd oracle && cargo run --release --bin closed_cases impulse`. Assumes nothing.
use Rattle.std.specs.Prelude.{◌≡◌, refl, Bool, true, false, List, [], ◌∷◌, ℕ}
use Rattle.std.proofs.Common.{ap, ◌∙◌}
use Rattle.rules.specs.Lists.{up_to}
use Rattle.rules.specs.Pauses.{first, always, paused}
use Rattle.rules.specs.Impulse.{Setting, standard, Event, value, events, happened, handed_on}
use Rattle.rules.specs.Log.{marked, repaired, Repaired, Flagged, Uncertain, marks_of, repairs_of, long_runs}
use Rattle.rules.proofs.laws.ByFlags.{from, flags_of, look, happened_by, handed_by}
use Rattle.rules.proofs.laws.Computing.{floats, impulse_rules, log_rules}
";
