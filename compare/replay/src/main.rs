//! Holds the text that the program `replay` prints against two others for the same recording: the second
//! reading of the documents, and, of version 1, the Rust original run in blocks. Times `replay` beside the
//! Rust original.

use oracle::condition::{InputConditioner, IqStatus, Mark, Stage};
use oracle::num_complex::Complex32;
use oracle::random::Random;
use oracle::rules::replay::{header, printed, HEADER};
use oracle::sample_guard::replace_unusable;
use oracle::sides::original;
use std::fs::File;
use std::io::{BufWriter, Read, Write};
use std::process::{Command, Stdio};
use std::time::{Duration, Instant};

const BLOCK: usize = 8192;

// ---- the proved program

fn program() -> String {
    std::env::var("REPLAY").expect("REPLAY names the program")
}

/// What the program prints for a recording that comes through a pipe, in pieces of any size.
fn replayed(input: &[u8], rng: &mut Random) -> String {
    let mut child = Command::new(program())
        .stdin(Stdio::piped())
        .stdout(Stdio::piped())
        .spawn()
        .expect("the program starts");
    let mut pipe = child.stdin.take().expect("a pipe");
    let mut rest = input;
    while !rest.is_empty() {
        let most = pick(rng, &[60, 5000, 70_000, 70_000]);
        let size = (1 + below(rng, most)).min(rest.len());
        if pipe.write_all(&rest[..size]).is_err() {
            break;
        }
        rest = &rest[size..];
    }
    drop(pipe);
    let out = child.wait_with_output().expect("the program ends");
    assert!(out.status.success(), "{}", out.status);
    let text = String::from_utf8(out.stdout).expect("text");
    // A recording is read to its end, unless its header is refused.
    assert!(rest.is_empty() || text == "refused 14\n", "{text}");
    text
}

// ---- the Rust original

fn report(chain: &InputConditioner, replaced: u64) -> String {
    use std::fmt::Write;
    let log = chain.log();
    let mut text = format!("replaced {replaced}\n");
    let (seen, released, held) = (log.samples_seen(), chain.released, chain.held);
    writeln!(text, "seen {seen} final {released} held {held}").expect("text");
    let name = |stage: Stage, mark: Mark| format!("{stage:?} {mark:?}").to_lowercase();
    for stage in Stage::ALL {
        for mark in Mark::ALL {
            let count = log.count(stage, mark);
            if count > 0 {
                writeln!(text, "count {} {count}", name(stage, mark)).expect("text");
            }
        }
    }
    for span in log.spans() {
        let name = name(span.stage, span.mark);
        writeln!(text, "span {name} {} {}", span.start_sample, span.len).expect("text");
    }
    let (spans, repairs) = (log.spans_dropped(), log.repairs_dropped());
    writeln!(text, "dropped {spans} {repairs}").expect("text");
    match log.dc_level() {
        None => text.push_str("dc none\n"),
        Some(l) => {
            writeln!(text, "dc {:016x} {:016x}", l.re.to_bits(), l.im.to_bits()).expect("text")
        }
    }
    text.push_str(match log.iq_status() {
        IqStatus::Off => "iq off\n",
        IqStatus::Observing => "iq observing\n",
        IqStatus::Correcting => "iq correcting\n",
        IqStatus::CalibrationMismatch => "iq mismatch\n",
    });
    text
}

/// Reads until the buffer is full or the input ends.
fn fill(input: &mut impl Read, buffer: &mut [u8]) -> usize {
    let mut done = 0;
    while done < buffer.len() {
        match input.read(&mut buffer[done..]).expect("input") {
            0 => break,
            n => done += n,
        }
    }
    done
}

/// The report of a recording that nothing refuses, by the original in blocks: read, guard, condition.
fn by_original(mut input: impl Read) -> String {
    let mut head = [0; HEADER];
    assert_eq!(fill(&mut input, &mut head), HEADER);
    let Some(mut chain) = original(&header(&head).expect("a header")) else {
        return "off\n".into();
    };
    let mut bytes = vec![0; 8 * BLOCK];
    let mut samples = vec![Complex32::new(0.0, 0.0); BLOCK + 21];
    let mut replaced = 0;
    loop {
        let size = fill(&mut input, &mut bytes);
        // Of a header alone this is the log of a chain that was made and never called.
        if size == 0 {
            return report(&chain, replaced);
        }
        let held = chain.held;
        let end = held + size / 8;
        for (x, b) in samples[held..end].iter_mut().zip(bytes.chunks_exact(8)) {
            x.re = f32::from_le_bytes([b[0], b[1], b[2], b[3]]);
            x.im = f32::from_le_bytes([b[4], b[5], b[6], b[7]]);
        }
        replaced += replace_unusable(&mut samples[held..end]);
        chain.condition(&mut samples[..end]);
    }
}

// ---- recordings

fn seeded(seed: u64) -> Random {
    let mut rng = Random(seed);
    for _ in 0..8 {
        rng.next();
    }
    rng
}
fn below(rng: &mut Random, n: usize) -> usize {
    (rng.next() >> 11) as usize % n
}
fn once_in(rng: &mut Random, n: usize) -> bool {
    below(rng, n) == 0
}
fn unit(rng: &mut Random) -> f64 {
    (rng.next() >> 11) as f64 / (1u64 << 53) as f64
}
fn both(rng: &mut Random) -> f64 {
    2.0 * unit(rng) - 1.0
}
fn pick<T: Copy>(rng: &mut Random, of: &[T]) -> T {
    of[below(rng, of.len())]
}

const ODD: [f64; 7] = [
    f64::NAN,
    f64::INFINITY,
    f64::NEG_INFINITY,
    0.0,
    -0.0,
    -1.0,
    f64::MAX,
];

fn rate(rng: &mut Random) -> f64 {
    match below(rng, 12) {
        0 => pick(rng, &ODD),
        1 => pick(rng, &[0.9999999999999999, 1.0, 1e7, 1.0000000000000002e7]),
        2..=4 => pick(rng, &[1.5, 7.5, 20.0, 60.0, 100.0]),
        _ => pick(rng, &[1000.0, 8000.0, 48000.0, 192000.0]),
    }
}

/// The header that says the version, these modes, whether there is a calibration, and the numbers: rate, centre, gain,
/// phase and calibrated centre.
fn head_of(version: u16, modes: [u8; 3], present: u8, numbers: [f64; 5]) -> Vec<u8> {
    let mut bytes = b"CND".to_vec();
    bytes.extend(version.to_le_bytes());
    bytes.extend(modes);
    bytes.push(present);
    for number in numbers {
        bytes.extend(number.to_le_bytes());
    }
    bytes
}

fn head(rng: &mut Random) -> Vec<u8> {
    let mut modes = [0; 3].map(|_| pick(rng, &[0, 1, 2, 2]));
    if once_in(rng, 30) {
        modes.fill(0);
    }
    let present = below(rng, 2) as u8;
    let centre = pick(rng, &[7e6, 7e6 + 1.0, 7e6 - 1.0, 7e6 + 1.5, f64::NAN]);
    let gain = pick(rng, &[1.1, 0.5, 2.0, 0.4, 2.1, 1.0, f64::NAN]);
    let phase = pick(rng, &[3.0, -45.0, 45.0, 46.0, 0.0, f64::INFINITY]);
    let version = pick(rng, &[1, 2]);
    head_of(
        version,
        modes,
        present,
        [rate(rng), centre, gain, phase, 7e6],
    )
}

/// A header with a calibration that fits.
fn known_head(modes: [u8; 3], fs: f64) -> Vec<u8> {
    head_of(1, modes, 1, [fs, 7e6, 1.1, 3.0, 7e6])
}

/// A part: mostly noise about an offset, at times a click, now and then any bits at all.
fn part(rng: &mut Random, loud: bool, clicks: usize, any: usize) -> f32 {
    if any > 0 && once_in(rng, any) {
        return pick(
            rng,
            &[
                f32::NAN,
                f32::INFINITY,
                f32::NEG_INFINITY,
                1e17,
                -1.1e17,
                -0.0,
            ],
        );
    }
    if any > 0 && once_in(rng, any) {
        return f32::from_bits(rng.next() as u32);
    }
    let scale = if loud { 100.0 } else { 1.0 };
    if once_in(rng, clicks) {
        return (scale * (50.0 + 50.0 * unit(rng))) as f32;
    }
    (scale * (0.3 + 0.2 * both(rng))) as f32
}

fn samples(rng: &mut Random, n: usize, to: &mut Vec<u8>) {
    let loud = once_in(rng, 5);
    let clicks = pick(rng, &[7, 30, 100, 3000]);
    let any = pick(rng, &[0, 0, 50, 500]);
    let silent = once_in(rng, 20);
    for _ in 0..n {
        for _ in 0..2 {
            let x = if silent {
                0.0
            } else {
                part(rng, loud, clicks, any)
            };
            to.extend(x.to_le_bytes());
        }
    }
}

fn recording(rng: &mut Random, n: usize) -> Vec<u8> {
    let mut bytes = head(rng);
    samples(rng, n, &mut bytes);
    // One in five ends in a broken sample.
    if once_in(rng, 5) {
        for _ in 0..1 + below(rng, 7) {
            bytes.push(rng.next() as u8);
        }
    }
    match below(rng, 20) {
        // Cut short, in the header or just behind it.
        0 => bytes.truncate(below(rng, 60)),
        // A byte of the header's first nine is another.
        1 => {
            let k = below(rng, 9);
            bytes[k] = if once_in(rng, 2) {
                rng.next() as u8
            } else {
                pick(rng, &[0, 1, 2, 3])
            };
        }
        _ => {}
    }
    bytes
}

// ---- comparing

fn same(name: &str, wanted: &str, got: &str, input: &[u8]) {
    if wanted != got {
        std::fs::write(
            "/dev/stderr",
            format!("{name}\nwanted:\n{wanted}got:\n{got}"),
        )
        .ok();
        panic!("another text, for a recording of {} bytes", input.len());
    }
}

#[derive(Default)]
struct Reached {
    reports: u64,
    fresh: u64,
    off: u64,
    refused: std::collections::BTreeMap<String, u64>,
    samples: u64,
    replaced: u64,
    mended: u64,
    dropped: u64,
    second: u64,
    differ: u64,
}

impl Reached {
    fn note(&mut self, text: &str) {
        if let Some(number) = text.strip_prefix("refused ") {
            *self.refused.entry(number.trim().into()).or_default() += 1;
        } else if text == "off\n" {
            self.off += 1;
        } else {
            self.reports += 1;
            self.fresh += u64::from(text.contains("\nseen 0 final 0 held 0\n"));
            let mut words = text.split_whitespace();
            self.replaced += words.nth(1).map_or(0, |w| w.parse().unwrap_or(0));
            self.samples += words.nth(1).map_or(0, |w| w.parse().unwrap_or(0));
            self.mended += u64::from(text.contains("count impulse repaired"));
            self.dropped += u64::from(!text.contains("\ndropped 0 0\n"));
        }
    }
}

/// The program against the second reading; and, where nothing is refused and the pause rule is the original's, against that too.
fn compare(name: &str, input: &[u8], rng: &mut Random, reached: &mut Reached) {
    let got = replayed(input, rng);
    same(name, &printed(input), &got, input);
    reached.note(&got);
    let report = got.starts_with("replaced");
    match input.get(3) {
        Some(1) if report => same(name, &by_original(input), &got, input),
        Some(2) if report => {
            let mut first = input.to_vec();
            first[3] = 1;
            reached.second += 1;
            reached.differ += u64::from(printed(&first) != got);
        }
        _ => (),
    }
}

/// Every tail behind no sample, one, a full first block and several, under a header that is good, bad, all off
/// or with a bad rate.
fn compare_tails(reached: &mut Reached) {
    let good = known_head([2, 2, 2], 48000.0);
    let mut bad = good.clone();
    bad[0] = b'X';
    let off = known_head([0, 0, 0], 48000.0);
    let slow = known_head([2, 2, 2], 0.5);
    for (name, head) in [("good", good), ("bad", bad), ("off", off), ("slow", slow)] {
        for n in [0, 1, BLOCK, 3 * BLOCK] {
            let rng = &mut seeded(1 + n as u64);
            let mut input = head.clone();
            samples(rng, n, &mut input);
            for tail in 0..8 {
                let name = format!("{name} header, {n} samples, a tail of {tail}");
                compare(&name, &input, rng, reached);
                input.push(rng.next() as u8);
            }
        }
    }
}

/// A header alone, in either version and every mode, with rates and calibrations that fit, that just do and that do not; and in
/// other versions.
fn compare_headers(reached: &mut Reached) {
    let rng = &mut seeded(1);
    let (under, over) = (1f64.next_down(), 1e7f64.next_up());
    let rates = [1.0, 48000.0, 1e7, 0.0, f64::NAN, under, over];
    // Whether there is one, its gain, its phase, and how far the receiver's centre is off.
    let calibrations = [
        (0, 1.1, 3.0, 0.0),
        (1, 1.1, 3.0, 0.0),
        (1, 0.5, -45.0, 1.0),
        (1, 2.0, 45.0, -1.0),
        (1, 1.1, 3.0, 1.5),
        (1, 2.1, 3.0, 0.0),
        (1, 1.1, f64::NAN, 0.0),
    ];
    for modes in 0..27 {
        let modes = [modes / 9, modes / 3 % 3, modes % 3];
        for fs in rates {
            for (present, gain, phase, off) in calibrations {
                for version in [1, 2] {
                    let numbers = [fs, 7e6 + off, gain, phase, 7e6];
                    let input = head_of(version, modes, present, numbers);
                    let name = format!("header {version} {modes:?} {present} {numbers:?}");
                    compare(&name, &input, rng, reached);
                }
            }
        }
    }
    for version in [0, 3, 0x100, 0x101, 0x102, 0x200, 0x201, u16::MAX] {
        let input = head_of(version, [2, 2, 2], 1, [48000.0, 7e6, 1.1, 3.0, 7e6]);
        compare(&format!("version {version}"), &input, rng, reached);
    }
}

/// Both versions of recordings of several blocks, with about as many clicks in a block as the limits of the pause rule.
fn compare_editions(reached: &mut Reached) {
    for seed in 0..40 {
        let rng = &mut seeded(1 + seed);
        let (fs, every) = pick(rng, &[(1000.0, 700), (2000.0, 1000), (3000.0, 1200)]);
        let modes = pick(rng, &[[2, 0, 0], [2, 2, 2], [1, 1, 1]]);
        let mut input = known_head(modes, fs);
        for _ in 0..(10 + below(rng, 20)) * fs as usize {
            let click = if once_in(rng, every) { 60.0 } else { 0.0 };
            input.extend((click + both(rng) as f32).to_le_bytes());
            input.extend((both(rng) as f32).to_le_bytes());
        }
        for version in [1, 2] {
            input[3] = version;
            compare(&format!("blocks {seed} {version}"), &input, rng, reached);
        }
    }
    assert!(reached.differ >= 10, "the editions hardly differ");
}

fn compare_all(cases: u64) {
    let mut reached = Reached::default();
    compare_headers(&mut reached);
    compare_editions(&mut reached);
    compare_tails(&mut reached);
    for seed in 1..=cases {
        let rng = &mut seeded(seed.wrapping_mul(0x9e37_79b9_7f4a_7c15) | 1);
        let n = if once_in(rng, 10) {
            0
        } else {
            1 + below(rng, 400)
        };
        let input = recording(rng, n);
        compare(&format!("recording {seed}"), &input, rng, &mut reached);
    }
    // Long ones: whole blocks, a sample more and less, and many blocks.
    for (k, n) in [
        BLOCK - 1,
        BLOCK,
        BLOCK + 1,
        2 * BLOCK,
        20_000,
        100_000,
        100_003,
        300_000,
    ]
    .into_iter()
    .enumerate()
    {
        for seed in 0..12 {
            let rng = &mut seeded(1 + seed + 1000 * k as u64);
            let input = recording(rng, n);
            let name = format!("long recording {n} {seed}");
            compare(&name, &input, rng, &mut reached);
        }
    }
    let refused: Vec<String> = reached
        .refused
        .iter()
        .map(|(n, k)| format!("{k} refused by {n}"))
        .collect();
    println!(
        "{} reports of {} samples ({} of none; {} replaced; {} reports with mended runs, {} with dropped spans or repairs; {} of version 2, {} of them not what version 1 prints), {} off, {}: 0 differences",
        reached.reports,
        reached.samples,
        reached.fresh,
        reached.replaced,
        reached.mended,
        reached.dropped,
        reached.second,
        reached.differ,
        reached.off,
        refused.join(", ")
    );
}

// ---- timing

/// A tone, an offset, noise, and a click in 2,000 samples.
fn write_recording(path: &str, modes: [u8; 3], n: usize) {
    let mut out = BufWriter::new(File::create(path).expect("a file to write"));
    out.write_all(&known_head(modes, 48000.0)).expect("written");
    let rng = &mut Random(88172645463325252);
    for k in 0..n {
        let turn = (k % 8) as f64 * std::f64::consts::FRAC_PI_4;
        let click = if once_in(rng, 2000) { 60.0 } else { 0.0 };
        let re = 0.1 + 0.4 * turn.cos() + 0.05 * both(rng) + click;
        let im = -0.05 + 0.4 * turn.sin() + 0.05 * both(rng);
        out.write_all(&(re as f32).to_le_bytes()).expect("written");
        out.write_all(&(im as f32).to_le_bytes()).expect("written");
    }
    out.flush().expect("written");
}

fn timed<T>(f: impl FnOnce() -> T) -> (T, Duration) {
    let began = Instant::now();
    let x = f();
    (x, began.elapsed())
}

fn from_file(path: &str) -> String {
    let out = Command::new(program())
        .stdin(File::open(path).expect("the recording"))
        .output()
        .expect("the program runs");
    String::from_utf8(out.stdout).expect("text")
}

fn time_all(n: usize) {
    let path = std::env::var("RECORDING").expect("RECORDING names a file to write");
    for (name, modes) in [("impulse", [2, 0, 0]), ("all stages", [2, 2, 2])] {
        write_recording(&path, modes, n);
        let (mut proved, mut rust) = (Duration::MAX, Duration::MAX);
        for _ in 0..5 {
            let (got, t) = timed(|| from_file(&path));
            proved = proved.min(t);
            let (wanted, t) = timed(|| by_original(File::open(&path).expect("the recording")));
            rust = rust.min(t);
            assert_eq!(got, wanted, "{name}");
        }
        let each = |t: Duration| t.as_secs_f64() * 1e9 / n as f64;
        println!(
            "{name}, {n} samples: replay {:.3} s ({:.1} ns a sample), the Rust {:.3} s ({:.1} ns a sample)",
            proved.as_secs_f64(),
            each(proved),
            rust.as_secs_f64(),
            each(rust)
        );
    }
    std::fs::remove_file(&path).expect("the file goes again");
}

fn main() {
    let words: Vec<String> = std::env::args().skip(1).collect();
    let number =
        |k: usize, other: usize| words.get(k).map_or(other, |w| w.parse().expect("a number"));
    if words.first().is_some_and(|w| w == "--time") {
        time_all(number(1, 10_000_000));
    } else {
        compare_all(number(0, 3000) as u64);
    }
}
