//! Times the C library beside the Rust original, on the same input in the same run, after a check that
//! both give the same bits. See the script `run`.

mod input;
mod sides;

use oracle::num_complex::Complex32;
use sides::{
    original, original_hops, original_other, proved, proved_hops, proved_other, word, Other, Ran,
    Setting, Stages, Stores,
};
use std::hint::black_box;

const RATE: f64 = 48_000.0;
const EVERY: u64 = 2_000;
const CHANNELS: usize = 8;
/// Compared are so many samples; timed is a shorter part, many times, since short rounds find the machine at
/// rest now and then. A part in short calls takes longer, so it is shorter still.
const SAMPLES: usize = 1_000_000;
const ROUNDS: usize = 31;
fn part(block: usize) -> usize {
    if block < 64 {
        20_000
    } else {
        131_072
    }
}

const ALL: Stages = Stages {
    impulse: true,
    dc: true,
    iq: true,
};

// ---- time

#[repr(C)]
struct Timespec {
    seconds: i64,
    nanoseconds: i64,
}
extern "C" {
    fn clock_gettime(clock: i32, time: *mut Timespec) -> i32;
}
const CLOCK_THREAD_CPUTIME_ID: i32 = 3;

// This thread's processor time in nanoseconds, so that other programs' time is not in it.
fn now() -> f64 {
    let mut t = Timespec {
        seconds: 0,
        nanoseconds: 0,
    };
    assert_eq!(unsafe { clock_gettime(CLOCK_THREAD_CPUTIME_ID, &mut t) }, 0);
    t.seconds as f64 * 1e9 + t.nanoseconds as f64
}

fn timed(run: impl FnOnce()) -> f64 {
    let start = now();
    run();
    now() - start
}

/// Nanoseconds of the two sides.
#[derive(Clone, Copy)]
struct Times {
    rust: f64,
    rattle: f64,
}
impl Times {
    const NEVER: Times = Times {
        rust: f64::INFINITY,
        rattle: f64::INFINITY,
    };
    fn least(self, other: Times) -> Times {
        Times {
            rust: self.rust.min(other.rust),
            rattle: self.rattle.min(other.rattle),
        }
    }
    fn less(self, other: Times) -> Times {
        Times {
            rust: self.rust - other.rust,
            rattle: self.rattle - other.rattle,
        }
    }
    fn each(self, n: usize) -> String {
        let (a, b) = (self.rust / n as f64, self.rattle / n as f64);
        format!("{a:>9.1} {b:>9.1} {:>6.2}", b / a)
    }
}

// ---- samples

/// An input in both sides' words, and room for it.
struct Input {
    samples: Vec<Complex32>,
    words: Vec<u64>,
    samples_room: Vec<Complex32>,
    words_room: Vec<u64>,
}
impl Input {
    fn new(samples: Vec<Complex32>) -> Self {
        let words: Vec<u64> = samples.iter().map(|&x| word(x)).collect();
        Input {
            samples_room: samples.clone(),
            words_room: words.clone(),
            samples,
            words,
        }
    }
    fn refill(&mut self, n: usize) {
        self.samples_room[..n].copy_from_slice(&self.samples[..n]);
        self.words_room[..n].copy_from_slice(&self.words[..n]);
    }
}

// Whether both release the same bits of the first n samples.
fn same(setting: Setting, block: usize, input: &mut Input, n: usize) -> bool {
    let mut stores = Stores::new(setting.spans, setting.repairs, CHANNELS);
    input.refill(n);
    let (a, _) = original(setting, block, &mut input.samples_room[..n]);
    let (b, _) = proved(setting, block, &mut input.words_room[..n], &mut stores);
    a == b
        && a > 0
        && input.samples_room[..a]
            .iter()
            .zip(&input.words_room[..b])
            .all(|(&x, &w)| word(x) == w)
}

// One round over the first n samples.
fn round(setting: Setting, block: usize, input: &mut Input, n: usize) -> Times {
    let mut stores = Stores::new(setting.spans, setting.repairs, CHANNELS);
    input.refill(n);
    Times {
        rust: timed(|| {
            black_box(original(
                setting,
                block,
                black_box(&mut input.samples_room[..n]),
            ));
        }),
        rattle: timed(|| {
            black_box(proved(
                setting,
                block,
                black_box(&mut input.words_room[..n]),
                &mut stores,
            ));
        }),
    }
}

fn least(rounds: usize, mut one: impl FnMut() -> Times) -> Times {
    (0..rounds).fold(Times::NEVER, |t, _| t.least(one()))
}

fn setting(stages: Stages) -> Setting {
    Setting {
        stages,
        fs: RATE,
        spans: 256,
        repairs: 4096,
    }
}

// ---- hops

fn hop_words(x: &[Complex32]) -> Vec<u64> {
    x.iter().map(|&c| word(c)).collect()
}

// The Rust's words in the proved order: powers, real and imaginary sums, and the sorting words, which are 0.
fn monitor_bits(chain: &oracle::condition::InputConditioner) -> Vec<u64> {
    let m = chain.image.as_ref().expect("IQ observes");
    let re = m.cross.iter().map(|c| c.re);
    let im = m.cross.iter().map(|c| c.im);
    let zeros = m.power.iter().map(|_| 0.0);
    let all = m.power.iter().copied().chain(re).chain(im).chain(zeros);
    all.map(f64::to_bits).collect()
}

fn same_hops(fs: f64, hops: usize, x: &[Complex32]) -> bool {
    let mut stores = Stores::new(1, 1, x.len());
    let (a, chain) = original_hops(fs, hops, x);
    let b = proved_hops(fs, hops, &hop_words(x), &mut stores);
    let words: Vec<u64> = stores.words.iter().map(|w| w.to_bits()).collect();
    a == b && words == monitor_bits(&chain)
}

fn hop_round(fs: f64, hops: usize, x: &[Complex32], words: &[u64]) -> Times {
    let mut stores = Stores::new(1, 1, x.len());
    Times {
        rust: timed(|| {
            black_box(original_hops(fs, hops, black_box(x)));
        }),
        rattle: timed(|| {
            black_box(proved_hops(fs, hops, black_box(words), &mut stores));
        }),
    }
}

// ---- the undos and the guard

const OTHERS: [(&str, Other); 4] = [
    ("repair undo", Other::RepairUndo),
    ("dc undo", Other::DcUndo),
    ("iq undo", Other::IqUndo),
    ("guard", Other::Guard),
];

// A chain of all stages over the first n samples; what it released takes their place.
fn ran(input: &mut Input, n: usize) -> Ran {
    let s = setting(ALL);
    let mut stores = Stores::new(s.spans, s.repairs, CHANNELS);
    input.refill(n);
    let (a, chain) = original(s, 1_024, &mut input.samples_room[..n]);
    let (b, state) = proved(s, 1_024, &mut input.words_room[..n], &mut stores);
    assert_eq!(a, b);
    input.samples[..a].copy_from_slice(&input.samples_room[..a]);
    input.words[..b].copy_from_slice(&input.words_room[..b]);
    Ran {
        chain,
        state,
        repairs: stores.repairs,
        fs: s.fs,
        room: vec![0; n],
    }
}

fn same_other(what: Other, ran: &mut Ran, block: usize, input: &mut Input, n: usize) -> bool {
    input.refill(n);
    original_other(what, ran, block, &mut input.samples_room[..n]);
    proved_other(what, ran, block, &mut input.words_room[..n]);
    let pairs = input.samples_room[..n].iter().zip(&input.words_room[..n]);
    pairs.into_iter().all(|(&x, &w)| word(x) == w)
}

fn other_round(what: Other, ran: &mut Ran, block: usize, input: &mut Input, n: usize) -> Times {
    input.refill(n);
    Times {
        rust: timed(|| {
            original_other(what, ran, block, black_box(&mut input.samples_room[..n]));
        }),
        rattle: timed(|| {
            proved_other(what, ran, block, black_box(&mut input.words_room[..n]));
        }),
    }
}

// ---- the tables

const HEADER: &str = "  rust-ns rattle-ns  ratio";

fn checked(good: bool, what: &str) {
    if !good {
        println!("{what}: the two sides differ");
        std::process::exit(1);
    }
}

fn stages() {
    let one = |impulse, dc, iq| Stages { impulse, dc, iq };
    let mut clicks = Input::new(input::clicks(SAMPLES, EVERY));
    let mut loud = Input::new(input::loud(SAMPLES, EVERY));
    let rows = [
        ("impulse", one(true, false, false), false),
        ("dc", one(false, true, false), false),
        ("iq", one(false, false, true), false),
        ("all", ALL, false),
        ("all, loud", ALL, true),
    ];
    let blocks = [1_024, 1];
    // at a rate of 93.75 n there is a report at each 1,875th hop; at 1, at each
    let hops = [
        ("hop, n = 512", 512, 93.75 * 512.0, 1_875),
        ("hop, n = 2048", 2_048, 93.75 * 2_048.0, 1_875),
        ("reported hop, n = 512", 512, 1.0, 200),
        ("reported hop, n = 2048", 2_048, 1.0, 40),
    ];
    for (name, stages, is_loud) in rows {
        let input = if is_loud { &mut loud } else { &mut clicks };
        for block in blocks {
            checked(same(setting(stages), block, input, SAMPLES), name);
        }
    }
    for (name, n, fs, many) in hops {
        checked(same_hops(fs, many, &input::quiet(n)), name);
    }
    let mut released = Input::new(input::clicks(SAMPLES, EVERY));
    let mut chain = ran(&mut released, SAMPLES);
    let mut spoilt = Input::new(input::spoilt(SAMPLES, EVERY));
    for block in blocks {
        for (name, what) in OTHERS {
            let good = same_other(what, &mut chain, block, &mut released, part(block));
            checked(good, name);
        }
        let good = same_other(Other::Guard, &mut chain, block, &mut spoilt, SAMPLES);
        checked(good, "guard");
    }
    println!(
        "The same bits on both sides: {} runs of {SAMPLES} samples, {} of hops, {} of undos and the guard.\n",
        rows.len() * blocks.len(),
        hops.len(),
        (OTHERS.len() + 1) * blocks.len()
    );
    println!(
        "{:24}{:>6} {HEADER}    nanoseconds a sample",
        "stage", "call"
    );
    for block in blocks {
        let n = part(block);
        for (name, stages, is_loud) in rows {
            let input = if is_loud { &mut loud } else { &mut clicks };
            let t = least(ROUNDS, || round(setting(stages), block, input, n));
            println!("{name:24}{block:>6} {}", t.each(n));
        }
        for (name, what) in OTHERS {
            let t = least(ROUNDS, || {
                other_round(what, &mut chain, block, &mut released, n)
            });
            println!("{name:24}{block:>6} {}", t.each(n));
        }
    }
    println!("\n{:24}{:>6} {HEADER}    nanoseconds a hop", "", "");
    for (name, n, fs, many) in hops {
        let x = input::quiet(n);
        let words = hop_words(&x);
        let t = least(ROUNDS, || hop_round(fs, many, &x, &words));
        println!("{name:24}{:>6} {}", "", t.each(many));
    }
}

fn growth() {
    let mut clicks = Input::new(input::clicks(SAMPLES, EVERY));
    println!("All stages, by the new samples of a call. Each row was first seen to give the same bits on both sides.\n");
    println!("{:24}{:>6} {HEADER}    nanoseconds a sample", "", "call");
    let mut block = 1;
    while block <= 65_536 {
        let n = part(block);
        checked(same(setting(ALL), block, &mut clicks, SAMPLES), "all");
        let t = least(ROUNDS, || round(setting(ALL), block, &mut clicks, n));
        println!("{:24}{block:>6} {}", "", t.each(n));
        block *= 4;
    }
    rings();
}

// A chain's first samples fill the impulse stage's rings of spans and of repairs, or leave them empty; the time is that
// of the same quiet samples behind them.
fn rings() {
    let (first, rest) = (180_000, 131_072);
    let with = |front: Vec<Complex32>| Input::new([front, input::quiet(rest)].concat());
    let mut full = with(input::dense(first));
    let mut empty = with(input::quiet(first));
    println!("\nAll stages, by the capacities and by what the rings hold.\n");
    println!(
        "{:>5} {:>7} {:10}{:>6} {HEADER}    nanoseconds a sample",
        "spans", "repairs", "rings", "call"
    );
    for (block, rounds) in [(1_024, ROUNDS), (1, 9)] {
        for (spans, repairs) in [(1, 1), (256, 4_096)] {
            for (name, input) in [("empty", &mut empty), ("full", &mut full)] {
                let s = Setting {
                    stages: ALL,
                    fs: input::DENSE_RATE,
                    spans,
                    repairs,
                };
                checked(same(s, block, input, first + rest), name);
                assert!(hold(s, input, name == "full"), "the rings are not {name}");
                let whole = least(rounds, || round(s, block, input, first + rest));
                let front = least(rounds, || round(s, block, input, first));
                println!(
                    "{spans:>5} {repairs:>7} {name:10}{block:>6} {}",
                    whole.less(front).each(rest)
                );
            }
        }
    }
}

// Whether the rings of impulse spans and the ring of repairs are full, or empty.
fn hold(setting: Setting, input: &mut Input, full: bool) -> bool {
    let n = input.samples.len();
    input.refill(n);
    let (_, chain) = original(setting, 1_024, &mut input.samples_room[..n]);
    let log = chain.log();
    let spans = log
        .spans()
        .filter(|s| s.stage == oracle::condition::Stage::Impulse)
        .count();
    let repairs = log.repairs().count();
    if full {
        spans == 3 * setting.spans && repairs == setting.repairs
    } else {
        spans == 0 && repairs == 0
    }
}

fn main() {
    assert!(vatgorge::is_as_named(), "another library");
    match std::env::args().nth(1).as_deref() {
        Some("--growth") => growth(),
        _ => stages(),
    }
}
