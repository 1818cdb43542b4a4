// Holds the proved float functions against the processor's conversion and square root and against
// Rust's `ceil` and `round`, over many bit patterns, and times both sides.

use random::Random;
use std::hint::black_box;
use std::time::Instant;

#[path = "../../oracle/src/random.rs"]
mod random;

extern "C" {
    fn ieee_narrow(x: f64) -> f32;
    fn ieee_root(x: f64) -> f64;
    fn ieee_ceiling(x: f64) -> u64;
    fn ieee_round_half_away(x: f64) -> u64;
}

// The bits of an answer, every NaN alike.
fn bits32(x: f32) -> u64 {
    if x.is_nan() {
        0x7fc0_0000
    } else {
        x.to_bits() as u64
    }
}
fn bits64(x: f64) -> u64 {
    if x.is_nan() {
        0x7ff8_0000_0000_0000
    } else {
        x.to_bits()
    }
}

struct Operation {
    name: &'static str,
    proved: fn(f64) -> u64,
    processor: fn(f64) -> u64,
}

const OPERATIONS: [Operation; 4] = [
    Operation {
        name: "narrow",
        proved: |x| bits32(unsafe { ieee_narrow(x) }),
        processor: |x| bits32(x as f32),
    },
    Operation {
        name: "root",
        proved: |x| bits64(unsafe { ieee_root(x) }),
        processor: |x| bits64(x.sqrt()),
    },
    Operation {
        name: "ceiling",
        proved: |x| unsafe { ieee_ceiling(x) },
        processor: |x| x.ceil() as u64,
    },
    Operation {
        name: "round",
        proved: |x| unsafe { ieee_round_half_away(x) },
        processor: |x| x.round() as u64,
    },
];

// Every kind of pattern in turn: any bits; any number with an exponent near an f32's range; one of
// those at a tie or next to it; subnormals and small bit patterns; whole numbers and halves.
fn pattern(i: u64, random: &mut Random) -> f64 {
    let r = random.next();
    let exponent = (1023 - 160 + random.next() % 300) << 52;
    match i % 6 {
        0 => f64::from_bits(r),
        1 => f64::from_bits(r & 0x800f_ffff_ffff_ffff | exponent),
        2 => {
            let low = 0x0fff_ffff + random.next() % 3;
            f64::from_bits(r & 0x800f_ffff_e000_0000 | exponent | low)
        }
        3 => f64::from_bits(r >> (random.next() % 64)),
        4 => (r >> (random.next() % 64)) as f64 / 2.0,
        _ => f64::from_bits(r & 0x800f_ffff_ffff_ffff | ((1020 + random.next() % 70) << 52)),
    }
}

fn compare(count: u64) -> u64 {
    let mut differences = 0;
    for op in &OPERATIONS {
        let mut random = Random(0x9e37_79b9_7f4a_7c15);
        let mut bad = 0;
        for i in 0..count {
            let x = pattern(i, &mut random);
            let (p, q) = ((op.proved)(x), (op.processor)(x));
            if p != q {
                bad += 1;
                if bad <= 5 {
                    println!(
                        "{} of {:#018x}: {:#x}, the processor {:#x}",
                        op.name,
                        x.to_bits(),
                        p,
                        q
                    );
                }
            }
        }
        println!("{:8} {} inputs, {} differences", op.name, count, bad);
        differences += bad;
    }
    differences
}

// Least nanoseconds a call over several rounds.
fn time(f: fn(f64) -> u64) -> f64 {
    let mut random = Random(88_172_645_463_325_252);
    let inputs: Vec<f64> = (0..4096)
        .map(|_| f64::from_bits(0x3fe0_0000_0000_0000 + (random.next() >> 10)))
        .collect();
    let mut least = f64::INFINITY;
    for _ in 0..20 {
        let start = Instant::now();
        for _ in 0..20 {
            for &x in &inputs {
                black_box(f(black_box(x)));
            }
        }
        least = least.min(start.elapsed().as_nanos() as f64 / (20.0 * 4096.0));
    }
    least
}

// Inputs of the stored answers: the limits of both formats, ties and their neighbours, subnormals,
// halves, and some of every kind of pattern.
fn chosen() -> Vec<f64> {
    let bits: [u64; 34] = [
        0x0,
        0x8000_0000_0000_0000,
        0x1,
        0x8000_0000_0000_0001,
        0x000f_ffff_ffff_ffff,
        0x0010_0000_0000_0000,
        0x7fef_ffff_ffff_ffff,
        0x7ff0_0000_0000_0000,
        0xfff0_0000_0000_0000,
        0x7ff8_0000_0000_0000,
        // around half of an f32's smallest value, 2^-150, and around 2^-149
        0x3690_0000_0000_0000,
        0x3690_0000_0000_0001,
        0x368f_ffff_ffff_ffff,
        0x36a0_0000_0000_0000,
        0x36a8_0000_0000_0000,
        // around an f32's smallest normal value, 2^-126
        0x380f_ffff_e000_0000,
        0x380f_ffff_f000_0000,
        0x3810_0000_0000_0000,
        // an f32's largest value, and around the tie above it
        0x47ef_ffff_e000_0000,
        0x47ef_ffff_efff_ffff,
        0x47ef_ffff_f000_0000,
        0xc7ef_ffff_f000_0000,
        // ties at 1, to the even digit below and above, and next to them
        0x3ff0_0000_1000_0000,
        0x3ff0_0000_1000_0001,
        0x3ff0_0000_3000_0000,
        0x3ff0_0000_2fff_ffff,
        0xbff0_0000_1000_0000,
        // the largest number below one half, and around 2^52, 2^53, 2^63 and 2^64
        0x3fdf_ffff_ffff_ffff,
        0x4320_0000_0000_0001,
        0x433f_ffff_ffff_ffff,
        0x4340_0000_0000_0000,
        0x43df_ffff_ffff_ffff,
        0x43ef_ffff_ffff_ffff,
        0x43f0_0000_0000_0000,
    ];
    let mut inputs: Vec<f64> = bits.iter().map(|&b| f64::from_bits(b)).collect();
    inputs.extend([
        0.5,
        1.0,
        1.5,
        2.0,
        2.5,
        3.0,
        4.0,
        9.0,
        -0.5,
        -1.0,
        0.1,
        1e7,
        48000.0,
        44100.5,
        5.0 * 7812.3,
        1e17,
        1e300,
    ]);
    let mut random = Random(2463534242);
    inputs.extend((0..30).map(|i| pattern(i, &mut random)));
    inputs
}

fn table() {
    for op in &OPERATIONS {
        for x in chosen() {
            println!(
                "{:7} {:016x} {:016x}",
                op.name,
                x.to_bits(),
                (op.processor)(x)
            );
        }
    }
}

fn main() {
    let argument = std::env::args().nth(1);
    if argument.as_deref() == Some("--table") {
        table();
        return;
    }
    let count = argument.map_or(40_000_000, |a| a.parse().expect("a number of patterns"));
    let differences = compare(count);
    println!("nanoseconds a call, least of 20 rounds: proved, processor");
    for op in &OPERATIONS {
        println!(
            "{:8} {:6.1} {:6.1}",
            op.name,
            time(op.proved),
            time(op.processor)
        );
    }
    std::process::exit((differences != 0) as i32);
}
