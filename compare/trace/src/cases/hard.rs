//! Hard cases: a stage by itself, the others off, on signals that stand at a limit of its rules, or that a faster form of it
//! could get wrong; and any chain whose DC stage runs, on a carrier.

use super::*;
use oracle::rules::refusals::{within, TOTAL};
use oracle::rules::{dc, guard, impulse, Edition};

pub const IMPULSE: [&str; 15] = [
    "sparse clicks",
    "dense clicks",
    "pauses, block 1000",
    "pauses, block 37",
    "block 1",
    "long runs",
    "zeros",
    "small, signed zeros",
    "equal powers",
    "near 1e17",
    "any size",
    "first samples",
    "powers near the ratio",
    "falling powers",
    "pauses, block 2000",
];

pub const LEVEL: [&str; 9] = [
    "quiet",
    "loud, a carrier",
    "leading zeros",
    "clicks",
    "any usable",
    "tiny",
    "zeros",
    "near full scale",
    "at full scale",
];

/// The last is for DC alone.
pub const AT_FULL_SCALE: usize = LEVEL.len() - 1;

/// The DC stage's mode.
pub const CARRIER: [&str; 2] = ["observing", "applying"];

pub const HOPS: [&str; 10] = [
    "noise",
    "carrier and mirror",
    "equal channels",
    "equal in pairs",
    "zeros",
    "some zeros",
    "tiny",
    "huge",
    "any bits",
    "falling powers",
];

// ---- parts of signals

fn zero(rng: &mut Rng) -> f32 {
    rng.pick(&[0.0, -0.0])
}

/// Any bits of a part within a limit.
fn bits_within(rng: &mut Rng, limit: f32) -> f32 {
    loop {
        let x = f32::from_bits(rng.next() as u32);
        if x.abs() <= limit {
            return x;
        }
    }
}

fn noise(rng: &mut Rng, size: f64) -> Sample {
    Sample::new((size * rng.both()) as f32, (size * rng.both()) as f32)
}

fn power(x: Sample) -> f64 {
    f64::from(x.re) * f64::from(x.re) + f64::from(x.im) * f64::from(x.im)
}

// ---- the impulse stage

/// The block length, one run of clicks in so many samples, the longest, how loud, and how many samples.
struct Clicks {
    block: f64,
    every: usize,
    longest: usize,
    loud: f64,
    length: usize,
}

fn clicks(kind: usize) -> Clicks {
    let (block, every, longest, loud, length) = [
        (48_000.0, 2_000, 4, 100.0, 25_000),
        (48_000.0, 12, 3, 60.0, 25_000),
        (1_000.0, 700, 2, 80.0, 12_000),
        (37.0, 60, 5, 80.0, 6_000),
        (1.0, 30, 4, 80.0, 3_000),
        (8_000.0, 100, 9, 200.0, 12_000),
        (500.0, 50, 6, 1.0, 3_000),
        (500.0, 50, 6, 1.0, 3_000),
        (2_000.0, 40, 4, 30.0, 6_000),
        (48_000.0, 150, 4, 1e17, 6_000),
        (48_000.0, 20, 4, 1e17, 6_000),
        (20.0, 9, 5, 12.5, 70),
        (3_000.0, 1_000_000, 1, 1.0, 3_000),
        (5_000.0, 90, 4, 40.0, 6_000),
        (2_000.0, 1_000, 1, 80.0, 24_000),
    ][kind];
    Clicks {
        block,
        every,
        longest,
        loud,
        length,
    }
}

/// A sample between the clicks; the others of its signal are of the same `sort`.
fn between_clicks(rng: &mut Rng, kind: usize, k: usize, sort: usize) -> Sample {
    match kind {
        6 => Sample::new(0.0, 0.0),
        7 => {
            let re = rng.pick(&[0.0, 0.0, 0.0, 0.0, 1e-3, -0.0, 1e-30, -1e-42]);
            Sample::new(re, zero(rng))
        }
        // Few values, so that powers are equal.
        8 => {
            let values = [1.0, -1.0, 2.0, 0.5];
            Sample::new(rng.pick(&values), rng.pick(&values))
        }
        9 => noise(rng, 3e15),
        10 => Sample::new(bits_within(rng, MOST), bits_within(rng, MOST)),
        // Clicks of 12.5 stand just at the ratio of twelve; a single 12 stands there exactly.
        11 => Sample::new(1.0, 0.0),
        12 if sort == 0 => Sample::new(1.0, 0.0),
        // Each power below the one before, and up again.
        13 => clipped(1e6 * 0.93f64.powi((k % 200) as i32), 0.0),
        _ => noise(rng, 1.0),
    }
}

fn signal(rng: &mut Rng, kind: usize) -> Vec<Sample> {
    let c = clicks(kind);
    let n = 1 + c.length / 2 + rng.below(c.length);
    let sort = rng.below(2);
    let mut left = 0;
    let mut xs: Vec<Sample> = (0..n)
        .map(|k| {
            if left == 0 && rng.once_in(c.every) {
                left = rng.from(1, c.longest);
            }
            if left == 0 {
                return between_clicks(rng, kind, k, sort);
            }
            left -= 1;
            clipped(c.loud * (0.9 + 0.1 * rng.both()), 0.1 * c.loud * rng.both())
        })
        .collect();
    if kind == 12 {
        add_limits(rng, &mut xs);
    }
    assert!(xs.iter().all(|&x| guard::usable(x)));
    xs
}

/// How many blocks edition 2 of the pause rule pauses and edition 1 does not.
fn only_second(xs: &[Sample], fs: f64) -> u64 {
    let flags = impulse::flags(xs);
    let paused = |edition| impulse::paused(|_| edition, &flags, impulse::block_length(fs));
    let [first, second] = [Edition::First, Edition::Second].map(paused);
    first.iter().zip(second).filter(|&(&a, b)| !a && b).count() as u64
}

/// How many samples have a power within a millionth of the flag's limit.
fn near_ratio(xs: &[Sample]) -> u64 {
    let near = |j: &usize| {
        let limit = 144.0 * impulse::reference(xs, *j);
        limit > 0.0 && (power(xs[*j]) / limit - 1.0).abs() < 1e-6
    };
    let judged = xs.len().saturating_sub(impulse::HALF);
    (0..judged).filter(near).count() as u64
}

// ---- DC and IQ

/// The sizes of two parts whose norm is 1 or next to it: a power just above 1 has the norm 1.
fn full_scale(rng: &mut Rng) -> [f64; 2] {
    let whole = f64::from(rng.pick(&[1.0, 1f32.next_up(), 1f32.next_down()]));
    let small = rng.pick(&[0.0, 2.0, 3.0, 4.0]) * 2f64.powi(-27);
    let t = 1.6 * rng.unit();
    rng.pick(&[[whole, small], [small, whole], [t.cos(), t.sin()]])
}

/// Samples that, less the level, are at full scale, and lead the level back to 0.
fn at_full_scale(rng: &mut Rng, fs: f64, n: usize) -> Vec<Sample> {
    let back = |size: f64, level: f64| {
        if level > 0.0 {
            level - size
        } else {
            level + size
        }
    };
    let a = dc::weight(fs);
    let mut level = dc::FRESH;
    (0..n)
        .map(|_| {
            let [re, im] = full_scale(rng);
            let x = clipped(back(re, level.re), back(im, level.im));
            level = dc::moved(a, level, dc::blocked(level, x));
            x
        })
        .collect()
}

/// A carrier far above full scale that comes and goes: on the average it is there half of the time.
fn coming_and_going(rng: &mut Rng, n: usize) -> Vec<Sample> {
    let (a, b) = (0.3 * rng.both(), 0.3 * rng.both());
    let longest = rng.pick(&[1, 30, 2000]);
    let mut there = rng.once_in(2);
    let mut xs = Vec::new();
    while xs.len() < n {
        for _ in 0..rng.from(1, longest).min(n - xs.len()) {
            let t = 0.37 * xs.len() as f64;
            let r = if there { 4.0 + rng.unit() } else { 0.1 };
            xs.push(clipped(r * t.cos() + a, r * t.sin() + b));
        }
        there = !there;
    }
    xs
}

fn level(rng: &mut Rng, kind: usize, n: usize) -> Vec<Sample> {
    let (a, b) = (0.3 * rng.both(), 0.3 * rng.both());
    let lead = rng.below(n + 1);
    let size = 10f64.powi(rng.below(16) as i32);
    (0..n)
        .map(|k| {
            let quiet = clipped(0.1 * rng.both() + a, 0.1 * rng.both() + b);
            match kind {
                // A power above 1 on every sample.
                1 => {
                    let t = 0.37 * k as f64;
                    let r = 4.0 + size * (1.0 + 0.01 * rng.both());
                    clipped(r * t.cos() + a, r * t.sin() + b)
                }
                2 if k < lead => Sample::new(zero(rng), zero(rng)),
                3 if rng.once_in(50) => noise(rng, 1e6),
                4 => Sample::new(bits_within(rng, MOST), bits_within(rng, MOST)),
                5 => {
                    let re = f32::from_bits(rng.next() as u32 & 0x807f_ffff);
                    Sample::new(re, (1e-30 * rng.both()) as f32)
                }
                6 => Sample::new(zero(rng), zero(rng)),
                7 => {
                    let (t, r) = (3.2 * rng.both(), 1.0 + 1e-7 * rng.both());
                    clipped(r * t.cos(), r * t.sin())
                }
                _ => quiet,
            }
        })
        .collect()
}

fn dc_rate(rng: &mut Rng) -> f64 {
    let edges = [
        31.4,
        31.5,
        1f64.next_up(),
        1e7f64.next_down(),
        192_000.0,
        2_400_000.0,
    ];
    match rng.below(6) {
        0 => 1.0,
        1 => 1e7,
        2 => 48_000.0,
        3 => 1.0 + 30.0 * rng.unit(),
        4 => 10f64.powf(7.0 * rng.unit()).clamp(1.0, 1e7),
        _ => rng.pick(&edges),
    }
}

/// A part at the undos' limit of 1e18, next to it, or that is no number: an f32 has no 1e18 itself.
fn odd_part(rng: &mut Rng) -> f32 {
    let near = 1e18f32;
    let part = rng.pick(&[
        0.0,
        1.0,
        near.next_down(),
        near,
        near.next_up(),
        f32::MAX,
        f32::INFINITY,
        f32::NAN,
        f32::from_bits(0x7f80_0001),
        1e17,
        2e18,
    ]);
    part * rng.pick(&[1.0, -1.0])
}

/// A number at one of these edges, next to it, or that is none.
fn around(rng: &mut Rng, edges: &[f64]) -> f64 {
    let at = rng.pick(edges) * rng.pick(&[1.0, -1.0]);
    match rng.below(8) {
        0 => odd(rng),
        1 => 5e-324,
        2 => at.next_up(),
        3 => at.next_down(),
        _ => at,
    }
}

// ---- hops

fn channels(rng: &mut Rng, kind: usize, n: usize, carrier: usize) -> Vec<Sample> {
    let whole = noise(rng, 1.0);
    let mut xs: Vec<Sample> = (0..n)
        .map(|_| match kind {
            2 => whole,
            4 => Sample::new(zero(rng), zero(rng)),
            5 if rng.below(4) > 0 => Sample::new(zero(rng), zero(rng)),
            6 => Sample::new(bits_within(rng, 1e-30), bits_within(rng, 1e-38)),
            7 => noise(rng, 1e18),
            8 => Sample::new(bits_within(rng, 1e18), bits_within(rng, 1e18)),
            _ => noise(rng, 1.0),
        })
        .collect();
    for x in &mut xs {
        // A rounded product may pass the limit.
        if !(within(x.re) && within(x.im)) {
            *x = Sample::new(1.0, 1.0);
        }
    }
    match kind {
        1 => {
            let c = noise(rng, 900.0);
            xs[carrier] = Sample::new(c.re + 2000.0, c.im);
            let x = xs[carrier];
            xs[(n - carrier) % n] = Sample::new(0.05 * x.re, -0.05 * x.im);
        }
        3 => {
            for k in (2..n).step_by(2) {
                xs[k] = xs[k - 1];
            }
        }
        // The slowest to sort.
        9 => xs.sort_by(|a, b| power(*b).total_cmp(&power(*a))),
        _ => (),
    }
    xs
}

impl Drawing<'_> {
    fn alone(&mut self, stage: usize, mode: Mode) -> Setting {
        let mut s = some_setting(self.rng);
        let mut modes = [Mode::Off; 3];
        modes[stage] = mode;
        [s.impulse, s.dc, s.iq] = modes;
        if !self.rng.once_in(4) {
            (s.spans, s.repairs) = (256, 4096);
        }
        s
    }

    /// In calls of at most so many samples; log and state are read once in so many calls, and now and then the stores.
    fn fed(&mut self, xs: &[Sample], longest: usize, read: usize) {
        let mut at = 0;
        while at < xs.len() {
            let end = xs.len().min(at + self.rng.from(0, longest));
            self.call(words(&xs[at..end]), 1_000_000);
            at = end;
            if self.rng.once_in(read) {
                self.log();
                self.state();
            }
            if self.rng.once_in(40) {
                self.stores();
            }
        }
    }

    /// The impulse stage alone.
    pub fn impulse_signal(&mut self, kind: usize) {
        let inputs = if clicks(kind).length < 100 { 60 } else { 1 };
        self.digests = inputs == 1;
        for _ in 0..inputs {
            let mode = self
                .rng
                .pick(&[Mode::Apply, Mode::Apply, Mode::Apply, Mode::Observe]);
            let mut s = self.alone(0, mode);
            s.fs = clicks(kind).block;
            self.make(&s, 1_000_000);
            let xs = signal(self.rng, kind);
            if kind == 11 || kind == 12 {
                self.near_ratio += near_ratio(&xs);
            }
            if (kind == 2 || kind == 14) && s.edition == Edition::Second {
                self.only_second += only_second(&xs, s.fs);
            }
            let longest = self.rng.pick(&[1, 40, 700, 700, 3000]).max(xs.len() / 400);
            self.fed(&xs, longest, 40);
            self.log();
        }
    }

    /// DC alone, or IQ: the level is read behind the calls, and at the end what was released is undone.
    pub fn level_signals(&mut self, stage: usize, kind: usize) {
        for _ in 0..3 {
            self.level_signal(stage, kind);
        }
    }

    fn level_signal(&mut self, stage: usize, kind: usize) {
        let mode = if stage == 1 && self.rng.once_in(3) {
            Mode::Observe
        } else {
            Mode::Apply
        };
        let mut s = self.alone(stage, mode);
        s.fs = dc_rate(self.rng);
        let c = Calibration {
            gain: 0.5 + 1.5 * self.rng.unit(),
            phase: 45.0 * self.rng.both(),
            centre: 7e6,
        };
        (s.calibration, s.centre) = (Some(c), 7e6);
        self.make(&s, 1_000_000);
        let n = self.rng.from(1, 4000);
        let xs = if kind == AT_FULL_SCALE {
            at_full_scale(self.rng, s.fs, n)
        } else {
            level(self.rng, kind, n)
        };
        let longest = self.rng.pick(&[1, 2, 64, 1024, 4000]);
        self.fed(&xs, longest, 3);
        self.log();
        let ys = self.released.clone();
        let o = match self.machine.coefficient() {
            Some(rho) if stage == 2 => {
                Operation::new(IQ_UNDO, &[rho.re.to_bits(), rho.im.to_bits()], ys)
            }
            _ => Operation::new(DC_UNDO, &[s.fs.to_bits(), ys.len() as u64], ys),
        };
        self.add(o);
    }

    /// A chain of any kind whose DC stage runs, on a carrier that comes and goes; refused calls and hops between its calls, and no
    /// other chain.
    pub fn carrier(&mut self, kind: usize) {
        self.digests = true;
        let mut s = some_setting(self.rng);
        s.dc = [Mode::Observe, Mode::Apply][kind];
        self.make(&s, 1_000_000);
        let n = self.rng.from(8_000, 24_000);
        let xs = coming_and_going(self.rng, n);
        let block = self.rng.pick(&[1, 7, 64, 1024, 4000]);
        for part in xs.chunks(block) {
            self.call(words(part), 200);
            match self.rng.below(60) {
                0 => self.odd_call(),
                1 => self.hop(30),
                2 => self.log(),
                _ => (),
            }
        }
    }

    /// The undos of DC and IQ on odd parts, rates, lengths and coefficients.
    pub fn odd_undos(&mut self) {
        let below = (1.0f64 - 1e-12).sqrt();
        let numbers = [
            0.0,
            0.5,
            below,
            below.next_down(),
            below.next_up(),
            1.0,
            1e200,
            f64::NAN,
            f64::INFINITY,
        ];
        let s = some_setting(self.rng);
        self.make(&s, 1_000_000);
        for _ in 0..600 {
            let rng = &mut *self.rng;
            let n = rng.below(4);
            let mut ys = level(rng, 0, n);
            for _ in 0..rng.below(3).min(n) {
                let place = rng.below(n);
                ys[place] = Sample::new(odd_part(rng), odd_part(rng));
            }
            let ys = words(&ys);
            if rng.once_in(2) {
                let fs = around(rng, &[1.0, 1e7, 48_000.0]).to_bits();
                let room = if rng.once_in(3) { rng.below(4) } else { n } as u64;
                self.add(Operation::new(DC_UNDO, &[fs, room], ys));
            } else {
                let t = 3.2 * rng.both();
                let near_one = [0.999_999_9 * t.cos(), 0.999_999_9 * t.sin()];
                let edges = [rng.pick(&numbers), rng.pick(&numbers)];
                let rho = rng.pick(&[near_one, edges, edges, [edges[0], 0.0]]);
                self.add(Operation::new(IQ_UNDO, &rho.map(f64::to_bits), ys));
            }
        }
    }

    /// Calibrations at their limits, and what a chain settles with them.
    pub fn calibrations(&mut self) {
        for _ in 0..400 {
            let rng = &mut *self.rng;
            let mut c = Calibration {
                gain: 0.5 + 1.5 * rng.unit(),
                phase: 45.0 * rng.both(),
                centre: 1e9 * rng.unit(),
            };
            if rng.once_in(2) {
                c.gain = around(rng, &[0.5, 1.0, 2.0]);
                c.phase = around(rng, &[1.0, 45.0]);
                c.centre = around(rng, &[7e6]);
            }
            let args = [c.gain, c.phase, c.centre].map(f64::to_bits);
            self.add(Operation::new(VALIDATE, &args, vec![]));
            let rng = &mut *self.rng;
            let off = [0.0, 1.0, -1.0, 1.5, -1.5, 1f64.next_up(), 0.5, f64::NAN];
            let centre = match rng.below(8) {
                0 => odd(rng),
                1 => (c.centre + 1.0).next_up(),
                _ => c.centre + rng.pick(&off),
            };
            let mode = rng.pick(&[Mode::Observe, Mode::Apply, Mode::Apply]);
            let mut s = self.alone(2, mode);
            s.centre = centre;
            s.calibration = (!self.rng.once_in(10)).then_some(c);
            self.make(&s, 1_000_000);
            self.log();
        }
    }

    /// The monitor alone: windows of one hop to some thirty, mostly of few channels.
    pub fn hop_signals(&mut self, kind: usize) {
        for _ in 0..2 {
            self.hop_signal(kind);
        }
    }

    fn hop_signal(&mut self, kind: usize) {
        let rng = &mut *self.rng;
        let n = match rng.below(50) {
            _ if kind == 9 && rng.once_in(3) => rng.from(512, 2048),
            0 => rng.from(1024, 2048),
            1 | 2 => rng.from(512, 1023),
            3..=10 => rng.from(64, 511),
            _ => rng.from(8, 63),
        };
        let mut s = self.alone(2, Mode::Observe);
        let rng = &mut *self.rng;
        s.n = n;
        s.fs = match rng.below(6) {
            0 => 1.0,
            1 => 1e7,
            _ => 1.0 + 2.0 * n as f64 * rng.unit(),
        };
        let carrier = rng.below(n);
        let hops = rng.from(20, 220).min(20 + 20_000 / n);
        let far = rng.once_in(8);
        self.make(&s, 1_000_000);
        for i in 0..hops {
            let xs = channels(self.rng, kind, n, carrier);
            let gap = match self.rng.below(8) {
                0 => self.rng.below(50) as u64,
                1 if i == 0 && far => TOTAL - (hops * (n + 60)) as u64,
                _ => 0,
            };
            let start = self.machine.end() + gap;
            self.one_hop(start, xs);
            if self.rng.once_in(6) {
                self.state();
                self.stores();
            }
        }
    }

    /// One hop of a signal; once in ten at another start, with a bad channel, or of another length.
    fn one_hop(&mut self, start: u64, mut xs: Vec<Sample>) {
        let s = self.setting();
        let rng = &mut *self.rng;
        let mut start = start;
        match rng.below(40) {
            0 => start = self.machine.end().wrapping_sub(rng.from(1, 9) as u64),
            1 => start = TOTAL + rng.from(1, 9) as u64,
            2 => {
                for _ in 0..rng.from(1, 3) {
                    let place = rng.below(xs.len());
                    let bad = rng.pick(&[f32::NAN, f32::INFINITY, 1.1e18, -1.1e18, f32::MAX]);
                    if rng.once_in(2) {
                        xs[place].re = bad;
                    } else {
                        xs[place].im = bad;
                    }
                }
            }
            3 if rng.once_in(2) => xs.push(xs[0]),
            3 => xs.truncate(rng.below(xs.len())),
            _ => (),
        }
        let lent = [start, 24 * s.spans as u64, 4 * s.n as u64];
        self.add(Operation::new(HOP, &lent, words(&xs)));
    }
}
