//! Random settings, samples, hops and cuttings: what the tests and the comparisons draw from.

use crate::rules::monitor::{self, Hop};
use crate::rules::{guard, impulse, refusals, Calibration, Edition, Mode, Sample, Setting};

/// A xorshift generator: the same numbers for the same seed, everywhere.
pub struct Rng(u64);

impl Rng {
    pub fn new(seed: u64) -> Self {
        let mut rng = Rng(seed.wrapping_mul(0x9e37_79b9_7f4a_7c15) | 1);
        for _ in 0..8 {
            rng.next();
        }
        rng
    }

    pub fn next(&mut self) -> u64 {
        self.0 ^= self.0 >> 12;
        self.0 ^= self.0 << 25;
        self.0 ^= self.0 >> 27;
        self.0.wrapping_mul(0x2545_f491_4f6c_dd1d)
    }

    /// A number below `n`.
    pub fn below(&mut self, n: usize) -> usize {
        ((u128::from(self.next()) * n as u128) >> 64) as usize
    }

    /// A number from `a` to `b`, both among them.
    pub fn from(&mut self, a: usize, b: usize) -> usize {
        a + self.below(b - a + 1)
    }

    /// A number in 0..1.
    pub fn unit(&mut self) -> f64 {
        (self.next() >> 11) as f64 / (1u64 << 53) as f64
    }

    /// A number in −1..1.
    pub fn both(&mut self) -> f64 {
        2.0 * self.unit() - 1.0
    }

    /// True once in `n` on the average.
    pub fn once_in(&mut self, n: usize) -> bool {
        self.below(n) == 0
    }

    pub fn pick<T: Clone>(&mut self, of: &[T]) -> T {
        of[self.below(of.len())].clone()
    }
}

// ---- settings

pub fn modes(rng: &mut Rng) -> [Mode; 3] {
    loop {
        let mode = [Mode::Off, Mode::Observe, Mode::Apply, Mode::Apply];
        let modes = [rng.pick(&mode), rng.pick(&mode), rng.pick(&mode)];
        if modes != [Mode::Off; 3] {
            return modes;
        }
    }
}

pub fn rate(rng: &mut Rng) -> f64 {
    match rng.below(6) {
        0 => rng.pick(&[1.0, 1.5, 2.5, 7.5, 20.0, 48.0, 1000.0]),
        1 => rng.pick(&[1.4999999999999998, 999.5, 1000.4, 2000.0, 3000.0, 1e7]),
        2 => 1.0 + 99.0 * rng.unit(),
        3 => 10f64.powf(7.0 * rng.unit()).clamp(1.0, 1e7),
        4 => rng.pick(&[8000.0, 11025.0, 44100.0, 48000.0, 192000.0, 2.4e6]),
        _ => rng.from(1, 60) as f64,
    }
}

/// A value near the limit `at`: there, one place below or above, or some way off.
pub fn near(rng: &mut Rng, at: f64) -> f64 {
    match rng.below(4) {
        0 => at,
        1 => at.next_up(),
        2 => at.next_down(),
        _ => at + 0.01 * rng.both(),
    }
}

pub fn odd(rng: &mut Rng) -> f64 {
    rng.pick(&[
        f64::NAN,
        f64::INFINITY,
        f64::NEG_INFINITY,
        0.0,
        -0.0,
        -1.0,
        f64::MIN_POSITIVE,
        f64::MAX,
    ])
}

pub fn some_calibration(rng: &mut Rng) -> Calibration {
    let mut c = Calibration {
        gain: 0.5 + 1.5 * rng.unit(),
        phase: 45.0 * rng.both(),
        centre: 1e8 * rng.unit() + 1.0,
    };
    match rng.below(12) {
        0 => {
            let limit = rng.pick(&[0.5, 1.0, 2.0]);
            c.gain = near(rng, limit);
        }
        1 => {
            let limit = rng.pick(&[-45.0, 0.0, 45.0]);
            c.phase = near(rng, limit);
        }
        2 => c.centre = rng.pick(&[1.0, 0.5, 1e300, 5e-324, 2f64.powi(53)]),
        3 => c.gain = odd(rng),
        4 => c.phase = odd(rng),
        5 => c.centre = odd(rng),
        6 => (c.gain, c.phase) = (1.0, rng.pick(&[0.0, -0.0])),
        7 => (c.gain, c.phase) = (rng.pick(&[0.5, 2.0]), rng.pick(&[-45.0, 45.0])),
        _ => (),
    }
    c
}

/// A receiver centre: mostly at or near the calibrated one.
pub fn receiver_centre(rng: &mut Rng, c: Option<Calibration>) -> f64 {
    let at = c.map_or(1e6, |c| c.centre);
    match rng.below(8) {
        0 => at + 1.0,
        1 => at - 1.0,
        2 => at + rng.pick(&[1.5, -1.5, 1.0000001, -1.0000001]),
        3 => odd(rng),
        4 => at + 2.0 * rng.both(),
        _ => at,
    }
}

pub fn some_edition(rng: &mut Rng) -> Edition {
    rng.pick(&[Edition::First, Edition::Second])
}

pub fn some_setting(rng: &mut Rng) -> Setting {
    let [impulse, dc, iq] = modes(rng);
    let calibration = (!rng.once_in(6)).then(|| some_calibration(rng));
    Setting {
        fs: rate(rng),
        centre: receiver_centre(rng, calibration),
        n: if rng.once_in(8) {
            rng.below(8)
        } else {
            rng.from(8, 64)
        },
        impulse,
        dc,
        iq,
        edition: some_edition(rng),
        calibration,
        spans: rng.pick(&[1, 2, 3, 5, 256, 256]),
        repairs: rng.pick(&[1, 2, 3, 7, 4096, 4096]),
    }
}

// ---- samples

pub const MOST: f32 = 1.0e17;

pub fn clipped(re: f64, im: f64) -> Sample {
    let clip = |part: f64| (part as f32).clamp(-MOST, MOST);
    Sample::new(clip(re), clip(im))
}

/// A ground of `n` samples, of one kind.
pub fn ground(rng: &mut Rng, n: usize) -> Vec<Sample> {
    let kind = rng.below(11);
    let size = 10f64.powf(rng.both() * 5.0);
    let turn = 7.0 * rng.unit();
    (0..n)
        .map(|k| match kind {
            0 => Sample::new(1.0, 0.0),
            1 => clipped(rng.both(), rng.both()),
            2 => clipped(size * rng.both(), size * rng.both()),
            3 => {
                let t = turn * k as f64;
                clipped(
                    size * t.cos() + 0.01 * rng.both(),
                    size * t.sin() + 0.01 * rng.both(),
                )
            }
            4 => Sample::new(rng.pick(&[0.0, -0.0]), rng.pick(&[0.0, -0.0])),
            5 => Sample::new(
                f32::from_bits(rng.next() as u32 & 0x807f_ffff),
                f32::from_bits(rng.next() as u32 & 0x807f_ffff),
            ),
            6 => clipped(
                1e17 * rng.pick(&[1.0, -1.0, 0.9, 0.99999]),
                1e17 * rng.both(),
            ),
            7 => {
                let scale = 10f64.powf(62.0 * rng.unit() - 45.0);
                clipped(scale * rng.both(), scale * rng.both())
            }
            8 => Sample::new(rng.from(0, 3) as f32, rng.from(0, 3) as f32),
            9 => Sample::new(rng.pick(&[0.5, -0.5, 0.25, 0.0]), 0.0),
            _ => Sample::new(
                f32::from_bits(0x1a00_0000 + (rng.next() as u32 & 0x00ff_ffff)),
                0.0,
            ),
        })
        .collect()
}

/// Runs of stronger samples, dense or sparse, of lengths 1 to 8.
pub fn add_clicks(rng: &mut Rng, xs: &mut [Sample]) {
    let one_in = rng.pick(&[6, 12, 30, 30, 60, 200]);
    let longest = rng.pick(&[1, 2, 4, 4, 5, 8]);
    let mut k = if rng.once_in(4) {
        0
    } else {
        rng.below(2 * one_in)
    };
    while k < xs.len() {
        let len = rng.from(1, longest);
        let factor = rng.pick(&[12.0, 13.0, 20.0, 100.0, 100.0, 1e4, 1e9]);
        let alike = rng.once_in(2);
        for x in xs.iter_mut().skip(k).take(len) {
            *x = if alike {
                clipped(factor, 0.0)
            } else {
                clipped(
                    factor * (f64::from(x.re) + 0.3 * rng.both()),
                    factor * (f64::from(x.im) + 0.3 * rng.both()),
                )
            };
        }
        k += len + rng.from(1, 2 * one_in);
    }
}

/// Single samples whose power stands at the flag's limit, or a place or two off.
pub fn add_limits(rng: &mut Rng, xs: &mut [Sample]) {
    let mut j = rng.below(20);
    while j + impulse::HALF < xs.len() {
        xs[j] = Sample::new(MOST, 0.0);
        let limit = (144.0 * impulse::reference(xs, j)).sqrt() as f32;
        let off = rng.from(0, 4) as u32;
        let re = f32::from_bits((limit.to_bits() + 2).saturating_sub(off));
        xs[j] = Sample::new(re.min(MOST), 0.0);
        j += rng.from(1, 50);
    }
}

pub fn some_samples(rng: &mut Rng, n: usize) -> Vec<Sample> {
    let mut xs = Vec::new();
    while xs.len() < n {
        let part = if rng.once_in(3) {
            rng.from(1, 60).min(n - xs.len())
        } else {
            n - xs.len()
        };
        xs.extend(ground(rng, part));
    }
    match rng.below(6) {
        0 => (),
        1 => add_limits(rng, &mut xs),
        _ => add_clicks(rng, &mut xs),
    }
    assert!(xs.iter().all(|&x| guard::usable(x)));
    xs
}

// ---- hops

/// What a hop was made to meet.
#[derive(Debug, PartialEq)]
pub enum Meant {
    Accepted,
    Nothing,
    Nine,
    Seven(usize),
}

pub fn some_channels(rng: &mut Rng, n: usize) -> Vec<Sample> {
    let kind = rng.below(8);
    let huge = 999_999_984_306_749_440_f32; // the greatest f32 within 1e18
    let mut channels: Vec<Sample> = (0..n)
        .map(|_| match kind {
            0 => Sample::new(1.0, 0.0),
            1 => Sample::new(rng.pick(&[0.0, -0.0]), rng.pick(&[0.0, -0.0])),
            2 => clipped(1e-3 * rng.both(), 1e-3 * rng.both()),
            3 => Sample::new(
                f32::from_bits(rng.next() as u32 & 0x80ff_ffff),
                f32::from_bits(rng.next() as u32 & 0x80ff_ffff),
            ),
            4 => Sample::new(rng.pick(&[huge, -huge, 1.0]), rng.pick(&[huge, 0.0, -0.0])),
            5 => rng.pick(&[
                Sample::new(1.0, 0.0),
                Sample::new(1.0, 0.0),
                Sample::new(30.0, 10.0),
                Sample::new(2.0, 0.0),
            ]),
            _ => clipped(0.1 * rng.both(), 0.1 * rng.both()),
        })
        .collect();
    // A strong channel and a weaker or equal mirror.
    if n >= 12 && rng.below(3) > 0 {
        let k = rng.from(3, n - 3);
        let strong = rng.pick(&[31.0, 32.0, 100.0, 1e4]);
        channels[k] = clipped(strong * rng.both(), strong);
        let weak = rng.pick(&[2.0, 3.0, 10.0, strong]);
        channels[(n - k) % n] = clipped(weak * rng.both(), weak);
        if rng.once_in(3) {
            channels[(n - k) % n] = channels[k];
        }
    }
    channels
}

/// A hop after `end`, the end of the last accepted one, and what it should meet.
pub fn some_hop(rng: &mut Rng, s: &Setting, end: u64) -> (Hop, Meant) {
    let window = monitor::window_length(s.fs);
    let mut start = match rng.below(12) {
        0..=6 => end,
        7 => end + rng.below(10) as u64,
        8 => end + rng.below(window as usize + 1) as u64,
        9 => end + rng.below(3 * window as usize) as u64,
        10 if rng.once_in(20) => end + (rng.next() >> 20),
        11 if rng.once_in(40) => refusals::TOTAL.max(end),
        _ => end,
    };
    let mut n = s.n;
    let mut meant = Meant::Accepted;
    match rng.below(25) {
        0 if end > 0 => (start, meant) = (rng.below(end as usize) as u64, Meant::Nine),
        1 => (start, meant) = (refusals::TOTAL + 1 + (rng.next() >> 17), Meant::Nine),
        2 => n = rng.pick(&[n + 1, n / 2, 0, 3 * n]),
        _ if start > refusals::TOTAL => meant = Meant::Nine,
        _ => (),
    }
    let mut channels = some_channels(rng, n);
    if n > 0 && rng.once_in(25) {
        let place = rng.below(n);
        let bad = rng.pick(&[f32::NAN, f32::INFINITY, -f32::INFINITY, 1.0000001e18, -2e18]);
        if rng.once_in(2) {
            channels[place].re = bad;
        } else {
            channels[place].im = bad;
        }
        if meant == Meant::Accepted {
            meant = Meant::Seven(place);
        }
    }
    if s.iq == Mode::Off || n != s.n || n < 8 {
        meant = Meant::Nothing;
    }
    (Hop { start, channels }, meant)
}

/// A part: anything at all, unusable parts among it.
pub fn anything(rng: &mut Rng) -> f32 {
    match rng.below(6) {
        0 => f32::from_bits(rng.next() as u32),
        1 => rng.pick(&[
            f32::NAN,
            f32::INFINITY,
            f32::NEG_INFINITY,
            MOST,
            -MOST,
            MOST.next_up(),
            -MOST.next_up(),
        ]),
        _ => rng.both() as f32,
    }
}

// ---- cuttings

/// Lengths of calls that add up to `n`.
pub fn cutting(rng: &mut Rng, n: usize) -> Vec<usize> {
    let longest = rng.pick(&[1, 2, 5, 22, 40, 200, n.max(1)]);
    let mut left = n;
    let mut lengths = Vec::new();
    while left > 0 {
        let len = match rng.below(6) {
            0 => 0,
            1 => 1,
            _ => rng.from(0, longest),
        }
        .min(left);
        left -= len;
        lengths.push(len);
    }
    if rng.once_in(2) {
        lengths.push(0);
    }
    lengths
}
