//! Random cases: lists of operations over one chain, drawn so that every answer is met.

pub mod hard;

use oracle::draw::*;
use oracle::rules::{Calibration, Mode, Sample, Setting};
use oracle::trace::machine::{setting_words, Machine};
use oracle::trace::*;

/// Operations, and the oracle's answers.
pub type List = Vec<(Operation, Answer)>;

/// What a case is of: a stage, and the number of the signal that it was given, or of the DC stage's mode.
#[derive(Clone, Copy, PartialEq, Eq, PartialOrd, Ord)]
pub enum Kind {
    Any,
    Impulse(usize),
    Dc(usize),
    Iq(usize),
    Hops(usize),
    Carrier(usize),
    OddUndos,
    Calibrations,
}

/// A case: operations, the first of which makes a chain.
pub struct Case {
    pub kind: Kind,
    pub list: List,
    /// How many samples were seen to have a power near the flag's limit, where that was looked for.
    pub near_ratio: u64,
    /// How many blocks only edition 2 of the pause rule pauses, where a chain has it and that was looked for.
    pub only_second: u64,
}

/// A case that is being drawn, with the oracle's chain beside it.
struct Drawing<'a> {
    rng: &'a mut Rng,
    machine: &'a mut Machine,
    case: List,
    /// Whether slices and stores are answered by digests.
    digests: bool,
    /// What was released, for the undos.
    released: Vec<u64>,
    near_ratio: u64,
    only_second: u64,
}

fn words(xs: &[Sample]) -> Vec<u64> {
    xs.iter().map(|x| x.word()).collect()
}

/// Lengths that are lent: as the setting asks, but `odd` one in so many times.
fn lent(rng: &mut Rng, right: usize, odd: usize) -> u64 {
    if !rng.once_in(odd) {
        return right as u64;
    }
    match rng.below(6) {
        0 => 0,
        1 => right as u64 + 1,
        2 => right.saturating_sub(1) as u64,
        3 => 2 * right as u64,
        4 => rng.next() >> rng.below(64),
        _ => right as u64 / 2,
    }
}

/// A sample that is not usable.
fn unusable(rng: &mut Rng) -> Sample {
    loop {
        let x = Sample::new(anything(rng), anything(rng));
        if !oracle::rules::guard::usable(x) {
            return x;
        }
    }
}

/// Any words for samples: usable mostly.
fn any_words(rng: &mut Rng, n: usize) -> Vec<u64> {
    match rng.below(4) {
        0 => (0..n).map(|_| rng.next()).collect(),
        1 => (0..n)
            .map(|_| Sample::new(anything(rng), anything(rng)).word())
            .collect(),
        2 => {
            let mut xs = words(&some_samples(rng, n));
            if n > 0 {
                let place = rng.below(n);
                xs[place] = unusable(rng).word();
            }
            xs
        }
        _ => words(&some_samples(rng, n)),
    }
}

/// A configuration's words; now and then edition 1 is said by another number.
fn any_edition(rng: &mut Rng, mut words: Vec<u64>) -> Vec<u64> {
    if words[12] == 1 && rng.once_in(4) {
        words[12] = rng.pick(&[0, 3, u64::MAX]);
    }
    words
}

impl Drawing<'_> {
    /// Adds an operation, unless the oracle has no answer to it.
    fn add(&mut self, mut o: Operation) {
        if self.digests {
            o = o.digested();
        }
        if let Ok(answer) = self.machine.answer(&o) {
            self.keep(&answer);
            self.case.push((o, answer));
        }
    }

    fn setting(&self) -> Setting {
        self.machine.setting().clone()
    }

    // ---- making

    fn make(&mut self, s: &Setting, odd: usize) {
        let rng = &mut *self.rng;
        let spans = lent(rng, 24 * s.spans, odd);
        let repairs = lent(rng, 6 * s.repairs, odd);
        let monitor = lent(rng, 4 * s.n, odd);
        let words = any_edition(rng, setting_words(s));
        self.add(Operation::new(MAKE, &[spans, repairs, monitor], words));
    }

    /// A making that is mostly refused.
    fn odd_make(&mut self) {
        let rng = &mut *self.rng;
        let mut s = some_setting(rng);
        match rng.below(6) {
            0 => (s.impulse, s.dc, s.iq) = (Mode::Off, Mode::Off, Mode::Off),
            1 => s.fs = odd(rng),
            2 => {
                let limit = rng.pick(&[1.0, 1e7]);
                s.fs = near(rng, limit);
            }
            3 => s.n = rng.pick(&[2049, 4096, 2048, usize::MAX]),
            4 => s.spans = rng.pick(&[0, 257, usize::MAX]),
            _ => s.repairs = rng.pick(&[0, 4097, usize::MAX]),
        }
        let args = [(24, s.spans), (6, s.repairs), (4, s.n)];
        let args = args.map(|(size, count)| (count as u64).wrapping_mul(size));
        self.add(Operation::new(MAKE, &args, setting_words(&s)));
    }

    // ---- calls

    fn lent_to_call(&mut self, odd: usize) -> [u64; 2] {
        let s = self.setting();
        let spans = lent(self.rng, 24 * s.spans, odd);
        [spans, lent(self.rng, 6 * s.repairs, odd)]
    }

    fn call(&mut self, new: Vec<u64>, odd: usize) {
        let [spans, repairs] = self.lent_to_call(odd);
        let (front, new) = match self.rng.below(8) {
            // The held places in the words themselves.
            0 => {
                let held = self.machine.held();
                let filled: Vec<u64> = (0..held).map(|_| self.rng.next()).chain(new).collect();
                (0, filled)
            }
            _ => (AS_HELD, new),
        };
        self.add(Operation::new(CALL, &[spans, repairs, front], new));
    }

    /// What an accepted call released, where it was answered in full.
    fn keep(&mut self, a: &Answer) {
        if self.machine.seen() == 0 {
            self.released.clear();
        }
        if a.front[0] == CALL && a.front[1] == 0 && !self.digests && self.released.len() < 3000 {
            self.released.extend(&a.words[..a.front[2] as usize]);
        }
    }

    /// A call that is mostly refused: by 6, 7 or 8, or its state by 5.
    fn odd_call(&mut self) {
        let [spans, repairs] = self.lent_to_call(20);
        let held = self.machine.held();
        let rng = &mut *self.rng;
        let n = rng.below(40);
        let o = match rng.below(4) {
            0 => {
                let front = rng.below(held + 1) as u64;
                let n = rng.below(3).min(held);
                let new = any_words(rng, n);
                Operation::new(CALL, &[spans, repairs, front], new)
            }
            1 => {
                let mut xs = words(&some_samples(rng, n + 1));
                for _ in 0..rng.from(1, 3) {
                    let place = rng.below(n + 1);
                    xs[place] = unusable(rng).word();
                }
                Operation::new(CALL, &[spans, repairs, AS_HELD], xs)
            }
            2 => {
                // At the limit, and past it; a sample that is not usable is refused behind 8.
                let mut xs = words(&some_samples(rng, n + 1));
                let past = rng.pick(&[0, 0, 1, 2, 1 << 20, 1 << 51]);
                let seen = (1u64 << 48) + past - xs.len() as u64;
                if past == 0 || rng.once_in(2) {
                    let place = rng.below(n + 1);
                    xs[place] = unusable(rng).word();
                }
                Operation::new(CALL, &[spans, repairs, AS_HELD, seen], xs)
            }
            _ => {
                let seen = (1 << 52) + rng.from(0, 3) as u64;
                let xs = any_words(rng, n);
                Operation::new(CALL, &[spans, repairs, AS_HELD, seen], xs)
            }
        };
        self.add(o);
    }

    // ---- hops

    fn hop(&mut self, odd: usize) {
        let s = self.setting();
        let (hop, _) = some_hop(self.rng, &s, self.machine.end());
        let spans = lent(self.rng, 24 * s.spans, odd);
        let monitor = lent(self.rng, 4 * s.n, odd);
        let mut channels = words(&hop.channels);
        channels.truncate(WORDS);
        self.add(Operation::new(HOP, &[hop.start, spans, monitor], channels));
    }

    // ---- words that their owner writes

    /// A word of a store is written, operations follow, and the word is written back.
    fn written(&mut self) {
        let s = self.setting();
        let store = match self.rng.below(3) {
            1 if self.machine.repair_ring().held == 0 => 0,
            any => any,
        };
        let size = [24 * s.spans, 6 * s.repairs, 4 * s.n][store];
        let used = match store {
            // Near the newest span of a ring that holds one, mostly.
            0 => {
                let which = self.rng.below(12);
                let ring = &self.machine.ring(which).ring;
                let newest = (ring.head + ring.held.max(1) - 1) % s.spans;
                which * 2 * s.spans + 2 * newest + self.rng.below(2)
            }
            1 => {
                let ring = self.machine.repair_ring();
                let at = (ring.head + self.rng.below(ring.held.max(1))) % s.repairs;
                6 * at + self.rng.below(3)
            }
            _ => self.rng.below(size + 1),
        };
        let place = if self.rng.once_in(6) {
            self.rng.below(size + 4)
        } else {
            used
        } as u64;
        let word = match store {
            0 => self.rng.pick(&[
                0,
                1 << 49,
                (1 << 49) + 1,
                u64::MAX,
                1 << 63,
                (1 << 49) - 1000,
                7,
            ]),
            // A length at its limits, or a start.
            1 if place % 6 == 1 => self.rng.pick(&[0, 1, 4, 5, u64::MAX]),
            1 => self.rng.pick(&[0, 1 << 48, (1 << 48) + 1, u64::MAX, 3]),
            _ => {
                let limit = self.rng.pick(&[1e60, -1e60]);
                let near = near(self.rng, limit);
                let any = odd(self.rng);
                let small = self.rng.both();
                self.rng.pick(&[near, any, small, -0.0]).to_bits()
            }
        };
        let before = self.word_of(store, place);
        self.add(Operation::new(WRITE, &[store as u64, place, word], vec![]));
        match store {
            0 => self.call(vec![], 20),
            1 => self.undo(),
            _ => self.hop(20),
        }
        for _ in 0..self.rng.below(3) {
            self.chain_step(20);
        }
        if !self.rng.once_in(8) {
            self.add(Operation::new(
                WRITE,
                &[store as u64, place, before],
                vec![],
            ));
        }
    }

    /// A word of a store as the oracle has it.
    fn word_of(&mut self, store: usize, place: u64) -> u64 {
        let mut args = [0; 3];
        args[store] = place + 1;
        let o = Operation::new(STORES, &args, vec![]);
        let answer = self.machine.answer(&o).expect("stores are answered");
        answer.words.last().copied().unwrap_or(0)
    }

    // ---- reading and undoing

    fn log(&mut self) {
        self.add(Operation::new(LOG, &[], vec![]));
    }

    fn state(&mut self) {
        self.add(Operation::new(STATE, &[], vec![]));
    }

    fn stores(&mut self) {
        let s = self.setting();
        let sizes = [24 * s.spans, 6 * s.repairs, 4 * s.n];
        let args = sizes.map(|n| lent(self.rng, n, 12));
        let small = sizes.iter().sum::<usize>() < 400;
        let o = Operation::new(STORES, &args, vec![]);
        if small && self.rng.once_in(2) {
            self.add(o);
        } else {
            self.add(o.digested());
        }
    }

    fn span(&mut self) {
        let s = self.setting();
        let mut which = self.rng.below(12);
        for _ in 0..12 {
            if self.machine.ring(which).ring.held == 0 && !self.rng.once_in(40) {
                which = (which + 1) % 12;
            }
        }
        let held = self.machine.ring(which).ring.held;
        let i = if self.rng.once_in(20) {
            self.rng.next() as usize
        } else {
            self.rng.below(held + 2)
        };
        let spans = lent(self.rng, 24 * s.spans, 15);
        let args = [which as u64 / 4, which as u64 % 4, i as u64, spans];
        self.add(Operation::new(SPAN, &args, vec![]));
    }

    fn undo(&mut self) {
        let s = self.setting();
        let released = self.released.len();
        let a = self.rng.from(0, released);
        let b = self.rng.from(a, released.min(a + WORDS));
        let slice = match self.rng.below(4) {
            0 => {
                let n = self.rng.below(60);
                any_words(self.rng, n)
            }
            _ => self.released[a..b].to_vec(),
        };
        let first = match self.rng.below(6) {
            0 => self.rng.below(40) as u64,
            1 => u64::MAX - self.rng.below(40) as u64,
            2 => self
                .machine
                .seen()
                .saturating_sub(self.rng.below(80) as u64),
            _ => a as u64,
        };
        let repairs = lent(self.rng, 6 * s.repairs, 12);
        self.add(Operation::new(UNDO, &[first, repairs], slice));
    }

    fn dc_undo(&mut self) {
        let rng = &mut *self.rng;
        let n = rng.below(120);
        let mut ys = if rng.once_in(3) {
            any_words(rng, n)
        } else {
            words(&some_samples(rng, n))
        };
        if rng.once_in(3) && !self.released.is_empty() {
            let most = self.released.len().min(WORDS);
            ys = self.released[..most].to_vec();
        }
        let fs = match rng.below(10) {
            0 => odd(rng),
            1 => {
                let limit = rng.pick(&[1.0, 1e7]);
                near(rng, limit)
            }
            2 => rate(rng),
            _ => self.machine.setting().fs,
        };
        let out = lent(rng, ys.len(), 10).min((WORDS + HELD) as u64);
        self.add(Operation::new(DC_UNDO, &[fs.to_bits(), out], ys));
    }

    fn iq_undo(&mut self) {
        let rng = &mut *self.rng;
        let (mut re, mut im) = (rng.both(), rng.both());
        match rng.below(6) {
            0 => {
                im = 0.0;
                re = near(rng, (1.0_f64 - 1e-12).sqrt());
            }
            1 => re = odd(rng),
            2 => im = odd(rng),
            3 => (re, im) = (0.5 * re, 0.5 * im),
            _ => (),
        }
        if let Some(rho) = self.machine.coefficient() {
            if rng.once_in(2) {
                (re, im) = (rho.re, rho.im);
            }
        }
        let n = rng.below(80);
        let ys = if rng.once_in(3) {
            any_words(rng, n)
        } else {
            words(&some_samples(rng, n))
        };
        self.add(Operation::new(IQ_UNDO, &[re.to_bits(), im.to_bits()], ys));
    }

    fn guard(&mut self) {
        let n = self.rng.below(80);
        let xs = any_words(self.rng, n);
        self.add(Operation::new(GUARD, &[], xs));
    }

    fn validate(&mut self) {
        let c = some_calibration(self.rng);
        let args = [c.gain, c.phase, c.centre].map(f64::to_bits);
        self.add(Operation::new(VALIDATE, &args, vec![]));
    }

    fn config(&mut self) {
        let mut s = some_setting(self.rng);
        if self.rng.once_in(3) {
            s.impulse = Mode::Off;
            s.dc = Mode::Off;
        }
        if self.rng.once_in(3) {
            s.iq = Mode::Off;
        }
        let words = any_edition(self.rng, setting_words(&s));
        self.add(Operation::new(CONFIG, &[], words));
    }

    /// An operation that takes a state or a store.
    fn chain_step(&mut self, odd: usize) {
        match self.rng.below(8) {
            0 => self.hop(odd),
            1 => self.undo(),
            2 => self.span(),
            3 => self.odd_call(),
            4 => self.log(),
            5 => self.stores(),
            6 if self.rng.once_in(4) => self.hop(odd),
            _ => {
                let n = self.rng.below(30);
                let xs = words(&some_samples(self.rng, n));
                self.call(xs, odd);
            }
        }
    }

    /// Something between two calls.
    fn between(&mut self) {
        match self.rng.below(20) {
            0..=3 => self.log(),
            4 | 5 => self.state(),
            6 => self.stores(),
            7 => self.span(),
            8 => self.undo(),
            9 => self.dc_undo(),
            10 => self.iq_undo(),
            11 => self.guard(),
            12 => self.validate(),
            13 => self.config(),
            14 => self.odd_make(),
            15 | 16 => self.odd_call(),
            17 => self.written(),
            _ => self.hop(30),
        }
    }

    /// At the end everything is read.
    fn end(&mut self) {
        self.log();
        self.state();
        self.stores();
        for _ in 0..3 {
            self.span();
        }
        self.undo();
    }
}

/// Calls of `xs`, cut into blocks, with other operations between them.
fn streamed(d: &mut Drawing, xs: &[Sample], lengths: &[usize], each: usize, hops: usize) {
    let mut at = 0;
    let mut hops = hops;
    for &len in lengths {
        for part in
            xs[at..at + len]
                .chunks(WORDS - 21)
                .chain(if len == 0 { Some(&xs[..0]) } else { None })
        {
            d.call(words(part), 200);
        }
        at += len;
        if d.rng.once_in(each) {
            d.between();
        }
        while hops > 0 && d.rng.below(lengths.len()) < hops {
            hops -= 1;
            d.hop(40);
        }
    }
    while hops > 0 {
        hops -= 1;
        d.hop(40);
    }
}

/// The case of this seed after what the machine has seen: settings, samples, cuttings and hops as
/// `oracle::draw` has them.
pub fn case(seed: u64, machine: &mut Machine) -> Case {
    let rng = &mut Rng::new(seed);
    let mut d = Drawing {
        rng,
        machine,
        case: Vec::new(),
        digests: false,
        released: Vec::new(),
        near_ratio: 0,
        only_second: 0,
    };
    let kind = match d.rng.below(17) {
        0..=9 => Kind::Any,
        10 | 11 => Kind::Impulse(d.rng.below(hard::IMPULSE.len())),
        12 => Kind::Dc(d.rng.below(hard::LEVEL.len())),
        13 if d.rng.once_in(6) => d.rng.pick(&[Kind::OddUndos, Kind::Calibrations]),
        13 => Kind::Iq(d.rng.below(hard::AT_FULL_SCALE)),
        14 | 15 => Kind::Hops(d.rng.below(hard::HOPS.len())),
        _ => Kind::Carrier(d.rng.below(hard::CARRIER.len())),
    };
    match kind {
        Kind::Any => any(&mut d),
        Kind::Impulse(k) => d.impulse_signal(k),
        Kind::Dc(k) => d.level_signals(1, k),
        Kind::Iq(k) => d.level_signals(2, k),
        Kind::Hops(k) => d.hop_signals(k),
        Kind::Carrier(k) => d.carrier(k),
        Kind::OddUndos => d.odd_undos(),
        Kind::Calibrations => d.calibrations(),
    }
    d.end();
    Case {
        kind,
        list: d.case,
        near_ratio: d.near_ratio,
        only_second: d.only_second,
    }
}

/// Any setting, samples, cutting and operations.
fn any(d: &mut Drawing) {
    let kind = d.rng.below(10);
    d.digests = kind >= 6;
    let mut s = some_setting(d.rng);
    if d.rng.once_in(30) {
        s.n = d.rng.pick(&[2048, 2047, 512, 8]);
    }
    match kind {
        // Short inputs, all operations between the calls.
        0..=3 => {
            let n = d.rng.below(400);
            d.make(&s, 1_000_000);
            let xs = some_samples(d.rng, n);
            let lengths = cutting(d.rng, n);
            let hops = if d.rng.once_in(3) { d.rng.below(12) } else { 0 };
            streamed(d, &xs, &lengths, 6, hops);
        }
        // Hops.
        4 => {
            s.iq = d.rng.pick(&[Mode::Observe, Mode::Observe, Mode::Apply]);
            s.n = s.n.max(8);
            if d.rng.below(3) > 0 {
                s.fs = d.rng.pick(&[1.0, 1.5, 3.3, 7.5, 20.0]);
            }
            d.make(&s, 1_000_000);
            let n = d.rng.below(60);
            let xs = some_samples(d.rng, n);
            let lengths = cutting(d.rng, n);
            let hops = d.rng.from(1, 60);
            streamed(d, &xs, &lengths, 10, hops);
        }
        // Makings, refused and not, and operations without samples.
        5 => {
            d.make(&s, 3);
            for _ in 0..20 {
                d.between();
            }
        }
        // Long inputs, in blocks, answered by digests.
        6..=8 => {
            if d.rng.once_in(2) {
                s.fs = d
                    .rng
                    .pick(&[400.0, 998.5, 999.0, 999.5, 1000.0, 1000.49, 1999.0, 2000.0]);
                s.impulse = Mode::Apply;
            }
            d.make(&s, 1_000_000);
            let n = d.rng.from(2000, 9000);
            let mut xs = some_samples(d.rng, n);
            if d.rng.once_in(2) {
                xs = vec![Sample::new(1.0, 0.0); n];
                for _ in 0..n / 700 {
                    let place = d.rng.below(n);
                    xs[place] = Sample::new(100.0, 0.0);
                }
            }
            let block = d.rng.pick(&[7, 20, 64, 500, 1000, 1024, 4000]);
            let lengths: Vec<usize> = xs.chunks(block).map(<[Sample]>::len).collect();
            let hops = d.rng.below(8);
            streamed(d, &xs, &lengths, 40, hops);
        }
        // Very long inputs.
        _ => {
            s.fs = d
                .rng
                .pick(&[8000.0, 44100.0, 48000.0, 192000.0, 2.4e6, 3000.0]);
            d.make(&s, 1_000_000);
            let n = d.rng.from(20_000, 60_000);
            let xs = some_samples(d.rng, n);
            let lengths: Vec<usize> = xs.chunks(4000).map(<[Sample]>::len).collect();
            streamed(d, &xs, &lengths, 4, 10);
        }
    }
}
