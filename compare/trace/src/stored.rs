//! The stored list: small, and with every operation, every mode, every refusal and every cutting in it.

use oracle::draw::{some_samples, Rng};
use oracle::rules::{Calibration, Edition, Mode, Sample, Setting};
use oracle::trace::machine::{first, setting_words, Machine};
use oracle::trace::*;

const MODES: [Mode; 3] = [Mode::Off, Mode::Observe, Mode::Apply];
const ONE: Sample = Sample { re: 1.0, im: 0.0 };

/// The list so far, with the oracle's chain beside it.
struct List {
    machine: Machine,
    operations: Vec<Operation>,
    /// What the chain released since it was made, where it was answered in full.
    released: Vec<u64>,
}

fn words(xs: &[Sample]) -> Vec<u64> {
    xs.iter().map(|x| x.word()).collect()
}

fn number(x: f64) -> u64 {
    x.to_bits()
}

/// A ground of ones and a little more, with runs of clicks of lengths 1 to 6.
fn clicks(n: usize, every: usize) -> Vec<Sample> {
    let mut xs: Vec<Sample> = (0..n)
        .map(|k| Sample::new(1.0 + (k % 7) as f32 / 64.0, (k % 5) as f32 / 32.0))
        .collect();
    for (i, at) in (3..n).step_by(every).enumerate() {
        for x in xs.iter_mut().skip(at).take(i % 6 + 1) {
            *x = Sample::new(100.0 + i as f32, -(i as f32));
        }
    }
    xs
}

fn calibration() -> Calibration {
    Calibration {
        gain: 1.25,
        phase: 3.0,
        centre: 7e6,
    }
}

fn setting(modes: [Mode; 3]) -> Setting {
    let [impulse, dc, iq] = modes;
    Setting {
        fs: 48000.0,
        centre: 7e6,
        n: 12,
        impulse,
        dc,
        iq,
        edition: Edition::First,
        calibration: Some(calibration()),
        spans: 2,
        repairs: 3,
    }
}

impl List {
    fn add(&mut self, o: Operation) -> Answer {
        let answer = self.machine.answer(&o).expect("an operation of the list");
        self.operations.push(o);
        answer
    }

    fn op(&mut self, op: u64, args: &[u64], xs: Vec<u64>) -> Answer {
        self.add(Operation::new(op, args, xs))
    }

    fn make(&mut self, s: &Setting) {
        let lengths = [24 * s.spans, 6 * s.repairs, 4 * s.n].map(|n| n as u64);
        self.op(MAKE, &lengths, setting_words(s));
        self.released.clear();
    }

    /// The lent lengths that the chain asks.
    fn lengths(&self) -> [u64; 3] {
        let s = self.machine.setting();
        [24 * s.spans, 6 * s.repairs, 4 * s.n].map(|n| n as u64)
    }

    fn call(&mut self, xs: &[Sample], digest: bool) {
        let [spans, repairs, _] = self.lengths();
        let mut o = Operation::new(CALL, &[spans, repairs, AS_HELD], words(xs));
        if digest {
            o = o.digested();
        }
        let answer = self.add(o);
        if !digest {
            let ready = answer.front[2] as usize;
            self.released.extend(&answer.words[..ready]);
        }
    }

    fn calls(&mut self, xs: &[Sample], block: usize) {
        for part in xs.chunks(block) {
            self.call(part, block == 1);
        }
    }

    fn hop(&mut self, start: u64, channels: &[Sample]) {
        let [spans, _, monitor] = self.lengths();
        self.op(HOP, &[start, spans, monitor], words(channels));
    }

    fn read(&mut self) {
        self.op(LOG, &[], vec![]);
        self.op(STATE, &[], vec![]);
        let lengths = self.lengths();
        let o = Operation::new(STORES, &lengths, vec![]);
        if lengths.iter().sum::<u64>() < 200 {
            self.add(o);
        } else {
            self.add(o.digested());
        }
    }

    fn spans(&mut self) {
        let [spans, ..] = self.lengths();
        for stage in 0..3 {
            for mark in 0..4 {
                let held = self.machine.ring((4 * stage + mark) as usize).ring.held as u64;
                for i in 0..(held + 1).min(3) {
                    self.op(SPAN, &[stage, mark, i, spans], vec![]);
                }
            }
        }
    }

    /// The three undos of what was released.
    fn undos(&mut self) {
        let [_, repairs, _] = self.lengths();
        let ys = self.released.clone();
        let middle = ys.len() / 3;
        self.op(UNDO, &[0, repairs], ys.clone());
        self.op(
            UNDO,
            &[middle as u64, repairs],
            ys[middle..2 * middle].to_vec(),
        );
        self.op(UNDO, &[u64::MAX - 2, repairs], ys[..8].to_vec());
        let fs = number(self.machine.setting().fs);
        self.op(DC_UNDO, &[fs, ys.len() as u64], ys.clone());
        if let Some(rho) = self.machine.coefficient() {
            self.op(IQ_UNDO, &[number(rho.re), number(rho.im)], ys);
        }
    }

    // ---- the parts of the list

    /// Every mode, cut into blocks of 1, of 7 and not at all, over rings of 1, 2 and 256 spans and of 1,
    /// 3 and 4,096 repairs.
    fn modes(&mut self) {
        let mut k = 0;
        for impulse in MODES {
            for dc in MODES {
                for iq in MODES {
                    let mut s = setting([impulse, dc, iq]);
                    self.op(CONFIG, &[], setting_words(&s));
                    s.spans = [1, 2, 256][k % 3];
                    s.repairs = [1, 3, 4096][k / 3 % 3];
                    s.fs = [48000.0, 20.0, 1000.0, 1.5][k % 4];
                    s.centre += [0.0, 1.0, 1.5][k / 2 % 3];
                    self.make(&s);
                    if !s.is_off() {
                        self.calls(&clicks(72, 17), [1, 7, 1000][(k + k / 3) % 3]);
                        self.read();
                    }
                    k += 1;
                }
            }
        }
        let mut s = setting([Mode::Off, Mode::Off, Mode::Apply]);
        s.calibration = None;
        self.op(CONFIG, &[], setting_words(&s));
        self.make(&s);
        self.read();
    }

    /// Blocks that pause, spans and repairs that are dropped, long streams in blocks of 1,000.
    fn streams(&mut self) {
        for (fs, spans, repairs, every) in
            [(20.0, 1, 1, 23), (1000.0, 256, 4096, 400), (30.0, 3, 2, 9)]
        {
            let mut s = setting([Mode::Apply, Mode::Apply, Mode::Apply]);
            (s.fs, s.spans, s.repairs) = (fs, spans, repairs);
            self.make(&s);
            for part in clicks(1400, every).chunks(1000) {
                self.call(part, true);
            }
            self.read();
            self.spans();
        }
        // Two clicks, one, and one, in blocks of 1,000: only edition 2 pauses the third.
        for edition in [Edition::First, Edition::Second] {
            let mut s = setting([Mode::Apply, Mode::Off, Mode::Off]);
            (s.fs, s.edition) = (1000.0, edition);
            self.op(CONFIG, &[], setting_words(&s));
            self.make(&s);
            let mut xs = vec![ONE; 2100];
            for k in [300, 600, 1500, 2050] {
                xs[k].re = 100.0;
            }
            for part in xs.chunks(1000) {
                self.call(part, true);
            }
            self.read();
            self.spans();
        }
        // DC: zeros before the first update, and differences of zero behind it.
        for mode in [Mode::Observe, Mode::Apply] {
            self.make(&setting([Mode::Off, mode, Mode::Off]));
            let re = [0.0, -0.0, 0.5, 0.5, 0.5, 2.0, 0.0, 45.0, -45.0];
            let xs = re.map(|re| Sample::new(re, if re == 45.0 { 43.0 } else { 0.0 }));
            for part in xs.chunks(2) {
                self.call(part, false);
                self.op(STATE, &[], vec![]);
            }
        }
        // DC: a power above 1 whose norm is 1, and a norm above 1.
        for mode in [Mode::Observe, Mode::Apply] {
            for im in [-26, -25].map(|e| 2f32.powi(e)) {
                self.make(&setting([Mode::Off, mode, Mode::Off]));
                self.call(&[Sample::new(0.0, 0.0), Sample::new(1.0, im)], false);
                self.op(LOG, &[], vec![]);
            }
        }
        let rng = &mut Rng::new(7);
        for k in 0..6 {
            let mut s = setting([Mode::Apply, MODES[k % 3], MODES[k / 2]]);
            s.fs = [3.0, 50.0, 8000.0][k % 3];
            self.make(&s);
            let xs = some_samples(rng, 160);
            self.calls(&xs, [31, 160][k % 2]);
            self.read();
            self.undos();
        }
    }

    /// Hops with reports, of which some suspect a mirror, between calls.
    fn hops(&mut self) {
        for iq in [Mode::Observe, Mode::Apply, Mode::Off] {
            for n in [8, 12, 13, 7] {
                let mut s = setting([Mode::Observe, Mode::Off, iq]);
                (s.fs, s.n) = (1.0, n);
                self.make(&s);
                let mut start = 0;
                for k in 0..9 {
                    let mut channels: Vec<Sample> = (0..n)
                        .map(|i| Sample::new(1.0 / 64.0, i as f32 / 1024.0))
                        .collect();
                    if n > 11 && k % 4 < 2 {
                        channels[9] = Sample::new(40.0, 3.0);
                        channels[n - 9] = Sample::new(4.0, k as f32);
                    }
                    self.hop(start, &channels);
                    start += (n / 4) as u64 + u64::from(k == 5) * 3;
                    self.call(&[ONE; 2], false);
                }
                self.read();
                self.spans();
            }
        }
        let mut s = setting([Mode::Off, Mode::Off, Mode::Observe]);
        (s.fs, s.n) = (40.0, 512);
        self.make(&s);
        for k in 0..2 {
            let channels: Vec<Sample> = (0..512)
                .map(|i| Sample::new((i % 97) as f32, (k * i % 31) as f32))
                .collect();
            self.hop(128 * k as u64, &channels);
            self.read();
        }
    }

    /// Makings that are refused: 1 to 4, and nothing.
    fn refused_makings(&mut self) {
        let s = setting([Mode::Apply, Mode::Apply, Mode::Observe]);
        let with = |change: &dyn Fn(&mut Setting)| {
            let mut t = s.clone();
            change(&mut t);
            t
        };
        let settings = [
            with(&|t| t.fs = 1f64.next_down()),
            with(&|t| t.fs = 1e7f64.next_up()),
            with(&|t| t.fs = f64::NAN),
            with(&|t| (t.fs, t.n) = (0.0, 2049)),
            with(&|t| t.n = 2049),
            with(&|t| (t.n, t.spans) = (4096, 0)),
            with(&|t| t.spans = 0),
            with(&|t| t.spans = 257),
            with(&|t| t.repairs = 0),
            with(&|t| t.repairs = 4097),
            with(&|t| (t.impulse, t.dc, t.iq) = (Mode::Off, Mode::Off, Mode::Off)),
            with(&|t| (t.impulse, t.dc, t.iq, t.fs) = (Mode::Off, Mode::Off, Mode::Off, 0.0)),
        ];
        for t in &settings {
            self.make(t);
        }
        for lengths in [[47, 18, 48], [48, 17, 48], [48, 18, 49], [0, 0, 0]] {
            self.op(MAKE, &lengths, setting_words(&s));
        }
        self.read();
        // The limits themselves.
        for t in [
            with(&|t| (t.fs, t.n) = (1.0, 2048)),
            with(&|t| (t.fs, t.spans, t.repairs) = (1e7, 256, 4096)),
        ] {
            self.make(&t);
            self.read();
        }
    }

    /// Calls that are refused: 4 to 8.
    fn refused_calls(&mut self) {
        self.make(&setting([Mode::Apply, Mode::Apply, Mode::Apply]));
        self.calls(&clicks(60, 17), 60);
        let [spans, repairs, _] = self.lengths();
        let new = words(&clicks(5, 9));
        let bad = |place: usize, x: Sample| {
            let mut xs = new.clone();
            xs[place] = x.word();
            xs
        };
        let calls = [
            // 4
            ([spans + 1, repairs, AS_HELD, 0], new.clone()),
            ([spans, repairs - 1, AS_HELD, 0], new.clone()),
            // 6: 21 are held
            ([spans, repairs, 0, 0], new.clone()),
            ([spans, repairs, 20, 0], vec![]),
            // 7
            (
                [spans, repairs, AS_HELD, 0],
                bad(0, Sample::new(f32::NAN, 0.0)),
            ),
            (
                [spans, repairs, AS_HELD, 0],
                bad(4, Sample::new(0.0, 1.0000001e17)),
            ),
            (
                [spans, repairs, AS_HELD, 0],
                bad(2, Sample::new(f32::NEG_INFINITY, 1.0)),
            ),
            // 8, and before it 6, behind it 7
            ([spans, repairs, AS_HELD, (1 << 48) - 4], new.clone()),
            ([spans, repairs, 3, (1 << 48) + 1], vec![]),
            ([spans, repairs, AS_HELD, (1 << 48) + 1], vec![]),
            (
                [spans, repairs, AS_HELD, (1 << 48) - 5],
                bad(1, Sample::new(2e17, 0.0)),
            ),
            // 5, and before it nothing
            ([spans, repairs, AS_HELD, (1 << 52) + 1], new.clone()),
            ([0, 0, AS_HELD, u64::MAX], new.clone()),
        ];
        for (args, xs) in calls {
            self.op(CALL, &args, xs);
        }
        self.read();
        // A slice that holds the held places itself, and one of no new sample.
        self.op(CALL, &[spans, repairs, 0, 0], words(&clicks(23, 9)));
        self.op(CALL, &[spans, repairs, AS_HELD, 0], vec![]);
        self.read();
    }

    /// Words that their owner spoils: 5 of a call, a hop and repair undo.
    fn spoilt_stores(&mut self) {
        let mut s = setting([Mode::Apply, Mode::Apply, Mode::Observe]);
        s.fs = 1.0;
        self.make(&s);
        self.calls(&clicks(60, 40), 60);
        self.hop(0, &[ONE; 12]);
        let [spans, repairs, monitor] = self.lengths();
        let slice = words(&clicks(8, 3));
        let some = |list: &mut List| {
            list.op(CALL, &[spans, repairs, AS_HELD], vec![]);
            list.op(HOP, &[1 << 48 | 1, spans, monitor], words(&[ONE; 12]));
            list.op(UNDO, &[0, repairs], slice.clone());
        };
        let f = number;
        for (store, place, word, back) in [
            // The DC stage's span, (0, 39): its length, at 2^49 and above, and a sum above 2^64.
            (0, 25, 1 << 49, 39),
            (0, 25, (1 << 49) + 1, 39),
            (0, 24, u64::MAX, 0),
            // A word that no ring reads.
            (0, 47, u64::MAX, 0),
            (2, 0, f(-0.0), f(1.0)),
            (2, 1, f(1e60f64.next_up()), f(1.0)),
            (2, 13, f(f64::NAN), f(1.0)),
            (2, 30, f(-1e60), f(0.0)),
            (2, 47, f(f64::NEG_INFINITY), f(0.0)),
            (1, 1, 0, 1),
            (1, 1, 5, 1),
            (1, 0, (1 << 48) + 1, 3),
            (1, 0, 1 << 48, 3),
            (1, 2, 7, 0x42c8_0000),
        ] {
            self.op(WRITE, &[store, place, word], vec![]);
            some(self);
            self.op(WRITE, &[store, place, back], vec![]);
        }
        some(self);
        self.read();
    }

    /// Hops that are refused: 4, 7, 9.
    fn refused_hops(&mut self) {
        let mut s = setting([Mode::Off, Mode::Off, Mode::Apply]);
        s.fs = 1.0;
        self.make(&s);
        let [spans, _, monitor] = self.lengths();
        self.hop(10, &[ONE; 12]);
        let far = Sample::new(1.0, -1.0000001e18);
        let mut channels = [ONE; 12];
        channels[7] = far;
        for (args, xs) in [
            ([10, spans - 1, monitor], vec![ONE; 12]),
            ([10, spans, monitor + 1], vec![ONE; 12]),
            ([12, spans, monitor], vec![ONE; 12]),
            ([(1 << 48) + 1, spans, monitor], vec![ONE; 12]),
            ([12, spans, monitor], channels.to_vec()),
            ([13, spans, monitor], channels.to_vec()),
            ([13, spans, monitor], vec![ONE; 11]),
            ([1 << 48, spans, monitor], vec![ONE; 12]),
            ([(1 << 48) + 3, spans, monitor], vec![ONE; 12]),
        ] {
            self.op(HOP, &args, words(&xs));
        }
        self.read();
        self.spans();
    }

    /// Undos that are refused, the guard, and validation: 1, 4, 7, 10 to 13.
    fn others(&mut self) {
        self.make(&setting([Mode::Apply, Mode::Apply, Mode::Apply]));
        self.calls(&clicks(90, 17), 45);
        self.undos();
        let [spans, repairs, _] = self.lengths();
        let ys = words(&clicks(6, 5));
        let mut far = ys.clone();
        far[3] = Sample::new(f32::INFINITY, 0.0).word();
        self.op(UNDO, &[0, repairs + 1], ys.clone());
        self.op(SPAN, &[0, 0, 0, spans + 1], vec![]);
        for (fs, out, xs) in [
            (0.5, 6, &ys),
            (f64::NAN, 6, &ys),
            (48000.0, 5, &ys),
            (48000.0, 6, &far),
            (0.5, 5, &far),
            (1e7, 6, &ys),
        ] {
            self.op(DC_UNDO, &[number(fs), out], xs.clone());
        }
        for (re, im, xs) in [
            (1.0, 0.0, &far),
            (f64::NAN, 0.0, &ys),
            (0.0, f64::INFINITY, &ys),
            (0.5, -0.25, &far),
            (0.5, -0.25, &ys),
            ((1.0_f64 - 1e-12).sqrt(), 0.0, &ys),
            ((1.0_f64 - 1e-12).sqrt().next_down(), 0.0, &ys),
        ] {
            self.op(IQ_UNDO, &[number(re), number(im)], xs.clone());
        }
        let parts = [
            1.0e17,
            1.0000001e17,
            f32::NAN,
            f32::INFINITY,
            -1.0e17,
            0.0,
            -0.0,
            1e-45,
        ];
        let mut xs = Vec::new();
        for re in parts {
            for im in parts {
                xs.push(Sample::new(re, im).word());
            }
        }
        self.op(GUARD, &[], xs);
        self.op(GUARD, &[], ys);
        let c = calibration();
        for (gain, phase, centre) in [
            (c.gain, c.phase, c.centre),
            (0.5, -45.0, 5e-324),
            (2.0, 45.0, f64::MAX),
            (0.5f64.next_down(), c.phase, c.centre),
            (f64::NAN, 46.0, 0.0),
            (c.gain, 45f64.next_up(), c.centre),
            (c.gain, f64::NEG_INFINITY, -1.0),
            (c.gain, c.phase, 0.0),
            (c.gain, c.phase, f64::INFINITY),
        ] {
            self.op(VALIDATE, &[gain, phase, centre].map(number), vec![]);
        }
    }
}

/// The whole list.
pub fn list() -> Vec<Operation> {
    let mut list = List {
        machine: Machine::default(),
        operations: Vec::new(),
        released: Vec::new(),
    };
    // The chain before the first making.
    assert_eq!(first().n, 8);
    list.calls(&clicks(40, 17), 20);
    list.read();
    list.modes();
    list.streams();
    list.hops();
    list.refused_makings();
    list.refused_calls();
    list.spoilt_stores();
    list.refused_hops();
    list.others();
    list.operations
}
