//! The C library behind a trace's operations: the words of a state and the stores, as a caller holds them.

use oracle::trace::machine::{
    bits, first, plain, said, setting_words, whole_or_digest, with_clamped, with_slice,
};
use oracle::trace::{
    MONITOR_WORDS as MONITOR_STORE, REPAIR_WORDS as REPAIR_STORE, SPAN_WORDS as SPAN_STORE, *,
};
use vatgorge::{SPAN_WORDS, *};

/// Where some of a state's words stand: crates/chain_words/specs/Places.antt.
const COEFFICIENT: usize = 7;
const GATE: usize = 9;
const RECEIVED: usize = 12;
const RUN: usize = 13;
const SEEN: usize = 29;
const RELEASED: usize = 30;
const HELD_COUNT: usize = 31;
const CLAMPED: usize = 32;
const ARRAYS: usize = 37;
const RINGS: usize = 124;

/// What a lent word holds before an operation, and the number that is answered where one was written that should have stayed.
const LENT: u64 = 0x5eed_5eed_5eed_5eed;
const WRITTEN: u64 = 1000;

pub struct Library {
    state: State,
    spans: Vec<u64>,
    repairs: Vec<u64>,
    monitor: Vec<f64>,
}

/// As much of a store as is lent.
fn part<T>(words: &mut [T], lent: u64) -> &mut [T] {
    let n = words.len().min(lent as usize);
    &mut words[..n]
}

/// With the number that tells of a word that should have stayed.
fn staying(mut answer: Answer, stayed: bool) -> Answer {
    if !stayed {
        answer.front[1] = WRITTEN;
    }
    answer
}

fn all_lent(words: &[u64]) -> bool {
    words.iter().all(|&w| w == LENT)
}

fn config(o: &Operation) -> Config {
    o.words[..]
        .try_into()
        .expect("a configuration has thirteen words")
}

impl Default for Library {
    /// The chain before the first making.
    fn default() -> Self {
        let mut library = Library {
            state: [LENT; STATE_WORDS],
            spans: vec![0; SPAN_STORE],
            repairs: vec![0; REPAIR_STORE],
            monitor: vec![0.0; MONITOR_STORE],
        };
        let s = first();
        let lent = [24 * s.spans, 6 * s.repairs, 4 * s.n].map(|n| n as u64);
        let made = library.make(&Operation::new(MAKE, &lent, setting_words(&s)));
        assert_eq!(made, plain(0), "the first chain");
        library
    }
}

impl Library {
    /// What the operation answers.
    pub fn answer(&mut self, o: &Operation) -> Answer {
        let mut answer = match o.op {
            MAKE => self.make(o),
            CONFIG => config_answer(o),
            CALL => self.call(o),
            HOP => self.hop(o),
            LOG => self.log(),
            STATE => self.state(),
            STORES => self.stores(o),
            SPAN => self.span(o),
            UNDO => self.undo(o),
            DC_UNDO => dc_undo(o),
            IQ_UNDO => iq_undo(o),
            GUARD => guard(o),
            VALIDATE => validate(o),
            _ => self.write(o),
        };
        answer.front[0] = o.op;
        answer.front[7] = answer.words.len() as u64;
        answer
    }

    fn make(&mut self, o: &Operation) -> Answer {
        let [a, b, c, ..] = o.args;
        let before = self.state;
        let number = vg_make(
            &config(o),
            &mut self.state,
            part(&mut self.spans, a),
            part(&mut self.repairs, b),
            part(&mut self.monitor, c),
        );
        staying(plain(number), number == 0 || self.state == before)
    }

    /// The state's words, or those of one that has seen so many samples.
    fn handed(&self, seen: u64) -> State {
        let mut state = self.state;
        if seen != 0 {
            state[RECEIVED] = seen;
            state[RUN] = 0;
            state[SEEN] = seen;
            state[RELEASED] = seen.wrapping_sub(state[HELD_COUNT]);
        }
        state
    }

    fn call(&mut self, o: &Operation) -> Answer {
        let [a, b, front, seen, _] = o.args;
        let mut state = self.handed(seen);
        let before = state;
        let front = if front == AS_HELD {
            state[HELD_COUNT]
        } else {
            front
        };
        let front = (front as usize).min(HELD);
        let mut slice: Vec<u64> = filler(front).chain(o.words.iter().copied()).collect();
        let mut out = [LENT; CONDITION_WORDS];
        let spans = part(&mut self.spans, a);
        let repairs = part(&mut self.repairs, b);
        let number = vg_condition(&mut state, &mut slice, spans, repairs, &mut out);
        let (value, stayed) = match number {
            0 => (out[0], all_lent(&out[1..])),
            7 => (out[1], all_lent(&out[..1])),
            _ => (0, all_lent(&out)),
        };
        let mut answer = said(number, value);
        answer.front[3..6].copy_from_slice(&[state[SEEN], state[RELEASED], state[HELD_COUNT]]);
        let stayed = stayed && (number == 0 || state == before);
        if seen == 0 {
            self.state = state;
        }
        let answer = with_slice(staying(answer, stayed), o.how, slice);
        with_clamped(answer, state[CLAMPED])
    }

    fn hop(&mut self, o: &Operation) -> Answer {
        let [start, b, c, ..] = o.args;
        let before = self.state;
        let mut out = [LENT; HOP_WORDS];
        let spans = part(&mut self.spans, b);
        let monitor = part(&mut self.monitor, c);
        let number = vg_hop(&mut self.state, &o.words, start, spans, monitor, &mut out);
        let (answer, stayed) = match (number, out[0]) {
            (0, 0) => (plain(0), all_lent(&out[1..])),
            (0, _) => (plain(REPORT), out[0] == 1 && all_lent(&out[8..])),
            (7, _) => (said(7, out[8]), all_lent(&out[..8])),
            _ => (plain(number), all_lent(&out)),
        };
        let mut answer = staying(answer, stayed && (number == 0 || self.state == before));
        answer.words = vec![0; 7];
        if answer.front[1] == REPORT {
            answer.words.copy_from_slice(&out[1..8]);
        }
        answer
    }

    // ---- reading

    fn log(&self) -> Answer {
        let mut out = [LENT; LOG_WORDS];
        vg_log(&self.state, &mut out);
        let (numbers, rings) = out.split_at(15);
        let (rings, counts) = rings.split_at(36);
        let mut answer = plain(0);
        answer.words.extend(&numbers[..3]);
        for (count, ring) in counts.iter().zip(rings.chunks(3)) {
            answer.words.push(*count);
            answer.words.extend(ring);
        }
        answer.words.extend(&numbers[3..]);
        answer
    }

    /// The settings, but for the coefficient, and the stages.
    fn state(&self) -> Answer {
        let mut answer = plain(0);
        for words in [0..COEFFICIENT, GATE..SEEN, ARRAYS..RINGS] {
            answer.words.extend(&self.state[words]);
        }
        answer
    }

    fn stores(&mut self, o: &Operation) -> Answer {
        let [a, b, c, ..] = o.args;
        let words = [
            part(&mut self.spans, a).to_vec(),
            part(&mut self.repairs, b).to_vec(),
            part(&mut self.monitor, c)
                .iter()
                .map(|&x| bits(x))
                .collect(),
        ];
        let mut answer = plain(0);
        for (front, words) in answer.front[3..6].iter_mut().zip(&words) {
            *front = words.len() as u64;
        }
        answer.words = words.map(|w| whole_or_digest(o.how, w)).concat();
        answer
    }

    fn span(&mut self, o: &Operation) -> Answer {
        let [stage, mark, i, lent, _] = o.args;
        let mut out = [LENT; SPAN_WORDS];
        let spans = part(&mut self.spans, lent);
        let number = vg_span(&self.state, spans, stage, mark, i as usize, &mut out);
        let mut answer = staying(plain(number), number == 0 || all_lent(&out));
        if number == 0 {
            answer.front[3..5].copy_from_slice(&out);
        }
        answer
    }

    // ---- repair undo, and the stores' owner

    fn undo(&mut self, o: &Operation) -> Answer {
        let [first, lent, ..] = o.args;
        let mut slice = o.words.clone();
        let repairs = part(&mut self.repairs, lent);
        let number = vg_undo_repairs(&self.state, repairs, &mut slice, first);
        with_slice(plain(number), o.how, slice)
    }

    fn write(&mut self, o: &Operation) -> Answer {
        let [store, place, word, ..] = o.args;
        let place = place as usize;
        match store {
            0 if place < SPAN_STORE => self.spans[place] = word,
            1 if place < REPAIR_STORE => self.repairs[place] = word,
            2 if place < MONITOR_STORE => self.monitor[place] = f64::from_bits(word),
            _ => (),
        }
        plain(0)
    }
}

// ---- operations without a state

fn config_answer(o: &Operation) -> Answer {
    let mut words = config(o);
    let mut answer = plain(vg_is_off(&words));
    vg_observing(&mut words);
    answer.words = words.to_vec();
    answer
}

/// The value is the place of 7, whose word every other answer leaves.
fn placed(number: u64, place: u64) -> Answer {
    match number {
        7 => said(7, place),
        _ => staying(plain(number), place == LENT),
    }
}

fn dc_undo(o: &Operation) -> Answer {
    let [fs, len, ..] = o.args;
    let mut out: Vec<u64> = filler((len as usize).min(WORDS + HELD)).collect();
    let mut place = LENT;
    let number = vg_undo_dc(&o.words, f64::from_bits(fs), &mut out, &mut place);
    with_slice(placed(number, place), o.how, out)
}

fn iq_undo(o: &Operation) -> Answer {
    let [re, im, ..] = o.args.map(f64::from_bits);
    let mut slice = o.words.clone();
    let mut place = LENT;
    let number = vg_undo_iq(&mut slice, re, im, &mut place);
    with_slice(placed(number, place), o.how, slice)
}

fn guard(o: &Operation) -> Answer {
    let mut slice = o.words.clone();
    let replaced = vg_guard(&mut slice);
    with_slice(said(0, replaced), o.how, slice)
}

fn validate(o: &Operation) -> Answer {
    let [gain, phase, centre, ..] = o.args.map(f64::from_bits);
    plain(vg_validate(gain, phase, centre))
}
