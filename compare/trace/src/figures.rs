//! How often what was met.

use crate::cases::{hard, Case, Kind};
use oracle::trace::*;
use std::collections::BTreeMap;

#[derive(Default)]
pub struct Figures {
    pub cases: u64,
    pub samples: u64,
    operations: u64,
    calls: u64,
    hops: u64,
    reports: u64,
    makings: u64,
    undos: [u64; 3],
    guarded: u64,
    validations: u64,
    logs: u64,
    states: u64,
    stores: u64,
    spans: u64,
    nothing: u64,
    refusals: [u64; 14],
    words: u64,
    /// What the chain of the moment has seen.
    seen: u64,
    /// What the hard cases met.
    hard: BTreeMap<Kind, Met>,
}

impl Figures {
    /// A list begins, with the chain before the first making.
    pub fn begin(&mut self) {
        self.seen = 0;
    }

    pub fn case(&mut self, case: &Case) {
        self.cases += 1;
        for (operation, answer) in &case.list {
            self.count(operation, answer);
        }
        if case.kind != Kind::Any {
            self.hard.entry(case.kind).or_default().case(case);
        }
    }

    pub fn count(&mut self, operation: &Operation, answer: &Answer) {
        let number = answer.front[1];
        self.operations += 1;
        self.words += FRONT as u64 + answer.words.len() as u64;
        if operation.op == CONFIG {
            return;
        }
        match number {
            0 | REPORT => self.accepted(operation, answer),
            NOTHING => self.nothing += 1,
            _ => self.refusals[number as usize] += 1,
        }
    }

    fn accepted(&mut self, operation: &Operation, answer: &Answer) {
        match operation.op {
            MAKE => {
                self.makings += 1;
                self.seen = 0;
            }
            CALL => {
                self.calls += 1;
                self.samples += answer.front[3] - self.seen;
                self.seen = answer.front[3];
            }
            HOP => {
                self.hops += 1;
                self.reports += u64::from(answer.front[1] == REPORT);
            }
            UNDO => self.undos[0] += 1,
            DC_UNDO => self.undos[1] += 1,
            IQ_UNDO => self.undos[2] += 1,
            GUARD => self.guarded += 1,
            VALIDATE => self.validations += 1,
            LOG => self.logs += 1,
            STATE => self.states += 1,
            STORES => self.stores += 1,
            SPAN => self.spans += 1,
            _ => (),
        }
    }

    pub fn say(&self) {
        println!("{} cases, {} operations", self.cases, self.operations);
        println!("{} samples in {} calls", self.samples, self.calls);
        println!("{} hops, {} of them with a report", self.hops, self.reports);
        println!(
            "{} chains made, undos: {} of repairs, {} of DC, {} of IQ",
            self.makings, self.undos[0], self.undos[1], self.undos[2]
        );
        println!(
            "read: {} logs, {} states, {} times the stores, {} spans; {} slices guarded, {} calibrations valid",
            self.logs, self.states, self.stores, self.spans, self.guarded, self.validations
        );
        let refused: Vec<String> = (1..14)
            .map(|n| format!("{n}: {}", self.refusals[n]))
            .collect();
        println!("answered by nothing: {}", self.nothing);
        println!("refused by {}", refused.join(", "));
        println!("{} words of answers compared", self.words);
        self.say_hard();
    }

    fn rows(&self, names: &[&str], of: impl Fn(usize) -> Kind, columns: impl Fn(&Met) -> Vec<u64>) {
        for (k, name) in names.iter().enumerate() {
            let met = self.hard.get(&of(k));
            let columns = columns(met.unwrap_or(&Met::default()));
            let columns: Vec<String> = columns.iter().map(|n| format!("{n:>11}")).collect();
            println!("{name:22}{}", columns.join(""));
        }
    }

    fn say_hard(&self) {
        let head = |name: &str, columns: &[&str]| {
            let columns: Vec<String> = columns.iter().map(|c| format!("{c:>11}")).collect();
            println!("\n{name:22}{}", columns.join(""));
        };
        head(
            "impulse alone",
            &[
                "cases",
                "samples",
                "repaired",
                "flagged",
                "uncertain",
                "long runs",
                "at ratio",
                "only 2nd",
            ],
        );
        self.rows(&hard::IMPULSE, Kind::Impulse, |m| {
            let [repaired, flagged, _, uncertain, ..] = m.marks;
            vec![
                m.cases,
                m.samples,
                repaired,
                flagged,
                uncertain,
                m.long_runs,
                m.near_ratio,
                m.only_second,
            ]
        });
        head(
            "DC alone",
            &[
                "cases",
                "samples",
                "calls",
                "loud",
                "clamped",
                "corrected",
                "undone",
            ],
        );
        self.rows(&hard::LEVEL, Kind::Dc, |m| {
            vec![
                m.cases, m.samples, m.calls, m.loud, m.clamped, m.marks[6], m.undone,
            ]
        });
        head(
            "DC, loud half the time",
            &["cases", "samples", "calls", "loud", "clamped"],
        );
        self.rows(&hard::CARRIER, Kind::Carrier, |m| {
            vec![m.cases, m.samples, m.calls, m.loud, m.clamped]
        });
        head(
            "IQ alone",
            &["cases", "samples", "calls", "loud", "corrected", "undone"],
        );
        self.rows(&hard::LEVEL[..hard::AT_FULL_SCALE], Kind::Iq, |m| {
            vec![m.cases, m.samples, m.calls, m.loud, m.marks[10], m.undone]
        });
        head(
            "the monitor alone",
            &[
                "cases",
                "hops",
                "of odd n",
                "reports",
                "suspected",
                "no power",
            ],
        );
        self.rows(&hard::HOPS, Kind::Hops, |m| {
            vec![m.cases, m.hops, m.odd, m.reports, m.suspected, m.nobody]
        });
        head(
            "undos of odd input",
            &["cases", "restored", "by 1", "by 4", "by 7", "by 10"],
        );
        self.rows(
            &[""],
            |_| Kind::OddUndos,
            |m| {
                let r = &m.refusals;
                vec![m.cases, m.undos, r[1], r[4], r[7], r[10]]
            },
        );
        head(
            "calibrations",
            &[
                "cases",
                "valid",
                "by 11",
                "by 12",
                "by 13",
                "observing",
                "correcting",
                "withheld",
            ],
        );
        self.rows(
            &[""],
            |_| Kind::Calibrations,
            |m| {
                let [_, observing, correcting, withheld] = m.settled;
                let r = &m.refusals;
                vec![
                    m.cases, m.valid, r[11], r[12], r[13], observing, correcting, withheld,
                ]
            },
        );
        println!();
    }
}

/// What the cases of one kind met.
#[derive(Default)]
struct Met {
    cases: u64,
    samples: u64,
    calls: u64,
    /// Samples with a power above 1.
    loud: u64,
    near_ratio: u64,
    only_second: u64,
    /// Counts of marks, long runs and clamped DC updates, of the chains' last logs.
    marks: [u64; 12],
    long_runs: u64,
    clamped: u64,
    hops: u64,
    odd: u64,
    reports: u64,
    suspected: u64,
    nobody: u64,
    undos: u64,
    undone: u64,
    valid: u64,
    settled: [u64; 4],
    refusals: [u64; 14],
}

fn is_loud(word: u64) -> bool {
    let part = |bits: u64| f64::from(f32::from_bits(bits as u32));
    let (re, im) = (part(word), part(word >> 32));
    re * re + im * im > 1.0
}

impl Met {
    fn case(&mut self, case: &Case) {
        self.cases += 1;
        self.near_ratio += case.near_ratio;
        self.only_second += case.only_second;
        // The log of the chain of the moment.
        let mut log: Option<&Answer> = None;
        for (operation, answer) in &case.list {
            let number = answer.front[1];
            if number != 0 && number != REPORT {
                if number < 14 {
                    self.refusals[number as usize] += 1;
                }
                continue;
            }
            match operation.op {
                MAKE => self.logged(log.take()),
                LOG => log = Some(answer),
                _ => self.accepted(operation, answer),
            }
        }
        self.logged(log);
    }

    fn accepted(&mut self, operation: &Operation, answer: &Answer) {
        let words = &operation.words;
        match operation.op {
            CALL => {
                self.calls += 1;
                self.samples += words.len() as u64;
                self.loud += words.iter().filter(|&&w| is_loud(w)).count() as u64;
            }
            HOP => {
                self.hops += 1;
                self.odd += words.len() as u64 % 2;
                if answer.front[1] == REPORT {
                    self.reports += 1;
                    self.suspected += answer.words[2];
                    self.nobody += u64::from(f64::from_bits(answer.words[5]) == 0.0);
                }
            }
            DC_UNDO | IQ_UNDO => {
                self.undos += 1;
                self.undone += words.len() as u64;
            }
            VALIDATE => self.valid += 1,
            _ => (),
        }
    }

    fn logged(&mut self, log: Option<&Answer>) {
        let Some(log) = log else {
            return;
        };
        for (mark, ring) in self.marks.iter_mut().zip(log.words[3..51].chunks(4)) {
            *mark += ring[0];
        }
        self.long_runs += log.words[55];
        self.clamped += log.words[59];
        self.settled[log.words[60] as usize] += 1;
    }
}
