//! The smallest case that was found for a difference: fewer operations, then fewer samples, then zeros.

use crate::library::Library;
use oracle::trace::machine::Machine;
use oracle::trace::show as text;
use oracle::trace::{Answer, Operation, CONFIG, MAKE};

/// The two answers that differ, where the operations show a difference from the start on.
struct Found {
    at: usize,
    proved: Answer,
    rust: Answer,
}

/// How many lists were run.
struct Search {
    runs: u64,
}

impl Search {
    /// Runs both sides; nothing if they agree, or if the oracle has no answer.
    fn differs(&mut self, operations: &[Operation]) -> Option<Found> {
        self.runs += 1;
        let mut machine = Machine::default();
        let mut library = Library::default();
        for (at, operation) in operations.iter().enumerate() {
            let rust = machine.answer(operation).ok()?;
            let proved = library.answer(operation);
            if proved != rust {
                return Some(Found { at, proved, rust });
            }
        }
        None
    }
}

/// The case without each run of `size` operations that it does not need.
fn fewer(search: &mut Search, case: &mut Vec<Operation>, size: usize) -> bool {
    let mut less = false;
    let mut at = 0;
    while at < case.len() {
        let end = (at + size).min(case.len());
        let without = [&case[..at], &case[end..]].concat();
        match search.differs(&without) {
            Some(found) => {
                *case = without;
                case.truncate(found.at + 1);
                less = true;
            }
            None => at = end,
        }
    }
    less
}

/// The same of the words behind the operation at `i`: left out, or 0.
fn simpler(search: &mut Search, case: &mut Vec<Operation>, i: usize, size: usize, zeros: bool) {
    let mut at = 0;
    while i < case.len() && at < case[i].words.len() {
        let end = (at + size).min(case[i].words.len());
        let mut without = case.clone();
        if zeros {
            without[i].words[at..end].fill(0);
        } else {
            without[i].words.drain(at..end);
        }
        let found = if without == *case {
            None
        } else {
            search.differs(&without)
        };
        if zeros || found.is_none() {
            at = end;
        }
        if let Some(found) = found {
            *case = without;
            case.truncate(found.at + 1);
        }
    }
}

fn fewest(search: &mut Search, case: &mut Vec<Operation>) {
    let mut size = case.len().div_ceil(2);
    loop {
        let less = fewer(search, case, size);
        if size > 1 {
            size = size.div_ceil(2);
        } else if !less {
            break;
        }
    }
}

fn simplest(search: &mut Search, case: &mut Vec<Operation>) {
    for zeros in [false, true] {
        for i in 0..case.len() {
            let mut size = case.get(i).map_or(0, |o| o.words.len()).div_ceil(2);
            let config = case.get(i).is_some_and(|o| o.op == MAKE || o.op == CONFIG);
            while size > 0 && !config {
                simpler(search, case, i, size, zeros);
                size = if size > 1 { size.div_ceil(2) } else { 0 };
            }
        }
    }
}

/// Prints the smallest case found among these operations, of which the last one shows a difference.
/// Slices and stores are answered in full once few are left.
pub fn show(operations: &[&Operation]) {
    let mut search = Search { runs: 0 };
    let mut case: Vec<Operation> = operations.iter().map(|&o| o.clone()).collect();
    fewest(&mut search, &mut case);
    let whole: Vec<Operation> = case
        .iter()
        .map(|o| Operation {
            how: 0,
            ..o.clone()
        })
        .collect();
    if let Some(found) = search.differs(&whole) {
        case = whole[..=found.at].to_vec();
    }
    simplest(&mut search, &mut case);
    fewest(&mut search, &mut case);
    let Some(found) = search.differs(&case) else {
        println!("it does not show again");
        return;
    };
    println!("the smallest case found, after {} runs:", search.runs);
    for operation in &case {
        println!("  {}", text::operation(operation).replace('\n', "\n  "));
    }
    println!("{}", text::difference(&found.proved, &found.rust));
}
