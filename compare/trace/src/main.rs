//! Holds the C library against the oracle on random cases, every word of every answer.
//!
//!     compare_trace SEED SAMPLES
//!
//! Cases are drawn until so many samples went through accepted calls. A difference is printed as the
//! smallest case that was found.

mod cases;
mod closeness;
mod figures;
mod library;
mod recordings;
mod shrink;
mod stored;

use figures::Figures;
use library::Library;
use oracle::trace::machine::Machine;
use oracle::trace::*;
use std::io::{self, BufWriter, Write};
use std::process::ExitCode;
use std::time::{Duration, Instant};

/// The stored list, with the oracle's answers.
fn stored_list(figures: &mut Figures) -> cases::List {
    let mut machine = Machine::default();
    figures.begin();
    let answered = |operation: Operation| {
        let answer = machine.answer(&operation).expect("it is stored");
        figures.count(&operation, &answer);
        (operation, answer)
    };
    stored::list().into_iter().map(answered).collect()
}

fn batch(seed: u64, figures: &mut Figures, samples: u64) -> cases::List {
    let mut machine = Machine::default();
    let mut all = Vec::new();
    let until = figures.samples + samples;
    figures.begin();
    let mut k = 0;
    while figures.samples < until && k < 400 {
        let case = cases::case(seed.wrapping_mul(1_000_003).wrapping_add(k), &mut machine);
        figures.case(&case);
        all.extend(case.list);
        k += 1;
    }
    all
}

/// Whether both sides answer a list alike, with the library's time added; where they don't, the smallest
/// case is printed.
fn agree(name: &str, all: &cases::List, time: &mut Duration) -> bool {
    let mut library = Library::default();
    let begun = Instant::now();
    let answers: Vec<Answer> = all.iter().map(|(o, _)| library.answer(o)).collect();
    *time += begun.elapsed();
    let Some(at) = (0..all.len()).find(|&i| answers[i] != all[i].1) else {
        return true;
    };
    println!("a difference at operation {at} of {name}");
    let operations: Vec<&Operation> = all[..=at].iter().map(|(o, _)| o).collect();
    shrink::show(&operations);
    false
}

fn compare(seed: u64, samples: u64) -> bool {
    let mut time = Duration::ZERO;
    let mut figures = Figures::default();
    let begun = Instant::now();
    if !agree("the stored list", &stored_list(&mut figures), &mut time) {
        return false;
    }
    let mut number = 0;
    while figures.samples < samples {
        let seed = seed.wrapping_mul(1 << 20).wrapping_add(number);
        let most = (samples - figures.samples).min(2_000_000);
        let all = batch(seed, &mut figures, most);
        if !agree(&format!("batch {number}"), &all, &mut time) {
            return false;
        }
        number += 1;
    }
    let recordings = match recordings::compare(seed, samples / 1000) {
        Ok(met) => met,
        Err(difference) => {
            println!("a difference at a recording's {difference}");
            return false;
        }
    };
    let closeness = match closeness::compare(seed, samples / 20) {
        Ok(met) => met,
        Err(difference) => {
            println!("a difference at DC undone: {difference}");
            return false;
        }
    };
    figures.say();
    recordings.say();
    closeness.say();
    println!(
        "0 differences; {:.0} s, {:.0} s of them the library",
        begun.elapsed().as_secs_f64(),
        time.as_secs_f64()
    );
    true
}

fn usage() -> ExitCode {
    eprintln!("usage: compare_trace SEED SAMPLES | compare_trace stored");
    ExitCode::from(2)
}

fn main() -> ExitCode {
    let args: Vec<String> = std::env::args().skip(1).collect();
    if args == ["stored"] {
        let mut to = BufWriter::new(io::stdout().lock());
        for operation in stored::list() {
            operation.write(&mut to).expect("standard output takes it");
        }
        to.flush().expect("standard output takes it");
        return ExitCode::SUCCESS;
    }
    let [seed, samples] = &args[..] else {
        return usage();
    };
    let (Ok(seed), Ok(samples)) = (seed.parse(), samples.parse()) else {
        return usage();
    };
    assert!(vatgorge::is_as_named(), "another library");
    if compare(seed, samples) {
        ExitCode::SUCCESS
    } else {
        ExitCode::FAILURE
    }
}
