//! Answers the operations of a trace, from standard input to standard output, as the original and the
//! second reading have it. `crates/test_trace/stdout` is what it writes on `crates/test_trace/stdin`:
//!
//!     cd oracle && cargo run --release --bin trace < ../crates/test_trace/stdin > ../crates/test_trace/stdout
//!
//! With the argument `print` it writes the operations and the fronts of their answers as text.

use oracle::trace::machine::Machine;
use oracle::trace::{show, Operation};
use std::io::{self, BufReader, BufWriter, Write};

fn main() -> io::Result<()> {
    let print = std::env::args().nth(1).is_some_and(|word| word == "print");
    let mut from = BufReader::new(io::stdin().lock());
    let mut to = BufWriter::new(io::stdout().lock());
    let mut machine = Machine::default();
    while let Some(operation) = Operation::read(&mut from)? {
        let answer = machine
            .answer(&operation)
            .map_err(|no| io::Error::new(io::ErrorKind::InvalidData, no.0))?;
        if print {
            writeln!(to, "{}", show::operation(&operation))?;
            writeln!(to, "  -> {}", show::front(&answer))?;
        } else {
            answer.write(&mut to)?;
        }
    }
    to.flush()
}
