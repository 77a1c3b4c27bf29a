//! The bench program: reads records on standard input, runs the bench and prints the report.

use std::io::{self, Read, Write};
use std::process::ExitCode;

use second::bench::{run, LONGEST_INPUT};

fn main() -> ExitCode {
    match read_and_print() {
        Ok(()) => ExitCode::SUCCESS,
        Err(error) => {
            eprintln!("second_bench: {error}");
            ExitCode::FAILURE
        }
    }
}

fn read_and_print() -> io::Result<()> {
    let report = run(&input()?).to_string();
    io::stdout().lock().write_all(report.as_bytes())
}

/// Standard input; of one too long, no more than shows that it is.
fn input() -> io::Result<Vec<u8>> {
    let mut input = Vec::with_capacity(LONGEST_INPUT + 1);
    io::stdin()
        .lock()
        .take(LONGEST_INPUT as u64 + 1)
        .read_to_end(&mut input)?;
    Ok(input)
}
