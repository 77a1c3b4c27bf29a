//! Reads a vector file on standard input and prints one line a case.

use std::io::{self, BufWriter, Read, Write};
use std::process::ExitCode;

use second::vectors::{answer_case, cases};

fn main() -> ExitCode {
    match answer() {
        Ok(()) => ExitCode::SUCCESS,
        Err(error) => {
            eprintln!("second_vectors: {error}");
            ExitCode::FAILURE
        }
    }
}

fn answer() -> io::Result<()> {
    let mut file = Vec::new();
    io::stdin().lock().read_to_end(&mut file)?;
    let mut output = BufWriter::new(io::stdout().lock());
    for case in cases(&file) {
        writeln!(output, "{}", answer_case(case))?;
    }
    output.flush()
}
