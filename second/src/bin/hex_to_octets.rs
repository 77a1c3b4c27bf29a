//! Turns hex text with `#` comments, from standard input or a named file, into octets.

use std::io::{self, Read, Write};
use std::process::ExitCode;

use second::hex::octets_of_text;

fn main() -> ExitCode {
    let arguments: Vec<String> = std::env::args().skip(1).collect();
    let outcome = match arguments.as_slice() {
        [] => from_standard_input().and_then(|text| turn("standard input", &text)),
        [name] => from_file(name).and_then(|text| turn(name, &text)),
        _ => Err("usage: hex_to_octets [FILE]".to_string()),
    };
    match outcome {
        Ok(()) => ExitCode::SUCCESS,
        Err(why) => {
            eprintln!("hex_to_octets: {why}");
            ExitCode::FAILURE
        }
    }
}

fn from_standard_input() -> Result<Vec<u8>, String> {
    let mut text = Vec::new();
    match io::stdin().lock().read_to_end(&mut text) {
        Ok(_) => Ok(text),
        Err(error) => Err(format!("standard input: {error}")),
    }
}

fn from_file(name: &str) -> Result<Vec<u8>, String> {
    std::fs::read(name).map_err(|error| format!("{name}: {error}"))
}

/// Writes nothing at all where the text is bad.
fn turn(name: &str, text: &[u8]) -> Result<(), String> {
    let octets =
        octets_of_text(text).map_err(|bad| format!("{name}, line {}: {}", bad.line, bad.why))?;
    io::stdout()
        .lock()
        .write_all(&octets)
        .map_err(|error| format!("standard output: {error}"))
}
