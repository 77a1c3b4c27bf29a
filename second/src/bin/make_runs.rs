//! Writes the inputs for benchmarks into a folder: full inputs in which every record is accepted.

use std::path::Path;
use std::process::ExitCode;

use second::bench::{run, Record, LONGEST_INPUT};
use second::hex::octets_of_text;

/// Document 01's example settings.
const EXAMPLE_SETTINGS: &str = "
    00 08 07D0 000000C8 0000C1B4 0000A9B4 FFFF 000186A0 00000000
    00004573 00004573 00004573 00004573 00004573 00004573 00004573 00004573";

/// Priority 0, M 64, no delays, I 1: W 84, one-way 168, headroom 252, rooms 316. Once a frame is
/// held, pause stays wanted and every PFC frame is due again one octet time after its start.
const SHORTEST_SETTINGS: &str = "
    00 01 0040 00000000 00000000 00000000 FFFF 00000001 00000000
    0000013C 0000013C 0000013C 0000013C 0000013C 0000013C 0000013C 0000013C";

/// Priority 0, M 64, generation 80 bits (G 10), I 100,000: one-way 178, headroom 262, rooms 326.
const MIXED_SETTINGS: &str = "
    00 01 0040 00000050 00000000 00000000 FFFF 000186A0 00000000
    00000146 00000146 00000146 00000146 00000146 00000146 00000146 00000146";

const ARRIVES: Record = Record::DataArrives;
const START_PFC: Record = Record::StartPfc;
const EFFECT: Record = Record::PfcTakesEffect;
const NO_WAIT: Record = wait(0);
/// The wire time of a frame of 64 octets, and of a PFC frame.
const WIRE: Record = wait(84);

const fn wait(n: u16) -> Record {
    Record::Wait { n }
}

const fn start(priority: u8) -> Record {
    Record::StartData {
        priority,
        length: 64,
    }
}

fn main() -> ExitCode {
    let arguments: Vec<String> = std::env::args().skip(1).collect();
    let outcome = match arguments.as_slice() {
        [folder] => make_runs(Path::new(folder)),
        _ => Err("usage: make_runs DIR".to_string()),
    };
    match outcome {
        Ok(()) => ExitCode::SUCCESS,
        Err(why) => {
            eprintln!("make_runs: {why}");
            ExitCode::FAILURE
        }
    }
}

fn make_runs(folder: &Path) -> Result<(), String> {
    std::fs::create_dir_all(folder).map_err(|error| format!("{}: {error}", folder.display()))?;
    // Nothing is ever under way or due, so every wait of the longest is accepted.
    let waits = full_input(EXAMPLE_SETTINGS, &[], &[wait(0xFFFF)]);
    // Three records in five octets, two of them of one octet: no accepted cycle has more records
    // to its octets, since a wire has to be waited for with three octets between any two frames.
    let wanted_first = [start(0), WIRE, ARRIVES];
    let shortest = full_input(SHORTEST_SETTINGS, &wanted_first, &[START_PFC, WIRE, EFFECT]);
    let mixed = full_input(MIXED_SETTINGS, &[], &pause_and_resume());
    write(folder, "waits.bin", &waits)?;
    write(folder, "shortest.bin", &shortest)?;
    write(folder, "mixed.bin", &mixed)
}

/// A frame makes pause wanted, A is paused, the disk takes the frame, A is resumed; beside it a
/// frame of a priority not enabled and an other frame of B.
fn pause_and_resume() -> Vec<Record> {
    let taken = Record::DiskTakes {
        priority: 0,
        octets: 64,
    };
    let other = Record::StartOther { length: 64 };
    let pause = [start(0), WIRE, ARRIVES, START_PFC, start(1), WIRE, ARRIVES];
    let resume = [EFFECT, taken, other, WIRE, START_PFC, WIRE, EFFECT];
    [pause, resume].concat()
}

/// Settings, the first records, then the cycle as often as it fits, then waits of 0 as they fit.
fn full_input(settings: &str, first: &[Record], cycle: &[Record]) -> Vec<u8> {
    let mut input = octets_of_text(settings.as_bytes()).expect("the settings above are hex");
    input.extend(octets_of(first));
    for row in [octets_of(cycle), octets_of(&[NO_WAIT])] {
        while input.len() + row.len() <= LONGEST_INPUT {
            input.extend(&row);
        }
    }
    input
}

fn octets_of(records: &[Record]) -> Vec<u8> {
    let mut octets = Vec::new();
    for record in records {
        record.write_to(&mut octets);
    }
    octets
}

/// Writes an input, once a run has shown that all of it is accepted.
fn write(folder: &Path, name: &str, input: &[u8]) -> Result<(), String> {
    let report = run(input);
    if report.refusal.is_some() {
        return Err(format!("{name} would be refused: {report}"));
    }
    let path = folder.join(name);
    std::fs::write(&path, input).map_err(|error| format!("{}: {error}", path.display()))?;
    println!(
        "{}: {} octets, {} records accepted after the settings, time {}",
        path.display(),
        input.len(),
        report.steps,
        report.time.0
    );
    Ok(())
}
