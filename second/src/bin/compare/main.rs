//! Compares another program with this library on many inputs made from a seed.

mod bench_inputs;
mod both_hold;
mod commented;
mod comparison;
mod crowds;
mod other;
mod random;
mod run_under_way;
mod self_test;
mod settings_record;
mod shrink;
mod tally;
#[cfg(test)]
mod tests;
mod vector_inputs;

use std::process::ExitCode;
use std::time::{Duration, Instant, SystemTime, UNIX_EPOCH};

use comparison::{compare, make_run};
use other::{Other, OtherPrograms};
use random::Random;
use tally::Tally;

const USAGE: &str = "\
usage: compare --bench PATH --vectors PATH [--seed N] [--seconds S] [--runs N] [--only RUN]
       compare --self-test [--seed N]
One of --bench and --vectors may be left out. Without --seconds and --runs it goes on for 10 seconds.
--only RUN makes that one run of the seed again.";

/// So many differences are shrunk and shown; the rest are counted.
const MOST_SHOWN: u64 = 5;

#[derive(Default)]
struct Arguments {
    programs: OtherPrograms,
    self_test: bool,
    seed: Option<u64>,
    seconds: Option<u64>,
    runs: Option<u64>,
    only: Option<u64>,
}

fn main() -> ExitCode {
    let arguments = match arguments(std::env::args().skip(1)) {
        Ok(arguments) => arguments,
        Err(why) => {
            eprintln!("compare: {why}\n{USAGE}");
            return ExitCode::from(2);
        }
    };
    let seed = arguments.seed.unwrap_or_else(seed_from_clock);
    println!("seed {seed}");
    let all_well = if arguments.self_test {
        self_test::self_test(seed)
    } else {
        compare_runs(arguments, seed)
    };
    if all_well {
        ExitCode::SUCCESS
    } else {
        ExitCode::FAILURE
    }
}

fn arguments(mut words: impl Iterator<Item = String>) -> Result<Arguments, String> {
    let mut arguments = Arguments::default();
    while let Some(word) = words.next() {
        if word == "--self-test" {
            arguments.self_test = true;
            continue;
        }
        let value = words.next().ok_or(format!("{word} needs a value"))?;
        let number = || {
            value
                .parse::<u64>()
                .map_err(|_| format!("{word} {value}: no number"))
        };
        match word.as_str() {
            "--bench" => arguments.programs.bench = Some(value.into()),
            "--vectors" => arguments.programs.vectors = Some(value.into()),
            "--seed" => arguments.seed = Some(number()?),
            "--seconds" => arguments.seconds = Some(number()?),
            "--runs" => arguments.runs = Some(number()?),
            "--only" => arguments.only = Some(number()?),
            _ => return Err(format!("{word} is not known")),
        }
    }
    let named = [&arguments.programs.bench, &arguments.programs.vectors];
    for program in named.into_iter().flatten() {
        if !program.is_file() {
            return Err(format!("{} is no file", program.display()));
        }
    }
    let nothing_named = !arguments.programs.has_bench() && !arguments.programs.has_vectors();
    if nothing_named && !arguments.self_test {
        return Err("no program to compare with".to_string());
    }
    Ok(arguments)
}

fn seed_from_clock() -> u64 {
    let since = SystemTime::now().duration_since(UNIX_EPOCH);
    let mixed = Random::new(since.map_or(0, |since| since.as_nanos() as u64)).next();
    // Short enough to be typed again.
    mixed % 1_000_000_000
}

/// The answer is whether nothing differed.
fn compare_runs(arguments: Arguments, seed: u64) -> bool {
    let mut programs = arguments.programs;
    let mut tally = Tally::default();
    let start = Instant::now();
    let default_seconds = if arguments.runs.is_some() {
        u64::MAX
    } else {
        10
    };
    let seconds = arguments.seconds.unwrap_or(default_seconds);
    let (first, last) = match arguments.only {
        Some(only) => (only, only + 1),
        None => (0, arguments.runs.unwrap_or(u64::MAX)),
    };
    for run in first..last {
        if start.elapsed() >= Duration::from_secs(seconds) {
            break;
        }
        let made = make_run(seed, run);
        let Some(mut difference) = compare(&mut programs, &made, &mut tally) else {
            continue;
        };
        println!(
            "DIFFERENCE in run {run} of seed {seed}, {}",
            difference.kind
        );
        if tally.differed <= MOST_SHOWN {
            difference.shrink(&mut programs);
            println!("{}", difference.text(&mut programs));
        }
    }
    tally.print();
    println!("seconds: {}", start.elapsed().as_secs());
    tally.differed == 0 && tally.promise_broken == 0
}
