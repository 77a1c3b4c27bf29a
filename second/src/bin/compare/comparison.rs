//! Makes the runs of a seed one after the other and compares the answers.

use std::time::{Duration, Instant};

use second::hex::text_of_octets;
use second::vectors::cases;

use crate::bench_inputs::{self, BenchKind, REACHABLE_REFUSALS};
use crate::both_hold::bench_pairs;
use crate::commented::commented;
use crate::other::{bench_answer, Answer, Other};
use crate::random::Random;
use crate::shrink::shrink;
use crate::tally::Tally;
use crate::vector_inputs::{self, CaseKind};

/// What one run feeds to both sides.
pub enum Made {
    Bench(BenchKind, Vec<u8>),
    Vectors(Vec<u8>, Vec<CaseKind>),
}

/// A turn of the round in which the kinds of runs follow each other.
#[derive(Clone, Copy)]
enum Turn {
    Bench(BenchKind),
    OnPurpose,
    Vectors,
}

const ROUND: [Turn; 16] = [
    Turn::Bench(BenchKind::DeepRun),
    Turn::OnPurpose,
    Turn::Vectors,
    Turn::OnPurpose,
    Turn::Bench(BenchKind::LatestRun),
    Turn::OnPurpose,
    Turn::Bench(BenchKind::DamagedRun),
    Turn::OnPurpose,
    Turn::Bench(BenchKind::SettingsNearLimits),
    Turn::OnPurpose,
    Turn::Bench(BenchKind::DeepRun),
    Turn::OnPurpose,
    Turn::Bench(BenchKind::RandomRecords),
    Turn::OnPurpose,
    Turn::Bench(BenchKind::RandomOctets),
    Turn::OnPurpose,
];

/// The large inputs come this seldom.
const LARGE_EVERY: u64 = 97;

/// The run of this number; the same for the same seed.
pub fn make_run(seed: u64, run: u64) -> Made {
    let mut random = Random::of_run(seed, run);
    match turn(run) {
        Turn::Bench(kind) => Made::Bench(kind, bench_inputs::make(&mut random, kind)),
        Turn::OnPurpose => {
            // Every second run is one of these.
            let kind = on_purpose(run / 2);
            Made::Bench(kind, bench_inputs::make(&mut random, kind))
        }
        Turn::Vectors => {
            let (file, kinds) = vector_inputs::make_file(&mut random);
            Made::Vectors(file, kinds)
        }
    }
}

/// By turns, a number is refused and a pair of an order line is met, each one after the other.
fn on_purpose(turns: u64) -> BenchKind {
    let place = (turns / 2) as usize;
    if turns.is_multiple_of(2) {
        return BenchKind::RefusedLast(REACHABLE_REFUSALS[place % REACHABLE_REFUSALS.len()]);
    }
    let pairs = bench_pairs();
    BenchKind::BothHold(pairs[place % pairs.len()])
}

fn turn(run: u64) -> Turn {
    match run % LARGE_EVERY {
        5 => Turn::Bench(BenchKind::Full),
        6 => Turn::Bench(BenchKind::TooLong),
        7 => Turn::Bench(BenchKind::Empty),
        _ => ROUND[(run % ROUND.len() as u64) as usize],
    }
}

/// How many short runs are tried in the place of a long one that does not shrink further.
const SHORT_RUNS_TRIED: u32 = 600;

/// And for how long.
const LONGEST_SEARCH: Duration = Duration::from_secs(60);

/// An input of so many records is easily read.
const SHORT_ENOUGH: usize = 12;

fn record_count(input: &[u8]) -> usize {
    bench_inputs::record_starts(input).len() - 1
}

/// A difference between this library and the other program.
pub struct Difference {
    pub kind: &'static str,
    shown: Shown,
}

enum Shown {
    Bench {
        input: Vec<u8>,
    },
    Case {
        case: Vec<u8>,
        ours: String,
        theirs: String,
    },
    File(String),
}

/// Compares one run. Runs the other program has no part in are passed over.
pub fn compare(other: &mut dyn Other, made: &Made, tally: &mut Tally) -> Option<Difference> {
    let takes_part = match made {
        Made::Bench(..) => other.has_bench(),
        Made::Vectors(..) => other.has_vectors(),
    };
    if !takes_part {
        return None;
    }
    let ours = our_answer(made, tally);
    let difference = difference(other, made, &ours);
    tally.differed += u64::from(difference.is_some());
    difference
}

/// What this library prints for the run, which is counted.
pub fn our_answer(made: &Made, tally: &mut Tally) -> Vec<u8> {
    match made {
        Made::Bench(kind, input) => tally.count_bench(*kind, input).to_string().into_bytes(),
        Made::Vectors(file, kinds) => tally.count_vectors(kinds, file),
    }
}

/// How the other program's answer differs from ours, if it does.
pub fn difference(other: &mut dyn Other, made: &Made, ours: &[u8]) -> Option<Difference> {
    match made {
        Made::Bench(kind, input) => {
            let differs = !other.bench(input).is_ok_and(|theirs| theirs == ours);
            differs.then(|| Difference {
                kind: kind.text(),
                shown: Shown::Bench {
                    input: input.clone(),
                },
            })
        }
        Made::Vectors(file, kinds) => compare_vectors(file, kinds, ours, other.vectors(file)),
    }
}

fn compare_vectors(
    file: &[u8],
    kinds: &[CaseKind],
    ours: &[u8],
    theirs: Answer,
) -> Option<Difference> {
    let of_file = |why: String| Difference {
        kind: "vector file",
        shown: Shown::File(why),
    };
    let theirs = match theirs {
        Ok(theirs) => theirs,
        Err(why) => return Some(of_file(why)),
    };
    if ours == theirs {
        return None;
    }
    let (our_lines, their_lines) = (lines(ours), lines(&theirs));
    let place = (0..kinds.len()).find(|&n| our_lines.get(n) != their_lines.get(n));
    let Some(place) = place else {
        let why = format!(
            "{} lines against {}, or other line ends",
            our_lines.len(),
            their_lines.len()
        );
        return Some(of_file(why));
    };
    let line = |lines: &[String]| lines.get(place).cloned().unwrap_or_default();
    Some(Difference {
        kind: kinds[place].text(),
        shown: Shown::Case {
            case: cases(file).nth(place).unwrap_or_default().to_vec(),
            ours: line(&our_lines),
            theirs: line(&their_lines),
        },
    })
}

fn lines(printed: &[u8]) -> Vec<String> {
    String::from_utf8_lossy(printed)
        .lines()
        .map(str::to_string)
        .collect()
}

impl Difference {
    /// Shrinks a bench input as far as it goes; the count of its records, if it is one.
    pub fn shrink(&mut self, other: &mut dyn Other) -> Option<usize> {
        let Shown::Bench { input } = &mut self.shown else {
            return None;
        };
        let mut differs = |candidate: &[u8]| other.bench(candidate) != Ok(bench_answer(candidate));
        *input = shrink(input, &mut differs);
        // A long run often stays long; a fresh short one with its settings may show the same.
        let mut random = Random::new(input.len() as u64);
        let end = Instant::now() + LONGEST_SEARCH;
        for _ in 0..SHORT_RUNS_TRIED {
            if record_count(input) <= SHORT_ENOUGH || Instant::now() > end {
                break;
            }
            let Some(short) = bench_inputs::short_run_like(&mut random, input) else {
                continue;
            };
            if record_count(&short) < record_count(input) && differs(&short) {
                *input = shrink(&short, &mut differs);
            }
        }
        Some(record_count(input))
    }

    /// What a person needs to see it again.
    pub fn text(&self, other: &mut dyn Other) -> String {
        match &self.shown {
            Shown::Bench { input } => {
                let theirs = match other.bench(input) {
                    Ok(printed) => String::from_utf8_lossy(&printed).into_owned(),
                    Err(why) => format!("({why})\n"),
                };
                let ours = String::from_utf8_lossy(&bench_answer(input)).into_owned();
                format!(
                    "shortest input found, {} octets:\n{}ours:\n{ours}theirs:\n{theirs}",
                    input.len(),
                    commented(input)
                )
            }
            Shown::Case { case, ours, theirs } => format!(
                "case: {}\nours:   {ours}\ntheirs: {theirs}\n",
                text_of_octets(case)
            ),
            Shown::File(why) => format!("{why}\n"),
        }
    }
}
