//! Shows that the comparison notices: against this library with one rule broken at a time.

use second::slips::{all_slips, Slip};

use crate::comparison::{difference, make_run, our_answer, Difference, Made};
use crate::other::{bench_answer, vectors_answer, Answer, Other, SlippedLibrary};
use crate::tally::Tally;

/// A slip not seen in so many runs has gone unnoticed.
const MOST_RUNS: u64 = 1_500;

/// The library against itself is tried this often.
const TRUE_COPY_RUNS: u64 = 200;

/// This library as it is.
struct TrueCopy;

impl Other for TrueCopy {
    fn bench(&mut self, input: &[u8]) -> Answer {
        Ok(bench_answer(input))
    }

    fn vectors(&mut self, file: &[u8]) -> Answer {
        Ok(vectors_answer(file))
    }

    fn has_bench(&self) -> bool {
        true
    }

    fn has_vectors(&self) -> bool {
        true
    }
}

/// The answer is whether every slip was noticed and the true copy was not.
pub fn self_test(seed: u64) -> bool {
    let mut runs = Runs {
        seed,
        made: Vec::new(),
    };
    let mut all_well = true;
    if let Some((run, difference)) = first_difference(&mut runs, &mut TrueCopy, TRUE_COPY_RUNS) {
        let kind = difference.kind;
        println!("FALSE ALARM on a true copy, run {run}, {kind}");
        all_well = false;
    } else {
        println!("a true copy: no difference in {TRUE_COPY_RUNS} runs");
    }
    for slip in all_slips() {
        let text = slip.text();
        let mut other = SlippedLibrary(slip);
        match first_difference(&mut runs, &mut other, MOST_RUNS) {
            Some((run, difference)) => {
                let what = described(slip, difference, &mut other);
                println!("noticed in run {run} ({what}): {text}");
            }
            None => {
                println!("UNNOTICED in {MOST_RUNS} runs: {text}");
                all_well = false;
            }
        }
    }
    all_well
}

/// What the run was; its input is shrunk, but for a pair of an order line. There an input was made
/// for the pair, and one with 128 frames under way takes long to shrink and stays long.
fn described(slip: Slip, mut difference: Difference, other: &mut dyn Other) -> String {
    let kind = difference.kind.to_string();
    if matches!(slip, Slip::OutOfOrder(_)) {
        return kind;
    }
    match difference.shrink(other) {
        Some(records) => format!("{kind}, shrunk to {records} records"),
        None => kind,
    }
}

/// The runs of a seed with our answers, each made once.
struct Runs {
    seed: u64,
    made: Vec<(Made, Vec<u8>)>,
}

impl Runs {
    fn run(&mut self, run: u64) -> &(Made, Vec<u8>) {
        while self.made.len() as u64 <= run {
            let made = make_run(self.seed, self.made.len() as u64);
            let ours = our_answer(&made, &mut Tally::default());
            self.made.push((made, ours));
        }
        &self.made[run as usize]
    }
}

/// The first run that differs, and how.
fn first_difference(
    runs: &mut Runs,
    other: &mut dyn Other,
    most_runs: u64,
) -> Option<(u64, Difference)> {
    (0..most_runs).find_map(|run| {
        let (made, ours) = runs.run(run);
        difference(other, made, ours).map(|difference| (run, difference))
    })
}
