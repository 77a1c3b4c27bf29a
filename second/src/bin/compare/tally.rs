//! Counts what the runs were and what they reached.

use std::collections::{BTreeMap, BTreeSet};

use second::bench::{run_watched, Bench, Record, Report};
use second::headroom::{calculate, Inputs, LONGEST_PATH};
use second::order::{with_pairs_met, Pair, ALL_LINES};
use second::refusal::Refusal;
use second::slips::{with_slip, Slip};
use second::vectors::{answer_case, cases, headroom_inputs};
use second::PRIORITIES;

use crate::bench_inputs::{BenchKind, REACHABLE_REFUSALS};
use crate::other::vectors_answer;
use crate::vector_inputs::CaseKind;

/// The ways to get document 02's L2 wrong.
pub const LOWERING_SLIPS: [Slip; 9] = [
    Slip::LoweringWraps,
    Slip::CountCutTo16Bits,
    Slip::CountCutTo32Bits,
    Slip::CountStopsAt65534,
    Slip::TimerAtCountKept,
    Slip::TimerBelowCountKept,
    Slip::LoweredAsSigned,
    Slip::LastTimerLeftOut,
    Slip::OnlyEnabledLowered,
];

/// A path so many bits or fewer from its limit is near it.
const NEAR: u64 = 3;

#[derive(Default)]
pub struct Tally {
    by_kind: BTreeMap<&'static str, u64>,
    by_refusal: BTreeMap<u8, u64>,
    /// Runs that met a pair: a vector file with many such cases is one.
    by_pair: BTreeMap<Pair, u64>,
    vector_files: u64,
    /// Head cases that are answered otherwise with each of these slips.
    pub otherwise_lowered: [u64; LOWERING_SLIPS.len()],
    /// Headroom cases whose link has other bits by light at 300 metres per microsecond, and those
    /// that are answered with another refusal by it.
    pub other_link: u64,
    pub other_refusal: u64,
    /// Headroom cases with a link above 0 bits and a request path near its limit.
    pub path_near_limit: u64,
    paused: u64,
    refreshed: u64,
    resumed: u64,
    /// Runs with a pause, then a refresh, then a resume.
    all_three: u64,
    /// The largest worst, in thousandths of its headroom.
    highest_worst: u64,
    /// Runs in which document 01's promise fails: a frame dropped, or worst above the headroom.
    pub promise_broken: u64,
    pub differed: u64,
}

/// What one run went through.
#[derive(Default)]
struct Seen {
    timers: [u16; PRIORITIES],
    was_due: bool,
    paused: bool,
    refreshed: bool,
    resumed: bool,
    headroom: u64,
}

impl Seen {
    fn see(&mut self, record: Record, bench: &Bench) {
        let timers = bench.head().timers;
        let is_due = bench.recorder().due_since().is_some();
        match record {
            Record::Wait { .. } => self.refreshed |= self.paused && is_due && !self.was_due,
            Record::PfcTakesEffect => {
                let pairs = || self.timers.iter().zip(timers);
                let pauses = pairs().any(|(&before, after)| before == 0 && after > 0);
                let resumes = pairs().any(|(&before, after)| before > 0 && after == 0);
                self.paused |= pauses;
                self.resumed |= resumes;
            }
            _ => (),
        }
        self.timers = timers;
        self.was_due = is_due;
        self.headroom = bench.delays().headroom().octets_carried();
    }
}

impl Tally {
    /// Counts a bench input; the answer is this library's report.
    pub fn count_bench(&mut self, kind: BenchKind, input: &[u8]) -> Report {
        let mut seen = Seen::default();
        let work = || run_watched(input, |record, bench| seen.see(record, bench));
        let (report, met) = with_pairs_met(work);
        self.count_pairs(met);
        *self.by_kind.entry(kind.text()).or_default() += 1;
        if let Some(refusal) = report.refusal {
            *self.by_refusal.entry(refusal.number()).or_default() += 1;
        }
        self.paused += u64::from(seen.paused);
        self.refreshed += u64::from(seen.refreshed);
        self.resumed += u64::from(seen.resumed);
        self.all_three += u64::from(seen.refreshed && seen.resumed);
        self.count_worst(&report, seen.headroom);
        report
    }

    fn count_worst(&mut self, report: &Report, headroom: u64) {
        let mut broken = false;
        for line in &report.lines {
            broken |= line.dropped > 0 || line.worst > headroom;
            // No headroom is known where no record was accepted.
            let share = (line.worst * 1_000).checked_div(headroom).unwrap_or(0);
            self.highest_worst = self.highest_worst.max(share);
        }
        self.promise_broken += u64::from(broken);
    }

    /// Counts a vector file; the answer is what this library prints.
    pub fn count_vectors(&mut self, kinds: &[CaseKind], file: &[u8]) -> Vec<u8> {
        self.vector_files += 1;
        for kind in kinds {
            *self.by_kind.entry(kind.text()).or_default() += 1;
        }
        for inputs in cases(file).filter_map(headroom_inputs) {
            self.count_headroom(&inputs);
        }
        for case in cases(file).filter(|case| case.first() == Some(&0x03)) {
            self.count_head(case);
        }
        let (answer, met) = with_pairs_met(|| vectors_answer(file));
        self.count_pairs(met);
        answer
    }

    fn count_head(&mut self, case: &[u8]) {
        let answer = answer_case(case);
        for (count, slip) in self.otherwise_lowered.iter_mut().zip(LOWERING_SLIPS) {
            *count += u64::from(with_slip(slip, || answer_case(case)) != answer);
        }
    }

    fn count_headroom(&mut self, inputs: &Inputs) {
        let answer = calculate(inputs);
        if !matches!(
            answer,
            Ok(_) | Err(Refusal::DelayTooLong | Refusal::HaltTooLong)
        ) {
            // The link decides nothing where 10, 11, 12 or 13 is given.
            return;
        }
        let link = inputs.link();
        let (other_link, other_answer) =
            with_slip(Slip::LightAt300, || (inputs.link(), calculate(inputs)));
        self.other_link += u64::from(other_link != link);
        self.other_refusal += u64::from(other_answer.err() != answer.err());
        let from_limit = inputs.request_path(link).0.abs_diff(LONGEST_PATH.0);
        self.path_near_limit += u64::from(link.0 > 0 && from_limit <= NEAR);
    }

    fn count_pairs(&mut self, met: BTreeSet<Pair>) {
        for pair in met {
            *self.by_pair.entry(pair).or_default() += 1;
        }
    }

    pub fn print(&self) {
        println!("inputs and cases by kind:");
        for (kind, count) in &self.by_kind {
            println!("  {kind}: {count}");
        }
        self.print_vectors();
        println!("bench runs that reached each refusal:");
        for number in REACHABLE_REFUSALS {
            println!("  {number}: {}", self.reached(number));
        }
        let others = self.by_refusal.keys();
        for number in others.filter(|number| !REACHABLE_REFUSALS.contains(number)) {
            println!("  {number} (not expected): {}", self.reached(*number));
        }
        self.print_pairs();
        println!("bench runs with a pause: {}", self.paused);
        println!("bench runs with a resume: {}", self.resumed);
        println!(
            "bench runs with a refresh after a pause: {}",
            self.refreshed
        );
        println!(
            "bench runs with pause, refresh and resume: {}",
            self.all_three
        );
        let (whole, tenth) = (self.highest_worst / 10, self.highest_worst % 10);
        println!("highest worst: {whole}.{tenth} % of its headroom");
        println!("runs that break the promise: {}", self.promise_broken);
        println!("differed: {}", self.differed);
    }

    fn print_vectors(&self) {
        println!("vector files: {}", self.vector_files);
        println!("head cases that would be answered otherwise if");
        for (count, slip) in self.otherwise_lowered.iter().zip(LOWERING_SLIPS) {
            println!("  {}: {count}", slip.text());
        }
        println!("headroom cases past 10 to 13:");
        println!(
            "  with other bits by light at 300 metres per microsecond: {}",
            self.other_link
        );
        println!("  with another refusal by it: {}", self.other_refusal);
        println!(
            "  with a link above 0 bits and a request path within {NEAR} bits of its limit: {}",
            self.path_near_limit
        );
    }

    fn print_pairs(&self) {
        println!("runs that met both of a pair of an order line, the first two that held there:");
        for line in ALL_LINES {
            let count = |pair: &Pair| self.by_pair.get(pair).copied().unwrap_or(0);
            let pairs = line.pairs().into_iter();
            let counts: Vec<String> = pairs
                .map(|pair| format!("{pair}: {}", count(&pair)))
                .collect();
            println!("  {}: {}", line.text(), counts.join(", "));
        }
        for (pair, count) in &self.by_pair {
            if !pair.line.pairs().contains(pair) {
                println!("  {}: {pair} (not expected): {count}", pair.line.text());
            }
        }
    }

    /// How many inputs or cases of a kind were counted.
    #[cfg(test)]
    pub fn count_of(&self, kind: &str) -> u64 {
        self.by_kind.get(kind).copied().unwrap_or(0)
    }

    fn reached(&self, number: u8) -> u64 {
        self.by_refusal.get(&number).copied().unwrap_or(0)
    }
}
