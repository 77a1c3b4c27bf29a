//! Makes an input that shows a difference shorter while it still shows one.

use std::time::{Duration, Instant};

use second::bench::LONGEST_INPUT;

use crate::bench_inputs::record_starts;
use crate::settings_record::FIELD_WIDTHS;

/// How much is tried, at most.
const MOST_TRIES: u32 = 20_000;
const LONGEST_SHRINK: Duration = Duration::from_secs(60);

/// Shrinks a bench input; `differs` says whether an input still shows a difference.
pub fn shrink(input: &[u8], differs: impl FnMut(&[u8]) -> bool) -> Vec<u8> {
    let mut shrinker = Shrinker {
        best: input.to_vec(),
        differs,
        tries_left: MOST_TRIES,
        end: Instant::now() + LONGEST_SHRINK,
    };
    loop {
        let before = shrinker.best.clone();
        shrinker.cut_the_end();
        // A difference that needs an input too long needs its every octet.
        if shrinker.best.len() > LONGEST_INPUT {
            return shrinker.best;
        }
        shrinker.remove_records();
        shrinker.remove_frames();
        shrinker.join_waits();
        shrinker.shorten_numbers();
        if shrinker.best == before || shrinker.is_out_of_tries() {
            return shrinker.best;
        }
    }
}

struct Shrinker<F> {
    best: Vec<u8>,
    differs: F,
    tries_left: u32,
    end: Instant,
}

impl<F: FnMut(&[u8]) -> bool> Shrinker<F> {
    fn is_out_of_tries(&self) -> bool {
        self.tries_left == 0 || Instant::now() > self.end
    }

    /// Keeps the candidate if it still differs.
    fn attempt(&mut self, candidate: Vec<u8>) -> bool {
        if self.is_out_of_tries() {
            return false;
        }
        self.tries_left -= 1;
        let still = (self.differs)(&candidate);
        if still {
            self.best = candidate;
        }
        still
    }

    /// Looks for a short front part that differs, by halves.
    fn cut_the_end(&mut self) {
        let (mut same, mut different) = (0, record_starts(&self.best).len() - 1);
        while same + 1 < different && !self.is_out_of_tries() {
            let starts = record_starts(&self.best);
            let middle = same + (different - same) / 2;
            if self.attempt(self.best[..starts[middle]].to_vec()) {
                different = middle;
            } else {
                same = middle;
            }
        }
    }

    /// Takes rows of records out, long rows first.
    fn remove_records(&mut self) {
        let mut row = record_starts(&self.best).len() / 2;
        while row > 0 {
            let mut first = 0;
            while first + row < record_starts(&self.best).len() && !self.is_out_of_tries() {
                let starts = record_starts(&self.best);
                let mut candidate = self.best.clone();
                candidate.drain(starts[first]..starts[first + row]);
                if !self.attempt(candidate) {
                    first += row;
                }
            }
            row /= 2;
        }
    }

    /// Takes out frames with their arrivals: the start of the k-th and the k-th arrival together.
    fn remove_frames(&mut self) {
        for (start_kind, arrival_kind) in [(0x02, 0x03), (0x05, 0x06)] {
            let mut k = 0;
            while let (Some(start), Some(arrival)) = (
                nth_of_kind(&self.best, start_kind, k),
                nth_of_kind(&self.best, arrival_kind, k),
            ) {
                let mut records = records_of(&self.best);
                let (first, second) = (start.min(arrival), start.max(arrival));
                records.remove(second);
                records.remove(first);
                if self.is_out_of_tries() || !self.attempt(records.concat()) {
                    k += 1;
                }
            }
        }
    }

    /// Puts a wait's octet times into the next wait, so that later moments stay what they are.
    fn join_waits(&mut self) {
        let mut k = 0;
        while let (Some(one), Some(next)) = (
            nth_of_kind(&self.best, 0x01, k),
            nth_of_kind(&self.best, 0x01, k + 1),
        ) {
            let mut records = records_of(&self.best);
            let joined = wait_of(&records[one]).zip(wait_of(&records[next]));
            let sum = joined.and_then(|(first, second)| first.checked_add(second));
            let Some(sum) = sum else {
                k += 1;
                continue;
            };
            records[next][1..].copy_from_slice(&sum.to_be_bytes());
            records.remove(one);
            if self.is_out_of_tries() || !self.attempt(records.concat()) {
                k += 1;
            }
        }
    }

    fn shorten_numbers(&mut self) {
        let starts = record_starts(&self.best);
        for start in starts {
            for (at, width) in numbers_of_record(&self.best[start..]) {
                self.shorten_number(start + at, width);
            }
        }
    }

    /// Brings a number as near to 0 as the difference lasts, by halves of what is left.
    fn shorten_number(&mut self, at: usize, width: usize) {
        let mut step = number_at(&self.best, at, width);
        while step > 0 && !self.is_out_of_tries() {
            let value = number_at(&self.best, at, width);
            if step <= value && self.attempt(with_number(&self.best, at, width, value - step)) {
                continue;
            }
            step /= 2;
        }
    }
}

fn records_of(input: &[u8]) -> Vec<Vec<u8>> {
    let starts = record_starts(input);
    let records = starts.windows(2);
    records
        .map(|pair| input[pair[0]..pair[1]].to_vec())
        .collect()
}

/// The record number of the k-th record of a kind, counted from 0.
fn nth_of_kind(input: &[u8], kind: u8, k: usize) -> Option<usize> {
    let records = records_of(input);
    let mut of_kind = (0..records.len()).filter(|&n| records[n].first() == Some(&kind));
    of_kind.nth(k)
}

/// The octet times of a whole wait.
fn wait_of(record: &[u8]) -> Option<u16> {
    let body = record.get(1..)?;
    body.try_into().ok().map(u16::from_be_bytes)
}

/// Place and width of each number in the record at the front, where it is whole.
fn numbers_of_record(record: &[u8]) -> Vec<(usize, usize)> {
    let widths: &[usize] = match record.first() {
        Some(0) => &FIELD_WIDTHS,
        Some(1 | 4) => &[2],
        Some(2 | 7) => &[1, 2],
        _ => &[],
    };
    let mut at = 1;
    let mut places = Vec::new();
    for &width in widths {
        if at + width <= record.len() {
            places.push((at, width));
        }
        at += width;
    }
    places
}

fn number_at(input: &[u8], at: usize, width: usize) -> u64 {
    input[at..at + width]
        .iter()
        .fold(0, |number, &octet| number << 8 | u64::from(octet))
}

fn with_number(input: &[u8], at: usize, width: usize, number: u64) -> Vec<u8> {
    let mut changed = input.to_vec();
    changed[at..at + width].copy_from_slice(&number.to_be_bytes()[8 - width..]);
    changed
}
