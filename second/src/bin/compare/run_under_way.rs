//! A run under way: an input that grows by records the bench accepts, and the state it has led to.

use second::bench::{Bench, Record, LONGEST_INPUT};
use second::units::{OctetTimes, OCTET_TIMES_PER_QUANTUM};
use second::{bit, PRIORITIES};

use crate::random::Random;
use crate::settings_record::SettingsRecord;

/// What a stretch of a run leans to.
#[derive(Clone, Copy)]
enum Mood {
    /// A sends back to back, the disk takes nothing.
    Fill,
    /// The disk takes what there is.
    Drain,
    /// Marks go up and down.
    Flap,
    /// Little happens but waiting and refreshing.
    Idle,
    /// Everything happens at its last moment.
    Late,
    /// Anything.
    Any,
}

const MOODS: [Mood; 6] = [
    Mood::Fill,
    Mood::Drain,
    Mood::Flap,
    Mood::Idle,
    Mood::Late,
    Mood::Any,
];

/// How likely each kind of record, 01 to 07, is proposed in a mood.
fn weights(mood: Mood) -> [u64; 7] {
    match mood {
        Mood::Fill => [30, 40, 20, 2, 10, 10, 1],
        Mood::Drain => [30, 10, 15, 3, 15, 15, 40],
        Mood::Flap => [25, 25, 25, 1, 10, 10, 25],
        Mood::Idle => [60, 2, 5, 8, 10, 10, 1],
        Mood::Late => [80, 40, 1, 10, 1, 1, 1],
        Mood::Any => [20, 15, 15, 10, 10, 10, 15],
    }
}

/// An input under way, with the state it has led to.
pub struct Run {
    pub bench: Bench,
    pub input: Vec<u8>,
    /// Octet times that further waits may still take, so that a slow program ends as well.
    time_left: u64,
}

impl Run {
    pub fn new(settings: SettingsRecord) -> Self {
        Run {
            bench: Bench::new(settings.settings()).expect("only accepted settings are used"),
            input: settings.octets(),
            time_left: 4_000_000,
        }
    }

    /// Adds the record if it is accepted here and fits; a refusal has changed nothing.
    pub fn add(&mut self, record: Record) -> bool {
        let mut octets = Vec::new();
        record.write_to(&mut octets);
        if self.input.len() + octets.len() > LONGEST_INPUT || self.bench.step(record).is_err() {
            return false;
        }
        if let Record::Wait { n } = record {
            self.time_left = self.time_left.saturating_sub(n.into());
        }
        self.input.extend(octets);
        true
    }

    /// Adds about so many records, changing its mood now and then.
    pub fn go_on(&mut self, random: &mut Random, records: u64) {
        let mut mood = random.pick(&MOODS);
        for _ in 0..records {
            if random.once_in(25) {
                mood = random.pick(&MOODS);
            }
            let added = (0..8).any(|_| {
                let record = self.proposal(random, mood);
                self.add(record)
            });
            if !added && !self.do_what_must_be_done() {
                break;
            }
            if self.time_left == 0 {
                break;
            }
        }
    }

    fn proposal(&self, random: &mut Random, mood: Mood) -> Record {
        match weighted(random, &weights(mood)) + 1 {
            1 => self.some_wait(random, mood),
            2 => self.some_data(random),
            3 => Record::DataArrives,
            4 => Record::StartOther {
                length: self.some_length(random),
            },
            5 => Record::StartPfc,
            6 => Record::PfcTakesEffect,
            _ => self.some_taking(random, mood),
        }
    }

    pub fn some_length(&self, random: &mut Random) -> u16 {
        let m = self.bench.settings().largest_frame;
        match random.between(0, 3) {
            0 => 64,
            1 => m as u16,
            2 => random.between(64, m) as u16,
            _ => random.between(64, m.min(100)) as u16,
        }
    }

    /// A length outside 64-M.
    pub fn some_refused_length(&self, random: &mut Random) -> u16 {
        let m = self.bench.settings().largest_frame as u16;
        random.pick(&[0, 63, m + 1, 65_535])
    }

    /// A data frame of an enabled priority, mostly.
    pub fn some_data(&self, random: &mut Random) -> Record {
        Record::StartData {
            priority: self.some_priority(random),
            length: self.some_length(random),
        }
    }

    pub fn some_priority(&self, random: &mut Random) -> u8 {
        let enabled = self.enabled_priorities();
        if enabled.is_empty() || random.once_in(10) {
            return random.between(0, 7) as u8;
        }
        random.pick(&enabled)
    }

    pub fn enabled_priorities(&self) -> Vec<u8> {
        let enabled = self.bench.settings().enabled;
        (0..PRIORITIES)
            .filter(|&n| bit(enabled, n))
            .map(|n| n as u8)
            .collect()
    }

    fn some_taking(&self, random: &mut Random, mood: Mood) -> Record {
        let priority = self.some_priority(random);
        let held = self.bench.recorder().room(priority.into()).held;
        let most = held.min(65_535);
        let octets = match (mood, random.between(0, 3)) {
            (Mood::Drain, 0..=2) | (_, 0) => most,
            // Down to the mark or up to the release, to the octet.
            (_, 1) => self.to_the_release(priority).min(most),
            (_, 2) => self.to_the_release(priority).saturating_sub(1).min(most),
            _ => random.between(0, most),
        };
        Record::DiskTakes {
            priority,
            octets: octets as u16,
        }
    }

    /// The octets whose taking brings the free room to headroom + M + hysteresis.
    fn to_the_release(&self, priority: u8) -> u64 {
        let bench = &self.bench;
        let release = bench.settings().unwanted_from(bench.delays());
        release.saturating_sub(bench.recorder().room(priority.into()).free())
    }

    fn some_wait(&self, random: &mut Random, mood: Mood) -> Record {
        let most = self.longest_wait().min(self.time_left).min(65_535);
        let n = match (mood, random.between(0, 9)) {
            (_, 0) => random.between(0, 2).min(most),
            (_, 1) => random.between(0, most),
            (Mood::Late, 2..=6) | (_, 2..=3) => most,
            _ => self.to_some_moment(random, most),
        };
        Record::Wait { n: n as u16 }
    }

    /// Nothing but time passes, to some moment at which something may be decided.
    pub fn wait_to_some_moment(&mut self, random: &mut Random) -> bool {
        let most = self.longest_wait().min(self.time_left).min(65_535);
        let n = self.to_some_moment(random, most) as u16;
        self.add(Record::Wait { n })
    }

    /// How far the next moment is at which something may be decided, if it is within reach.
    fn to_some_moment(&self, random: &mut Random, most: u64) -> u64 {
        let bench = &self.bench;
        let now = bench.time().0;
        let recorder = bench.recorder();
        let mut moments = vec![
            bench.data_direction().wire_free_from().0,
            bench.request_direction().wire_free_from().0,
            (now / OCTET_TIMES_PER_QUANTUM + 1) * OCTET_TIMES_PER_QUANTUM,
        ];
        let ends = [
            bench.data_direction().oldest_ends(),
            bench.request_direction().oldest_ends(),
            recorder.refresh_moment(),
        ];
        moments.extend(ends.into_iter().flatten().map(|moment| moment.0));
        let due = [recorder.due_since(), recorder.refresh_moment()];
        let after_g = |due: OctetTimes| (due + bench.delays().generation).0;
        moments.extend(due.into_iter().flatten().map(after_g));
        // Now and then one octet time before or after it.
        let shift = random.pick(&[-1, 0, 0, 0, 1]);
        let within: Vec<u64> = moments
            .into_iter()
            .filter_map(|moment| moment.checked_add_signed(shift)?.checked_sub(now))
            .filter(|&n| 0 < n && n <= most)
            .collect();
        if within.is_empty() {
            return random.between(0, most.min(200));
        }
        random.pick(&within)
    }

    /// The longest wait that no bound forbids, worked out from the bounds and not by walking.
    pub fn longest_wait(&self) -> u64 {
        let bench = &self.bench;
        let recorder = bench.recorder();
        let latest_start = bench.delays().generation + bench.delays().wire;
        let due = recorder.due_since().or(recorder.refresh_moment());
        let bounds = [
            bench.data_direction().oldest_bound(),
            bench.request_direction().oldest_bound(),
            due.map(|due| due + latest_start),
        ];
        let bound = bounds.into_iter().flatten().min();
        bound.map_or(u64::MAX, |bound| bound.0 - bench.time().0)
    }

    /// Brings the run to a state in which the rule of this number is about to be felt.
    pub fn bring_to_an_edge(&mut self, random: &mut Random, number: u8) {
        match (number, random.between(0, 3)) {
            (38, 0) | (40, 0 | 3) => self.make_wanted(random),
            (38 | 40, 1) => {
                self.make_due(random);
                self.change_a_mark_again(random);
            }
            (33 | 34 | 39, 0 | 1) => self.make_wires_busy(random),
            (_, 2) => self.settle(),
            _ => (),
        }
        if number == 38 {
            self.wait_past_g(random.pick(&[0, 1, 1, 1, 2]));
        }
    }

    /// Lets frames arrive until PFC is due.
    fn make_due(&mut self, random: &mut Random) {
        for _ in 0..80 {
            let data = self.some_data(random);
            let added = self.bench.recorder().due_since().is_none()
                && (self.add(Record::DataArrives)
                    || self.add(data)
                    || self.add(Record::PfcTakesEffect)
                    || self.wait_for_next_end());
            if !added {
                return;
            }
        }
    }

    /// Lets frames arrive until some priority is wanted, and its PFC frame start and take effect.
    fn make_wanted(&mut self, random: &mut Random) {
        for _ in 0..40 {
            self.settle();
            let data = self.some_data(random);
            if self.bench.recorder().refresh_moment().is_some() || !self.add(data) {
                return;
            }
        }
    }

    /// While PFC is due, a mark changes once more, some time after the first change.
    fn change_a_mark_again(&mut self, random: &mut Random) {
        let generation = self.bench.delays().generation.0;
        let n = random.between(0, generation.min(self.longest_wait()).min(1_000)) as u16;
        self.add(Record::Wait { n });
        for priority in self.enabled_priorities() {
            self.drain(priority);
        }
    }

    fn make_wires_busy(&mut self, random: &mut Random) {
        let data = self.some_data(random);
        self.add(data);
        let length = self.some_length(random);
        self.add(Record::StartOther { length });
    }

    /// PFC is due for more than G, and a frame that started in time still holds B's wire.
    pub fn make_busy_past_g(&mut self, random: &mut Random) {
        self.make_due(random);
        self.wait_past_g(0);
        let length = self.some_length(random);
        self.add(Record::StartOther { length });
        self.wait_past_g(random.pick(&[1, 1, 2]));
    }

    /// Lets everything arrive and start until nothing is under way or due.
    fn settle(&mut self) {
        for _ in 0..200 {
            let added = self.add(Record::DataArrives)
                || self.add(Record::PfcTakesEffect)
                || self.add(Record::StartPfc);
            if !added && !self.wait_for_next_end() {
                return;
            }
        }
    }

    fn wait_for_next_end(&mut self) -> bool {
        let requests = self.bench.request_direction();
        let due = self.bench.recorder().due_since();
        let ends = [
            self.bench.data_direction().oldest_ends(),
            requests.oldest_ends(),
            due.map(|_| requests.wire_free_from()),
        ];
        let end = ends.into_iter().flatten().min();
        end.is_some_and(|end| self.wait_until(end))
    }

    /// Waits until an other frame comes so many octet times too late, if no bound forbids it.
    fn wait_past_g(&mut self, past: u64) -> bool {
        let recorder = self.bench.recorder();
        let due = recorder.due_since().or(recorder.refresh_moment());
        let after_g = |due: OctetTimes| due + self.bench.delays().generation + OctetTimes(past);
        due.map(after_g).is_some_and(|end| self.wait_until(end))
    }

    fn wait_until(&mut self, end: OctetTimes) -> bool {
        let n = end.0.saturating_sub(self.bench.time().0);
        let n = u16::try_from(n.min(self.time_left)).unwrap_or(0);
        n > 0 && self.add(Record::Wait { n })
    }

    /// At a bound, one of these is always accepted.
    fn do_what_must_be_done(&mut self) -> bool {
        let n = self.longest_wait().min(65_535) as u16;
        [
            Record::DataArrives,
            Record::PfcTakesEffect,
            Record::StartPfc,
            Record::Wait { n },
        ]
        .into_iter()
        .any(|record| self.add(record))
    }

    /// A sends whenever it may, all else comes at the last moment: the most that can arrive.
    pub fn go_on_latest(&mut self, random: &mut Random, records: u64) {
        for _ in 0..records {
            let m = self.bench.settings().largest_frame as u16;
            let priority = self.some_priority(random);
            let length = random.pick(&[m, m, 64]);
            let added = self.add(Record::StartData { priority, length })
                || self.other_frame_at_the_last_moment(m)
                || self.wait_for_wire_or_bound()
                || (random.once_in(40) && self.drain(priority))
                || self.do_what_must_be_done();
            if !added || self.time_left == 0 {
                break;
            }
        }
    }

    fn other_frame_at_the_last_moment(&mut self, length: u16) -> bool {
        let last = |due: OctetTimes| due + self.bench.delays().generation == self.bench.time();
        self.bench.recorder().due_since().is_some_and(last)
            && self.add(Record::StartOther { length })
    }

    fn wait_for_wire_or_bound(&mut self) -> bool {
        let now = self.bench.time().0;
        let generation = self.bench.delays().generation;
        let due = self.bench.recorder().due_since();
        let moments = [
            Some(self.bench.data_direction().wire_free_from().0),
            due.map(|due| (due + generation).0),
            self.bench
                .recorder()
                .refresh_moment()
                .map(|moment| moment.0),
        ];
        let next = moments.into_iter().flatten().filter(|&at| at > now).min();
        let n = self
            .longest_wait()
            .min(next.map_or(u64::MAX, |at| at - now));
        n > 0
            && self.add(Record::Wait {
                n: n.min(65_535) as u16,
            })
    }

    fn drain(&mut self, priority: u8) -> bool {
        let held = self.bench.recorder().room(priority.into()).held;
        let octets = held.min(65_535) as u16;
        self.add(Record::DiskTakes { priority, octets })
    }
}

/// The index of a weight, each as likely as it is large.
fn weighted(random: &mut Random, weights: &[u64]) -> usize {
    let mut left = random.between(0, weights.iter().sum::<u64>() - 1);
    for (index, &weight) in weights.iter().enumerate() {
        if left < weight {
            return index;
        }
        left -= weight;
    }
    unreachable!("the weights add up to their sum")
}
