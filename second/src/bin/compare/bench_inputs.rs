//! Makes inputs of the bench: deep runs, the same runs damaged, runs refused on purpose, noise.

use second::bench::{Record, LONGEST_INPUT};
use second::order::Pair;

use crate::both_hold;
use crate::crowds::{with_data_under_way, with_pfc_under_way};
use crate::random::Random;
use crate::run_under_way::Run;
use crate::settings_record::{self, SettingsRecord};

/// The kinds of inputs; the text is what the counts call them.
#[derive(Clone, Copy, Debug, PartialEq, Eq)]
pub enum BenchKind {
    DeepRun,
    LatestRun,
    DamagedRun,
    RefusedLast(u8),
    BothHold(Pair),
    SettingsNearLimits,
    RandomRecords,
    RandomOctets,
    Empty,
    Full,
    TooLong,
}

impl BenchKind {
    pub fn text(self) -> &'static str {
        match self {
            BenchKind::DeepRun => "bench, deep run",
            BenchKind::LatestRun => "bench, everything as late as it may be",
            BenchKind::DamagedRun => "bench, run damaged",
            BenchKind::RefusedLast(_) => "bench, last record refused on purpose",
            BenchKind::BothHold(_) => "bench, two refusals of one order line hold",
            BenchKind::SettingsNearLimits => "bench, settings near limits",
            BenchKind::RandomRecords => "bench, random records",
            BenchKind::RandomOctets => "bench, random octets",
            BenchKind::Empty => "bench, empty input",
            BenchKind::Full => "bench, 65,536 octets",
            BenchKind::TooLong => "bench, 65,537 octets",
        }
    }
}

/// Every refusal number that an input reaches: all of settings and records but 41.
pub const REACHABLE_REFUSALS: [u8; 21] = [
    13, 14, 15, 16, 17, 18, 30, 31, 32, 33, 34, 35, 36, 37, 38, 39, 40, 42, 43, 44, 45,
];

pub fn make(random: &mut Random, kind: BenchKind) -> Vec<u8> {
    match kind {
        BenchKind::DeepRun => deep_run(random).input,
        BenchKind::LatestRun => latest_run(random).input,
        BenchKind::DamagedRun => damaged(random),
        BenchKind::RefusedLast(number) => refused_last(random, number),
        BenchKind::BothHold(pair) => both_hold::make(random, pair),
        BenchKind::SettingsNearLimits => settings_near_limits(random),
        BenchKind::RandomRecords => random_records(random),
        BenchKind::RandomOctets => random_octets(random),
        BenchKind::Empty => Vec::new(),
        BenchKind::Full => full(random),
        BenchKind::TooLong => {
            let mut input = full(random);
            input.push(random.octet());
            input
        }
    }
}

pub fn some_settings(random: &mut Random) -> SettingsRecord {
    if random.once_in(3) {
        settings_record::accepted(random)
    } else {
        settings_record::accepted_small(random)
    }
}

fn some_record_count(random: &mut Random) -> u64 {
    match random.between(0, 19) {
        0 => 25_000,
        1..=3 => 2_000,
        4..=12 => 400,
        _ => 60,
    }
}

fn deep_run(random: &mut Random) -> Run {
    let mut run = Run::new(some_settings(random));
    let records = some_record_count(random);
    run.go_on(random, records);
    run
}

fn latest_run(random: &mut Random) -> Run {
    let mut run = Run::new(some_settings(random));
    let records = some_record_count(random);
    run.go_on_latest(random, records);
    run
}

/// The places at which the records of an input start, its length at the end.
pub fn record_starts(input: &[u8]) -> Vec<usize> {
    let mut starts = vec![0];
    let mut at = 0;
    while at < input.len() {
        at = (at + record_octets(input[at])).min(input.len());
        starts.push(at);
    }
    starts
}

/// The octets of a record of this kind; of an unknown kind, just the kind.
pub fn record_octets(kind: u8) -> usize {
    match kind {
        0 => settings_record::SETTINGS_OCTETS,
        1 | 4 => 3,
        2 | 7 => 4,
        _ => 1,
    }
}

fn damaged(random: &mut Random) -> Vec<u8> {
    let run = if random.once_in(3) {
        latest_run(random)
    } else {
        deep_run(random)
    };
    let mut input = run.input;
    for _ in 0..random.pick(&[1, 1, 1, 2, 3]) {
        damage(random, &mut input);
    }
    input
}

fn damage(random: &mut Random, input: &mut Vec<u8>) {
    let starts = record_starts(input);
    let records = starts.len() - 1;
    if records < 2 {
        input.push(random.octet());
        return;
    }
    // Mostly a later record: damaged settings are refused at once.
    let first = u64::from(!random.once_in(10));
    let of = random.between(first, records as u64 - 1) as usize;
    let (start, end) = (starts[of], starts[of + 1]);
    let at = random.between(start as u64, end as u64 - 1) as usize;
    match random.between(0, 7) {
        0 => input.truncate(at),
        1 => input[at] = random.octet(),
        2 => input[at] ^= 1 << random.between(0, 7),
        3 => input[end - 1] = input[end - 1].wrapping_add(random.pick(&[1, 255])),
        4 => drop(input.drain(start..end)),
        5 => {
            let copy = input[start..end].to_vec();
            insert(input, start, &copy);
        }
        6 => {
            let mut record = Vec::new();
            random_record(random).write_to(&mut record);
            insert(input, start, &record);
        }
        _ => drop(input.remove(at)),
    }
}

fn insert(input: &mut Vec<u8>, at: usize, octets: &[u8]) {
    input.splice(at..at, octets.iter().copied());
}

/// A record with nothing but edges and noise in it.
fn random_record(random: &mut Random) -> Record {
    let priority = match random.between(0, 5) {
        0 => random.octet(),
        1 => random.pick(&[7, 8]),
        _ => random.between(0, 7) as u8,
    };
    let number = match random.between(0, 3) {
        0 => random.number2(),
        1 => random.pick(&[0, 1, 63, 64, 65, 84, 9_216, 9_217, 65_535]),
        2 => random.of_any_width(16) as u16,
        _ => random.between(64, 300) as u16,
    };
    match random.between(1, 7) {
        1 => Record::Wait { n: number },
        2 => Record::StartData {
            priority,
            length: number,
        },
        3 => Record::DataArrives,
        4 => Record::StartOther { length: number },
        5 => Record::StartPfc,
        6 => Record::PfcTakesEffect,
        _ => Record::DiskTakes {
            priority,
            octets: number,
        },
    }
}

fn settings_near_limits(random: &mut Random) -> Vec<u8> {
    let mut input = settings_record::near_limits(random).octets();
    for _ in 0..random.between(0, 5) {
        random_record(random).write_to(&mut input);
    }
    if random.once_in(10) {
        input.truncate(random.between(0, 60) as usize);
    }
    input
}

fn random_records(random: &mut Random) -> Vec<u8> {
    let mut input = some_settings(random).octets();
    for _ in 0..random.between(0, 40) {
        random_record(random).write_to(&mut input);
    }
    input
}

fn random_octets(random: &mut Random) -> Vec<u8> {
    let count = random.of_any_width(10) as usize;
    let noise = random.octets(count);
    if random.once_in(2) {
        return noise;
    }
    let mut input = deep_run(random).input;
    input.truncate(60_000);
    input.extend(noise);
    input
}

/// An accepted run of exactly 65,536 octets, now and then with an end that is cut.
fn full(random: &mut Random) -> Vec<u8> {
    let mut run = Run::new(settings_record::accepted_small(random));
    run.go_on(random, 60_000);
    // Waits of 0 are always accepted, at three octets each.
    while run.add(Record::Wait { n: 0 }) {}
    let mut input = run.input;
    while input.len() < LONGEST_INPUT {
        input.push(random.pick(&[0x03, 0x05, 0x06, 0x01]));
    }
    input
}

/// An input whose last record that is looked at is refused with this number.
fn refused_last(random: &mut Random, number: u8) -> Vec<u8> {
    let mut input = match number {
        13..=18 => settings_refused(random, number),
        31 if random.once_in(4) => cut_settings(random),
        44 if random.once_in(3) => without_settings(random),
        45 => return too_long(random),
        30 | 31 | 44 => refused_form(random, number),
        36 => crowded(random),
        _ => refused_step(random, number),
    };
    // What stands after a refused record is not looked at; after a cut one there is nothing.
    if number != 31 && random.once_in(2) {
        let room_left = LONGEST_INPUT - input.len();
        let count = (random.between(0, 40) as usize).min(room_left);
        let noise = random.octets(count);
        input.extend(noise);
    }
    input
}

fn settings_refused(random: &mut Random, number: u8) -> Vec<u8> {
    loop {
        let record = settings_record::near_limits(random);
        let refusal = record.settings().accept().err();
        if refusal.map(|refusal| refusal.number()) == Some(number) {
            return record.octets();
        }
    }
}

fn cut_settings(random: &mut Random) -> Vec<u8> {
    let mut input = settings_record::near_limits(random).octets();
    input.truncate(random.between(1, settings_record::SETTINGS_OCTETS as u64 - 1) as usize);
    input
}

pub fn without_settings(random: &mut Random) -> Vec<u8> {
    let mut input = vec![random.between(1, 255) as u8];
    let run = deep_run(random).input;
    input.extend(&run[settings_record::SETTINGS_OCTETS..]);
    input.truncate(LONGEST_INPUT);
    input
}

pub fn too_long(random: &mut Random) -> Vec<u8> {
    let count = LONGEST_INPUT + random.pick(&[1, 1, 2, 3, 1_000, 70_000]);
    if random.once_in(2) {
        return random.octets(count);
    }
    let mut input = some_settings(random).octets();
    while input.len() < count {
        input.extend([0x01, 0x00, 0x00]);
    }
    input.truncate(count);
    input
}

/// A first record other than settings with its body cut short, and nothing after it.
pub fn cut_first_record(random: &mut Random) -> Vec<u8> {
    let mut input = Vec::new();
    append_cut_record(random, &mut input);
    input
}

fn append_cut_record(random: &mut Random, input: &mut Vec<u8>) {
    let kind = random.pick(&[1u8, 2, 4, 7]);
    let count = random.between(0, record_octets(kind) as u64 - 2) as usize;
    input.push(kind);
    let cut_body = random.octets(count);
    input.extend(cut_body);
}

/// 30, 31 and 44: the form of a later record.
pub fn refused_form(random: &mut Random, number: u8) -> Vec<u8> {
    let mut input = deep_run(random).input;
    input.truncate(record_start_below(&input, 65_000));
    match number {
        30 => input.push(random.pick(&[8, 9, 0x10, 0x80, 0xFF])),
        31 => append_cut_record(random, &mut input),
        _ => {
            let again = some_settings(random).octets();
            let count = random.pick(&[1, 30, 57, again.len()]);
            input.extend(&again[..count]);
        }
    }
    input
}

/// The last start of a record that is no later than this place.
fn record_start_below(input: &[u8], place: usize) -> usize {
    let starts = record_starts(input);
    let below = starts.into_iter().filter(|&start| start <= place);
    below.max().unwrap_or(0)
}

/// 32 to 43: a run goes on until some record is refused with this number.
fn refused_step(random: &mut Random, number: u8) -> Vec<u8> {
    loop {
        let settings = some_settings(random);
        let records = random.pick(&[0, 5, 20, 60, 200]);
        if let Some(input) = refused_step_after(random, settings, records, number) {
            return input;
        }
    }
}

/// The same with given settings, the probe coming after so many records or some more.
fn refused_step_after(
    random: &mut Random,
    settings: SettingsRecord,
    records: u64,
    number: u8,
) -> Option<Vec<u8>> {
    let mut run = Run::new(settings);
    run.go_on(random, records);
    for _ in 0..60 {
        run.bring_to_an_edge(random, number);
        if let Some(record) = refused_here(random, &run, number) {
            let mut input = run.input;
            record.write_to(&mut input);
            return Some(input);
        }
        run.go_on(random, 3);
    }
    None
}

/// A short run with the settings of another input, if they are accepted; it may end refused.
pub fn short_run_like(random: &mut Random, input: &[u8]) -> Option<Vec<u8>> {
    let settings = SettingsRecord::at_the_front_of(input)?;
    settings.settings().accept().ok()?;
    let records = random.of_any_width(7);
    if random.once_in(2) {
        let number = random.between(32, 43) as u8;
        return refused_step_after(random, settings, records, number);
    }
    let mut run = Run::new(settings);
    run.go_on(random, records);
    Some(run.input)
}

/// A record that this state refuses with this number, if one is soon found.
fn refused_here(random: &mut Random, run: &Run, number: u8) -> Option<Record> {
    (0..20).find_map(|_| {
        let record = likely_refused(random, run, number);
        (refusal_of(run, record) == Some(number)).then_some(record)
    })
}

fn likely_refused(random: &mut Random, run: &Run, number: u8) -> Record {
    let longest_wait = run.longest_wait();
    match number {
        // Often the wait that is too long by one.
        40 if longest_wait < 65_535 && random.once_in(2) => Record::Wait {
            n: longest_wait as u16 + 1,
        },
        40 => Record::Wait {
            n: random.number2(),
        },
        38 => Record::StartOther {
            length: run.some_length(random),
        },
        33 => {
            let length = run.some_refused_length(random);
            let priority = run.some_priority(random);
            random.pick(&[
                Record::StartData { priority, length },
                Record::StartOther { length },
            ])
        }
        35 => run.some_data(random),
        34 if random.once_in(2) => run.some_data(random),
        42 if random.once_in(2) => {
            let priority = run.some_priority(random);
            let held = run.bench.recorder().room(priority.into()).held;
            let octets = (held + 1).min(65_535) as u16;
            Record::DiskTakes { priority, octets }
        }
        _ => random_record(random),
    }
}

/// A direction with 128 frames under way, and one frame more.
fn crowded(random: &mut Random) -> Vec<u8> {
    loop {
        let (run, record) = if random.once_in(2) {
            let run = with_data_under_way(random);
            let data = run.some_data(random);
            (run, data)
        } else {
            (with_pfc_under_way(random), Record::StartPfc)
        };
        if let Some(input) = refused_in_time(random, run, record, 36) {
            return input;
        }
    }
}

/// The run goes on in time alone until the record is refused with this number.
fn refused_in_time(
    random: &mut Random,
    mut run: Run,
    record: Record,
    number: u8,
) -> Option<Vec<u8>> {
    for _ in 0..20 {
        if refusal_of(&run, record) == Some(number) {
            let mut input = run.input;
            record.write_to(&mut input);
            return Some(input);
        }
        run.wait_to_some_moment(random);
    }
    None
}

/// The number with which this state refuses the record.
fn refusal_of(run: &Run, record: Record) -> Option<u8> {
    let refusal = run.bench.clone().step(record).err();
    refusal.map(|refusal| refusal.number())
}
