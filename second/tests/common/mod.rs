//! What the tests share: settings with known delays, bare headroom inputs, records in hex order, and
//! whole runs.
#![allow(dead_code)]

use std::io::Write;
use std::process::{Command, Stdio};

use second::bench::{run, Bench, Record};
use second::headroom::Inputs;
use second::refusal::Refusal;
use second::settings::Settings;
use second::units::{BitTimes, OctetTimes};

/// Settings as the record of kind 00 gives them.
#[derive(Clone, Copy)]
pub struct Given {
    pub enabled: u8,
    pub m: u16,
    pub generation: u32,
    pub request_path: u32,
    pub data_path: u32,
    pub t: u16,
    pub i: u32,
    pub hysteresis: u32,
    pub rooms: [u32; 8],
}

/// Document 01's example: G 25, W 2,020, P 6,199, D 5,431, one-way 8,328, headroom 15,779;
/// the rooms are headroom + M exactly.
pub fn example() -> Given {
    Given {
        enabled: 0x08,
        m: 2000,
        generation: 200,
        request_path: 49_588,
        data_path: 43_444,
        t: 65_535,
        i: 100_000,
        hysteresis: 0,
        rooms: [17_779; 8],
    }
}

/// Small numbers: G 80 / 8 = 10, W 64 + 20 = 84, P 0, D 0, one-way 10 + 84 + 84 + 0 = 178,
/// headroom 178 + 84 + 0 = 262; room 0 is headroom + M = 326 exactly, so one octet held is wanted.
pub fn small() -> Given {
    Given {
        enabled: 0x01,
        m: 64,
        generation: 80,
        request_path: 0,
        data_path: 0,
        t: 65_535,
        i: 100,
        hysteresis: 0,
        rooms: [326; 8],
    }
}

/// Inputs with nothing in them that takes time but the frames.
pub fn bare_inputs() -> Inputs {
    Inputs {
        rate: 10_000,
        metres: 0,
        percentage: 40,
        largest_frame: 64,
        generation: BitTimes(0),
        b_transmit: BitTimes(0),
        b_receive: BitTimes(0),
        a_transmit: BitTimes(0),
        a_receive: BitTimes(0),
        halt: BitTimes(0),
    }
}

impl Given {
    pub fn record(&self) -> Vec<u8> {
        let mut octets = vec![0x00, self.enabled];
        octets.extend(self.m.to_be_bytes());
        octets.extend(self.generation.to_be_bytes());
        octets.extend(self.request_path.to_be_bytes());
        octets.extend(self.data_path.to_be_bytes());
        octets.extend(self.t.to_be_bytes());
        octets.extend(self.i.to_be_bytes());
        octets.extend(self.hysteresis.to_be_bytes());
        for room in self.rooms {
            octets.extend(room.to_be_bytes());
        }
        octets
    }

    pub fn settings(&self) -> Settings {
        Settings {
            enabled: self.enabled,
            largest_frame: self.m.into(),
            generation: BitTimes(self.generation.into()),
            request_path: BitTimes(self.request_path.into()),
            data_path: BitTimes(self.data_path.into()),
            pause_time: self.t,
            refresh: OctetTimes(self.i.into()),
            hysteresis: self.hysteresis.into(),
            rooms: self.rooms.map(u64::from),
        }
    }

    pub fn bench(&self) -> Bench {
        Bench::new(self.settings()).expect("the test's settings are accepted")
    }

    /// The report of a run with these settings and these records.
    pub fn report(&self, records: &[Record]) -> String {
        let mut input = self.record();
        for record in records {
            input.extend(octets_of(*record));
        }
        run(&input).to_string()
    }

    /// Refusal number and record number of such a run, from line 1 of its report.
    pub fn refusal(&self, records: &[Record]) -> (u8, u64) {
        refusal_in(&self.report(records))
    }
}

/// Refusal number and record number in line 1 of a report.
pub fn refusal_in(report: &str) -> (u8, u64) {
    let words: Vec<&str> = report.lines().next().unwrap().split(' ').collect();
    assert_eq!([words[4], words[6]], ["refusal", "at"]);
    (words[5].parse().unwrap(), words[7].parse().unwrap())
}

pub const NONE: (u8, u64) = (0, 0);

/// A record as it stands in the input.
pub fn octets_of(record: Record) -> Vec<u8> {
    match record {
        Record::Wait { n } => with_number(&[0x01], n),
        Record::StartData { priority, length } => with_number(&[0x02, priority], length),
        Record::DataArrives => vec![0x03],
        Record::StartOther { length } => with_number(&[0x04], length),
        Record::StartPfc => vec![0x05],
        Record::PfcTakesEffect => vec![0x06],
        Record::DiskTakes { priority, octets } => with_number(&[0x07, priority], octets),
    }
}

fn with_number(front: &[u8], number: u16) -> Vec<u8> {
    [front, &number.to_be_bytes()].concat()
}

pub fn wait(n: u16) -> Record {
    Record::Wait { n }
}

pub fn start_data(priority: u8, length: u16) -> Record {
    Record::StartData { priority, length }
}

pub fn start_other(length: u16) -> Record {
    Record::StartOther { length }
}

pub fn disk_takes(priority: u8, octets: u16) -> Record {
    Record::DiskTakes { priority, octets }
}

pub const DATA_ARRIVES: Record = Record::DataArrives;
pub const START_PFC: Record = Record::StartPfc;
pub const PFC_TAKES_EFFECT: Record = Record::PfcTakesEffect;

/// Does a row of records that must all be accepted.
pub fn accept_all(bench: &mut Bench, records: &[Record]) {
    for (index, record) in records.iter().enumerate() {
        assert_eq!(
            bench.step(*record),
            Ok(()),
            "record {index} of the row, {record:?}"
        );
    }
}

/// Tries a record that must be refused and must change nothing; its number.
pub fn refused(bench: &mut Bench, record: Record) -> u8 {
    let before = format!("{bench:?}");
    let refusal = bench
        .step(record)
        .expect_err("the record must be refused here");
    assert_eq!(before, format!("{bench:?}"), "a refusal changes nothing");
    refusal.number()
}

/// The number of a refusal, 0 for an acceptance.
pub fn number<T>(answer: Result<T, Refusal>) -> u8 {
    answer.err().map_or(0, Refusal::number)
}

/// One frame of priority 0 and 64 octets reaches B at time 84: pause is wanted, PFC due since 84.
pub const WANTED_AT_84: [Record; 3] = [
    Record::StartData {
        priority: 0,
        length: 64,
    },
    Record::Wait { n: 84 },
    Record::DataArrives,
];

/// A bench in which priority 0 is wanted and the PFC frames of a row of starts, one every 84 octet
/// times, are all under way: I is 1, so each refresh is due again one octet time after a start.
pub fn bench_with_pfc_under_way(frames: usize) -> Bench {
    bench_with_pfc_under_way_every(1, frames)
}

/// The same with this I, a frame starting as soon as it is due and the wire is free.
pub fn bench_with_pfc_under_way_every(i: u16, frames: usize) -> Bench {
    let given = Given {
        i: i.into(),
        request_path: 8 * 20_000,
        // P 20,000 makes one-way 20,178 and headroom 20,262.
        rooms: [20_262 + 64; 8],
        ..small()
    };
    let mut bench = given.bench();
    accept_all(&mut bench, &WANTED_AT_84);
    accept_all(&mut bench, &[START_PFC]);
    for _ in 1..frames {
        accept_all(&mut bench, &[wait(i.max(84)), START_PFC]);
    }
    bench
}

/// A bench in which priority 0 is paused at A and frames of priority 1, which is not enabled, are
/// all under way, the last of them just started.
pub fn bench_with_data_under_way(frames: usize) -> Bench {
    let given = Given {
        i: 1_000_000,
        data_path: 8 * 20_000,
        // D 20,000 makes headroom 20,262; room 1 is not looked at.
        rooms: [20_262 + 64, 0, 0, 0, 0, 0, 0, 0],
        ..small()
    };
    let mut bench = given.bench();
    accept_all(&mut bench, &WANTED_AT_84);
    accept_all(&mut bench, &[START_PFC, wait(84), PFC_TAKES_EFFECT]);
    for _ in 1..frames {
        accept_all(&mut bench, &[start_data(1, 64), wait(84)]);
    }
    accept_all(&mut bench, &[start_data(1, 64)]);
    bench
}

/// What the program prints when it is fed this input.
pub fn output_of(program: &str, input: &[u8]) -> String {
    let mut child = Command::new(program)
        .stdin(Stdio::piped())
        .stdout(Stdio::piped())
        .spawn()
        .unwrap();
    child.stdin.take().unwrap().write_all(input).unwrap();
    let output = child.wait_with_output().unwrap();
    assert!(output.status.success());
    String::from_utf8(output.stdout).unwrap()
}
