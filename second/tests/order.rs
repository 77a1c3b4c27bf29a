//! The order lines, two of a line at a time: "Each is given exactly when its condition holds and
//! none earlier in the order does."

mod common;

use std::collections::BTreeSet;

use common::*;
use second::bench::{run, Bench, Record};
use second::frame::{build, verdict, Request, Verdict};
use second::head::choose;
use second::headroom::{calculate, Inputs};
use second::order::{with_pairs_met, Line, Pair, DATA};
use second::settings::Settings;
use second::slips::{with_slip, Slip};
use second::units::{BitTimes, OctetTimes};

/// The pairs of a line that a test has tried.
struct Tried {
    line: Line,
    pairs: BTreeSet<Pair>,
}

impl Tried {
    fn new(line: Line) -> Self {
        Tried {
            line,
            pairs: BTreeSet::new(),
        }
    }

    /// Where the two hold the earlier is given, and the later by the slip of that pair alone.
    fn both_hold(&mut self, earlier: u8, later: u8, answer: impl Fn() -> u8) {
        let line = self.line;
        let pair = Pair {
            line,
            earlier,
            later,
        };
        let (given, met) = with_pairs_met(&answer);
        assert_eq!(given, earlier, "{line:?}, {pair}");
        assert_eq!(met, BTreeSet::from([pair]));
        let slipped = with_slip(Slip::OutOfOrder(pair), &answer);
        assert_eq!(slipped, later, "{line:?}, {pair}");
        self.pairs.insert(pair);
    }

    /// No pair is met, though what would lead to either number is given.
    fn not_both(&self, given: u8, answer: impl Fn() -> u8) {
        assert_eq!(with_pairs_met(answer), (given, BTreeSet::new()));
    }

    /// Every pair of the line has been tried.
    fn all(self) {
        assert_eq!(self.pairs, BTreeSet::from_iter(self.line.pairs()));
    }
}

/// A change that makes the condition of one number hold.
type Spoil<T> = (u8, fn(&mut T));

/// Tries each pair of a line on what was good before the two spoiled it.
fn try_line<T: Clone>(line: Line, good: T, spoils: &[Spoil<T>], answer: fn(&T) -> u8) {
    assert!(line.numbers().iter().eq(spoils.iter().map(|(n, _)| n)));
    let mut tried = Tried::new(line);
    for pair in line.pairs() {
        let mut spoiled = good.clone();
        for (_, spoil) in spoils.iter().filter(|(number, _)| pair.has(*number)) {
            spoil(&mut spoiled);
        }
        tried.both_hold(pair.earlier, pair.later, || answer(&spoiled));
    }
    tried.all();
}

#[derive(Clone)]
struct Frame {
    m: u64,
    octets: Vec<u8>,
}

const OWN: [u8; 6] = [0x02, 0, 0, 0, 0, 0x0A];

/// A PFC frame for the station's own address, the longest and the shortest that M 64 allows.
fn good_frame() -> Frame {
    let mut octets = [&OWN[..], &[0xBB; 6], &[0x88, 0x08, 0x01, 0x01]].concat();
    octets.resize(60, 0);
    Frame { m: 64, octets }
}

/// The number of a reading; a request gives 99, which no place of the line has.
fn read(frame: &Frame) -> u8 {
    match verdict(frame.m, &OWN, &frame.octets) {
        Ok(Verdict::Data) => DATA,
        Ok(Verdict::Request(_)) => 99,
        Err(refusal) => refusal.number(),
    }
}

/// "Reading takes M and, in order: refusals 13, 1, 2; a Length/Type other than 88-08 is data,
/// whatever its address [..]; then refusals 3, 4; else a request."
#[test]
fn reading_13_1_2_data_3_4() {
    assert_eq!(read(&good_frame()), 99);
    let spoils: [Spoil<Frame>; 6] = [
        (13, |frame| frame.m = 9_217),
        (1, |frame| frame.octets.truncate(59)),
        // M - 4 octets and one more.
        (2, |frame| frame.octets.resize(frame.m as usize - 3, 0)),
        (DATA, |frame| frame.octets[12] = 0x08),
        (3, |frame| frame.octets[5] = 0x0B),
        (4, |frame| frame.octets[14] = 0x00),
    ];
    try_line(Line::Reading, good_frame(), &spoils, read);
}

/// "Order: building 5, 6."
#[test]
fn building_5_6() {
    let request = Request {
        e: 0xFF,
        times: [9; 8],
    };
    let mut tried = Tried::new(Line::Building);
    tried.both_hold(5, 6, || number(build(&[3; 6], &request, &mut [0; 59])));
    tried.all();
}

/// "Headroom 10, 11, 12, 13, 14, 19."
#[test]
fn headroom_10_11_12_13_14_19() {
    let good = Inputs {
        metres: 100_000,
        generation: BitTimes(1_048_576),
        halt: BitTimes(6_144),
        ..bare_inputs()
    };
    let answer = |inputs: &Inputs| number(calculate(inputs));
    assert_eq!(answer(&good), 0);
    let spoils: [Spoil<Inputs>; 6] = [
        (10, |inputs| inputs.rate = 25_000),
        (11, |inputs| inputs.metres = 100_001),
        (12, |inputs| inputs.percentage = 39),
        (13, |inputs| inputs.largest_frame = 63),
        (14, |inputs| inputs.generation = BitTimes(1_048_577)),
        (19, |inputs| inputs.halt = BitTimes(6_145)),
    ];
    try_line(Line::Headroom, good, &spoils, answer);
    // "halt delay above its rate's limit": another rate has no limit, so 10 and 19 never meet.
    let halt = BitTimes(61_441);
    let rate = 25_000;
    let both = Inputs { rate, halt, ..good };
    Tried::new(Line::Headroom).not_both(10, || answer(&both));
}

#[derive(Clone)]
struct Queues {
    heads: [u8; 8],
    class_of: [u8; 8],
}

/// "Choice 22, 20, 21."
#[test]
fn choice_22_20_21() {
    let good = Queues {
        heads: [0, 8, 8, 8, 8, 8, 8, 8],
        class_of: [0, 1, 2, 3, 4, 5, 6, 7],
    };
    let answer = |queues: &Queues| number(choose(&queues.heads, &queues.class_of, 0));
    assert_eq!(answer(&good), 0);
    let spoils: [Spoil<Queues>; 3] = [
        (22, |queues| queues.class_of[7] = 8),
        (20, |queues| queues.heads[6] = 9),
        // Priority 0 stands in class 1.
        (21, |queues| queues.heads[1] = 0),
    ];
    try_line(Line::Choice, good, &spoils, answer);
}

/// "Settings 13, 14, 17, 18, 16, 15."
#[test]
fn settings_13_14_17_18_16_15() {
    let good = small().settings();
    let answer = |settings: &Settings| number(settings.accept());
    assert_eq!(answer(&good), 0);
    let spoils: [Spoil<Settings>; 6] = [
        (13, |settings| settings.largest_frame = 63),
        (14, |settings| settings.data_path = BitTimes(134_217_729)),
        (17, |settings| settings.refresh = OctetTimes(0)),
        (18, |settings| settings.hysteresis = 1_073_741_825),
        (16, |settings| settings.pause_time = 0),
        (15, |settings| settings.rooms[0] = 0),
    ];
    try_line(Line::Settings, good, &spoils, answer);
}

/// "Records 45, 44, 30, 31": too long and settings missing; missing and an unknown kind; missing or
/// repeated and cut short.
#[test]
fn records_45_44_30_31() {
    let answer = |input: &[u8]| refusal_in(&run(input).to_string()).0;
    let mut tried = Tried::new(Line::Records);
    tried.both_hold(45, 44, || answer(&[0x01; 65_537]));
    // 44 comes between 45 and 30: a first kind above 07 is not settings.
    tried.both_hold(45, 44, || answer(&[0x08; 65_537]));
    tried.both_hold(44, 30, || answer(&[0x08]));
    tried.both_hold(44, 31, || answer(&[0x01, 0x00]));
    let settings = small().record();
    let again = [&settings[..], &settings[..57]].concat();
    tried.both_hold(44, 31, || answer(&again));
    // In an input that is too long the first record is whole, and no later one is looked at.
    let mut too_long = [&settings[..], &[0x01, 0x00, 0x00].repeat(21_826)].concat();
    too_long.push(0x01);
    tried.not_both(45, || answer(&too_long));
    // A kind above 07 has no body.
    tried.not_both(30, || answer(&[&settings[..], &[0x08]].concat()));
    tried.all();
}

/// The number with which a bench refuses a record.
fn refusal_of(bench: &Bench, record: Record) -> u8 {
    number(bench.clone().step(record))
}

/// A bench with 128 data frames under way or one less, the wire still busy or free again; priority 0
/// is paused, priority 1 is not.
fn data_under_way(frames: usize, busy: bool) -> Bench {
    let mut bench = bench_with_data_under_way(frames);
    if !busy {
        accept_all(&mut bench, &[wait(84)]);
    }
    bench
}

/// "02: 32, 33, 34, 35, 36", and "Each direction holds at most 128 frames under way".
#[test]
fn kind_02_32_33_34_35_36() {
    let mut tried = Tried::new(Line::Kind02);
    for pair in Line::Kind02.pairs() {
        let bench = data_under_way(127 + usize::from(pair.has(36)), pair.has(34));
        let priority = match (pair.has(32), pair.has(35)) {
            (true, _) => 8,
            (_, true) => 0,
            _ => 1,
        };
        let length = 64 - u16::from(pair.has(33));
        let record = start_data(priority, length);
        tried.both_hold(pair.earlier, pair.later, || refusal_of(&bench, record));
    }
    // No priority above 7 is paused, whatever the others are.
    let bench = data_under_way(127, false);
    tried.not_both(32, || refusal_of(&bench, start_data(8, 64)));
    tried.all();
}

/// "04: 33, 34, 38", and "other frame later than G after PFC became due".
#[test]
fn kind_04_33_34_38() {
    let mut tried = Tried::new(Line::Kind04);
    let mut bench = small().bench();
    accept_all(&mut bench, &[start_other(64)]);
    tried.both_hold(33, 34, || refusal_of(&bench, start_other(63)));
    let mut bench = small().bench();
    accept_all(&mut bench, &WANTED_AT_84);
    accept_all(&mut bench, &[wait(11)]);
    tried.both_hold(33, 38, || refusal_of(&bench, start_other(65)));
    // At exactly G an other frame starts; one octet time later it still holds the wire.
    let mut bench = small().bench();
    accept_all(&mut bench, &WANTED_AT_84);
    accept_all(&mut bench, &[wait(10), start_other(64), wait(1)]);
    tried.both_hold(34, 38, || refusal_of(&bench, start_other(64)));
    tried.all();
}

/// "05: 39, 34, 36", and "Each direction holds at most 128 frames under way".
#[test]
fn kind_05_39_34_36() {
    let mut tried = Tried::new(Line::Kind05);
    // Just started: not due again before one octet time has passed.
    let bench = bench_with_pfc_under_way(1);
    tried.both_hold(39, 34, || refusal_of(&bench, START_PFC));
    // 128 under way and the wire free, but the refresh comes only 100 after the last start.
    let mut bench = bench_with_pfc_under_way_every(100, 128);
    accept_all(&mut bench, &[wait(84)]);
    tried.both_hold(39, 36, || refusal_of(&bench, START_PFC));
    accept_all(&mut bench, &[wait(16)]);
    assert_eq!(refusal_of(&bench, START_PFC), 36);
    // 128 under way and due, but the last of them still holds the wire.
    let mut bench = bench_with_pfc_under_way(128);
    accept_all(&mut bench, &[wait(1)]);
    tried.both_hold(34, 36, || refusal_of(&bench, START_PFC));
    tried.all();
}

/// "07: 32, 43, 42".
#[test]
fn kind_07_32_43_42() {
    let mut tried = Tried::new(Line::Kind07);
    let bench = small().bench();
    // A priority above 7 is not enabled either, so 43 comes between 32 and 42.
    for octets in [0, 1] {
        tried.both_hold(32, 43, || refusal_of(&bench, disk_takes(8, octets)));
    }
    tried.both_hold(43, 42, || refusal_of(&bench, disk_takes(1, 1)));
    tried.all();
}
