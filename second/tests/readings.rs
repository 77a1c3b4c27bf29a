//! The settled readings, points 1 to 22: one test a point, its number in the test's name.

mod common;

use common::*;
use second::bench::{run, Bench, Record};
use second::frame::{build, part, verdict, Request, Verdict};
use second::head::{choose, Head};
use second::headroom::{calculate, Inputs};
use second::recorder::Recorder;
use second::units::{BitTimes, OctetTimes, Quanta};

const OWN: [u8; 6] = [0x02, 0, 0, 0, 0, 0x0A];
const SOURCE: [u8; 6] = [0x02, 0, 0, 0, 0, 0x0B];

fn built(source: [u8; 6], request: &Request) -> [u8; 60] {
    let mut frame = [0xEE; 60];
    build(&source, request, &mut frame).unwrap();
    frame
}

const ANY_REQUEST: Request = Request {
    e: 0x81,
    times: [1, 2, 3, 4, 5, 6, 7, 0xFFFF],
};

#[test]
fn point_01_halt_is_no_station_delay_but_part_of_the_path() {
    let answer = |halt| {
        number(calculate(&Inputs {
            halt: BitTimes(halt),
            ..bare_inputs()
        }))
    };
    assert_eq!(answer(6_144), 0);
    assert_eq!(answer(2_000_000), 19);
    assert_eq!(answer(134_217_728), 19);
    assert_eq!(answer(134_217_729), 14);
    // The widest halt with a link and delays beside it: the sum is wider than 64 bits.
    let wide = Inputs {
        metres: 100,
        b_transmit: BitTimes(1),
        a_receive: BitTimes(1),
        halt: BitTimes(u64::MAX),
        ..bare_inputs()
    };
    assert_eq!(number(calculate(&wide)), 14);
}

#[test]
fn point_02_reading_tries_13_first_and_takes_group_bits_as_given() {
    let no_frame: &[u8] = &[];
    assert_eq!(number(verdict(63, &OWN, no_frame)), 13);
    assert_eq!(number(verdict(9_217, &OWN, no_frame)), 13);
    assert_eq!(number(verdict(64, &OWN, no_frame)), 1);

    let mut group_source = built(SOURCE, &ANY_REQUEST);
    group_source[6] |= 1;
    assert_eq!(
        verdict(64, &OWN, &group_source),
        Ok(Verdict::Request(ANY_REQUEST))
    );

    let group_own = [0x03, 1, 2, 3, 4, 5];
    let mut for_group_own = built(SOURCE, &ANY_REQUEST);
    for_group_own[..6].copy_from_slice(&group_own);
    assert_eq!(
        verdict(64, &group_own, &for_group_own),
        Ok(Verdict::Request(ANY_REQUEST))
    );
    assert_eq!(number(verdict(64, &OWN, &for_group_own)), 3);
    assert!(part(64, &group_own, &for_group_own).is_empty());
}

#[test]
fn point_03_a_buffer_of_60_is_enough_and_5_comes_before_6() {
    let group_source = [0x01, 0, 0, 0, 0, 0];
    let mut short = [0xEE; 59];
    assert_eq!(number(build(&group_source, &ANY_REQUEST, &mut short)), 5);
    assert_eq!(number(build(&SOURCE, &ANY_REQUEST, &mut short)), 5);
    assert_eq!(short, [0xEE; 59]);
    let mut enough = [0xEE; 60];
    assert_eq!(number(build(&group_source, &ANY_REQUEST, &mut enough)), 6);
    assert_eq!(enough, [0xEE; 60]);
    assert_eq!(number(build(&SOURCE, &ANY_REQUEST, &mut enough)), 0);
}

#[test]
fn point_04_a_request_without_e_counts_and_wide_counts_of_quanta_lower_to_0() {
    let mut head = Head::new(0xFF);
    head.timers = [7; 8];
    head.take_request(&Request {
        e: 0,
        times: [1000; 8],
    });
    assert_eq!(head.timers, [7; 8]);
    assert_eq!(head.indications, 1);
    head.timers = [65_535; 8];
    for wide in [65_536, 65_537, 1 << 32, u64::MAX] {
        let mut lowered = head;
        lowered.pass(Quanta(wide));
        assert_eq!(lowered.timers, [0; 8], "{wide}");
    }
    let mut lowered = head;
    lowered.pass(Quanta(65_534));
    assert_eq!(lowered.timers, [1; 8]);
}

#[test]
fn point_05_choice_22_for_all_entries_20_for_all_heads_21_for_present_heads() {
    let own_class = [0, 1, 2, 3, 4, 5, 6, 7];
    let none_present = [8; 8];
    // No head is present, so nobody asks for entry 7: it is tried all the same.
    let bad_entry = [0, 1, 2, 3, 4, 5, 6, 8];
    assert_eq!(number(choose(&none_present, &bad_entry, 0)), 22);
    // Class 7 is free to go, and yet class 0's head is tried.
    let bad_head = [9, 8, 8, 8, 8, 8, 8, 7];
    assert_eq!(number(choose(&bad_head, &own_class, 0)), 20);
    // A map that gives class 0 nothing harms no empty queue.
    let all_in_7 = [7; 8];
    assert_eq!(choose(&none_present, &all_in_7, 0), Ok(None));
    assert_eq!(choose(&[8, 8, 8, 8, 8, 8, 8, 2], &all_in_7, 0), Ok(Some(7)));
    assert_eq!(number(choose(&[2, 8, 8, 8, 8, 8, 8, 8], &all_in_7, 0)), 21);
}

#[test]
fn point_06_wide_headroom_inputs_are_refused_and_limits_pass() {
    let answer = |change: fn(&mut Inputs)| {
        let mut inputs = bare_inputs();
        change(&mut inputs);
        number(calculate(&inputs))
    };
    assert_eq!(answer(|_| ()), 0);
    // Each of these is a value within its limit once it is wrapped to 32 bits.
    assert_eq!(answer(|i| i.rate = (1 << 32) + 10_000), 10);
    assert_eq!(answer(|i| i.metres = 1 << 32), 11);
    assert_eq!(answer(|i| i.percentage = (1 << 32) + 50), 12);
    assert_eq!(answer(|i| i.largest_frame = (1 << 32) + 64), 13);
    assert_eq!(answer(|i| i.generation = BitTimes(1 << 32)), 14);
    assert_eq!(answer(|i| i.b_receive = BitTimes(u64::MAX)), 14);
    for (percentage, expected) in [(39, 12), (40, 0), (100, 0), (101, 12)] {
        let inputs = Inputs {
            percentage,
            ..bare_inputs()
        };
        assert_eq!(number(calculate(&inputs)), expected, "{percentage} %");
    }
    for (metres, expected) in [(100_000, 0), (100_001, 11)] {
        let inputs = Inputs {
            metres,
            percentage: 100,
            ..bare_inputs()
        };
        assert_eq!(number(calculate(&inputs)), expected, "{metres} m");
    }
}

#[test]
fn point_07_total_bits_and_headroom_octets_are_rounded_apart() {
    let inputs = Inputs {
        generation: BitTimes(1),
        b_transmit: BitTimes(1),
        b_receive: BitTimes(1),
        ..bare_inputs()
    };
    let sum = calculate(&inputs).unwrap();
    // 1 + 672 + 672 + 1 + 672 + 1 bits are 253 octets, rounded up; apart, 1 + 84 + 84 + 1 + 84 + 1.
    assert_eq!(sum.total, BitTimes(2_019));
    assert_eq!(sum.total.rounded_up_to_octet_times(), OctetTimes(253));
    assert_eq!(sum.delays.headroom(), OctetTimes(255));
    // Document 004's example has whole octets by L1: 126,232 bits, P 49,592 / 8, D 43,448 / 8.
    let inputs = Inputs {
        metres: 100,
        percentage: 60,
        largest_frame: 2000,
        generation: BitTimes(200),
        b_transmit: BitTimes(18_944),
        b_receive: BitTimes(18_944),
        a_transmit: BitTimes(18_944),
        a_receive: BitTimes(18_944),
        halt: BitTimes(6_144),
        ..bare_inputs()
    };
    let sum = calculate(&inputs).unwrap();
    assert_eq!(sum.total.rounded_up_to_octet_times(), OctetTimes(15_779));
    assert_eq!(sum.delays.headroom(), OctetTimes(15_779));
    // The settings of document 01's example are given the paths from before: 126,224 bits are
    // 15,778 octets exactly, and P and D are each half an octet rounded up. The room rules use
    // the octets, so 15,778 + 2,000 is not enough.
    let given = Given {
        rooms: [17_778; 8],
        ..example()
    };
    assert_eq!(number(given.settings().accept()), 15);
}

/// A pause and a resume by time 252, last start at 168, then 1,000 octet times and a frame that
/// reaches B at 1,336: PFC is due since then.
const MARK_RISES_LATE: [Record; 14] = [
    Record::StartData {
        priority: 0,
        length: 64,
    },
    Record::Wait { n: 84 },
    Record::DataArrives,
    Record::StartPfc,
    Record::DiskTakes {
        priority: 0,
        octets: 64,
    },
    Record::Wait { n: 84 },
    Record::PfcTakesEffect,
    Record::StartPfc,
    Record::Wait { n: 84 },
    Record::PfcTakesEffect,
    Record::Wait { n: 1_000 },
    Record::StartData {
        priority: 0,
        length: 64,
    },
    Record::Wait { n: 84 },
    Record::DataArrives,
];

#[test]
fn point_08_a_mark_that_rises_late_makes_pfc_due_when_it_rises() {
    let mut bench = small().bench();
    accept_all(&mut bench, &MARK_RISES_LATE);
    assert_eq!(bench.time(), OctetTimes(1_336));
    assert_eq!(bench.recorder().last_start(), Some(OctetTimes(168)));
    assert_eq!(bench.recorder().due_since(), Some(OctetTimes(1_336)));
    // G counts from 1,336: at 1,346 an other frame may start, at 1,347 not.
    let mut at_g = bench.clone();
    accept_all(&mut at_g, &[wait(10), start_other(64)]);
    let mut past_g = bench.clone();
    accept_all(&mut past_g, &[wait(11)]);
    assert_eq!(refused(&mut past_g, start_other(64)), 38);
    // And so does G + W = 94.
    assert_eq!(refused(&mut bench, wait(95)), 40);
    accept_all(&mut bench, &[wait(94), START_PFC]);
}

#[test]
fn point_09_refresh_at_exactly_i_and_none_before_the_first_start() {
    let mut bench = small().bench();
    accept_all(&mut bench, &[wait(50_000)]);
    assert_eq!(refused(&mut bench, START_PFC), 39);

    // Started at 84, so due again at 184.
    let mut bench = small().bench();
    accept_all(&mut bench, &WANTED_AT_84);
    accept_all(&mut bench, &[START_PFC, wait(84), PFC_TAKES_EFFECT]);
    accept_all(&mut bench, &[wait(15)]);
    assert_eq!(bench.time(), OctetTimes(183));
    assert_eq!(refused(&mut bench, START_PFC), 39);
    accept_all(&mut bench, &[wait(1)]);
    assert_eq!(bench.recorder().due_since(), Some(OctetTimes(184)));
    accept_all(&mut bench, &[START_PFC]);
}

#[test]
fn point_10_a_mark_that_changes_back_leaves_the_first_moment_and_todays_marks() {
    let given = Given {
        enabled: 0x05,
        ..small()
    };
    let mut bench = given.bench();
    accept_all(&mut bench, &WANTED_AT_84);
    accept_all(&mut bench, &[wait(10), disk_takes(0, 64)]);
    assert!(!bench.recorder().room(0).wanted);
    assert_eq!(bench.recorder().due_since(), Some(OctetTimes(84)));
    accept_all(&mut bench, &[wait(1)]);
    assert_eq!(refused(&mut bench, start_other(64)), 38);
    accept_all(&mut bench, &[START_PFC, wait(84), PFC_TAKES_EFFECT]);
    assert_eq!(bench.head().timers, [0; 8]);
    assert_eq!(bench.head().indications, 1);

    // What the frame carries, seen at the recorder: 0 is wanted, 2 is enabled, the rest is silent.
    let settings = given.settings();
    let mut recorder = Recorder::new(&settings, &settings.accept().unwrap());
    recorder.arrive(0, 64, OctetTimes(5));
    assert_eq!(
        recorder.start_pfc(OctetTimes(6)),
        Request {
            e: 0x05,
            times: [65_535, 0, 0, 0, 0, 0, 0, 0],
        }
    );
    recorder.arrive(2, 1, OctetTimes(7));
    recorder.take(0, 64, OctetTimes(8)).unwrap();
    assert_eq!(recorder.due_since(), Some(OctetTimes(7)));
    assert_eq!(
        recorder.start_pfc(OctetTimes(9)),
        Request {
            e: 0x05,
            times: [0, 0, 65_535, 0, 0, 0, 0, 0],
        }
    );
    assert_eq!(recorder.due_since(), None);
    assert_eq!(recorder.requests_sent(), 2);
}

#[test]
fn point_11_38_from_g_plus_1_on_and_after_a_refresh_inside_a_wait_from_last_plus_i() {
    let given = Given {
        m: 128,
        // W 148, one-way 10 + 148 + 84 = 242, headroom 242 + 148 = 390, room 390 + 128.
        rooms: [518; 8],
        ..small()
    };
    let mut bench = given.bench();
    accept_all(&mut bench, &WANTED_AT_84);
    let mut at_g = bench.clone();
    accept_all(&mut at_g, &[wait(10), start_other(128)]);
    let mut past_g = bench.clone();
    accept_all(&mut past_g, &[wait(11)]);
    assert_eq!(refused(&mut past_g, start_other(64)), 38);
    // Started at 84, due again at 184 inside the wait to 194 or 195.
    accept_all(&mut bench, &[START_PFC, wait(84), PFC_TAKES_EFFECT]);
    let mut at_g = bench.clone();
    accept_all(&mut at_g, &[wait(26), start_other(128)]);
    assert_eq!(at_g.recorder().due_since(), Some(OctetTimes(184)));
    accept_all(&mut bench, &[wait(27)]);
    assert_eq!(bench.time(), OctetTimes(195));
    assert_eq!(refused(&mut bench, start_other(64)), 38);
}

#[test]
fn point_12_bounds_are_inclusive_and_2_to_the_40_is_reached() {
    // D: the frame of the example ends at 2,020 and may arrive up to 2,020 + 5,431 = 7,451.
    let mut bench = example().bench();
    accept_all(&mut bench, &[start_data(3, 2000)]);
    assert_eq!(refused(&mut bench, wait(7_452)), 40);
    accept_all(&mut bench, &[wait(7_451)]);
    assert_eq!(refused(&mut bench, wait(1)), 40);
    accept_all(&mut bench, &[wait(0), DATA_ARRIVES]);
    // G + W = 2,045 to the start of the PFC frame, from 7,451 to 9,496.
    assert_eq!(refused(&mut bench, wait(2_046)), 40);
    accept_all(&mut bench, &[wait(2_045)]);
    assert_eq!(refused(&mut bench, wait(1)), 40);
    accept_all(&mut bench, &[START_PFC]);
    // 84 + P = 6,283 to its effect, from 9,496 to 15,779.
    assert_eq!(refused(&mut bench, wait(6_284)), 40);
    accept_all(&mut bench, &[wait(6_283), PFC_TAKES_EFFECT]);
    // The refresh falls due at 9,496 + 100,000 and its bound is 2,045 later, 95,762 away from
    // 15,779: here all of it lies inside one wait.
    accept_all(&mut bench, &[wait(50_000)]);
    assert_eq!(refused(&mut bench, wait(45_763)), 40);
    accept_all(&mut bench, &[wait(45_762), START_PFC]);
    assert_eq!(bench.time(), OctetTimes(111_541));

    // 41, and 41 before 40: the frame started at 2^40 - 100 must arrive at 2^40 - 16.
    let end = 1u64 << 40;
    let settings = small().settings();
    let mut bench = Bench::starting_at(settings, OctetTimes(end - 100)).unwrap();
    assert_eq!(refused(&mut bench, wait(101)), 41);
    accept_all(&mut bench.clone(), &[wait(100)]);
    accept_all(&mut bench, &[start_data(0, 64)]);
    assert_eq!(refused(&mut bench, wait(101)), 41);
    assert_eq!(refused(&mut bench, wait(100)), 40);
}

#[test]
fn point_13_37_where_none_is_under_way_and_arrival_at_the_end_of_the_wire_time() {
    let mut bench = small().bench();
    assert_eq!(refused(&mut bench, DATA_ARRIVES), 37);
    assert_eq!(refused(&mut bench, PFC_TAKES_EFFECT), 37);
    accept_all(&mut bench, &[start_data(0, 64), wait(83)]);
    assert_eq!(refused(&mut bench, DATA_ARRIVES), 37);
    assert_eq!(refused(&mut bench, start_data(0, 64)), 34);
    accept_all(&mut bench, &[wait(1)]);
    accept_all(&mut bench, &[start_data(0, 64), DATA_ARRIVES, START_PFC]);
    assert_eq!(refused(&mut bench, PFC_TAKES_EFFECT), 37);
    accept_all(&mut bench, &[wait(84), DATA_ARRIVES, PFC_TAKES_EFFECT]);

    // The frame on the wire counts among the 128.
    let mut bench = bench_with_data_under_way(127);
    assert_eq!(bench.data_direction().under_way(), 127);
    accept_all(&mut bench, &[wait(84), start_data(1, 64), wait(84)]);
    assert_eq!(refused(&mut bench, start_data(1, 64)), 36);
    accept_all(&mut bench, &[DATA_ARRIVES, start_data(1, 64)]);

    // Kind 04's frames never count: 200 of them, and then a PFC frame starts.
    let mut bench = small().bench();
    for _ in 0..200 {
        accept_all(&mut bench, &[start_other(64), wait(84)]);
    }
    assert_eq!(bench.request_direction().under_way(), 0);
    accept_all(&mut bench, &WANTED_AT_84);
    accept_all(&mut bench, &[START_PFC]);
}

#[test]
fn point_14_39_before_34_34_before_36_and_35_before_36() {
    let mut bench = small().bench();
    accept_all(&mut bench, &[start_other(64)]);
    assert_eq!(refused(&mut bench, START_PFC), 39);

    let mut bench = bench_with_pfc_under_way(128);
    accept_all(&mut bench, &[wait(1)]);
    assert!(bench.recorder().due_since().is_some());
    assert_eq!(refused(&mut bench, START_PFC), 34);
    accept_all(&mut bench, &[wait(83)]);
    assert_eq!(refused(&mut bench, START_PFC), 36);

    let mut bench = bench_with_data_under_way(128);
    accept_all(&mut bench, &[wait(84)]);
    assert_eq!(refused(&mut bench, start_data(0, 64)), 35);
    assert_eq!(refused(&mut bench, start_data(1, 64)), 36);
}

#[test]
fn point_15_a_wait_of_0_and_a_taking_of_0_are_steps() {
    assert_eq!(
        small().report(&[wait(0), disk_takes(0, 0), wait(0)]),
        "steps 3 time 0 refusal 0 at 0\n0 held 0 dropped 0 worst 0 paused 0\n"
    );
}

#[test]
fn point_16_what_a_first_record_and_later_settings_give() {
    let line = |number: u8| format!("steps 0 time 0 refusal {number} at 0\n");
    let settings = small().record();
    assert_eq!(run(&[]).to_string(), line(44));
    for first in [0x01, 0x03, 0x07, 0x08, 0xFF] {
        assert_eq!(run(&[first]).to_string(), line(44), "first kind {first}");
    }
    assert_eq!(run(&settings[..1]).to_string(), line(31));
    assert_eq!(run(&settings[..57]).to_string(), line(31));
    // Later settings, whole or cut short.
    for length in [1, 57, 58] {
        let input = [&settings[..], &octets_of(wait(5)), &settings[..length]].concat();
        assert_eq!(
            run(&input).to_string(),
            "steps 1 time 5 refusal 44 at 2\n0 held 0 dropped 0 worst 0 paused 0\n"
        );
    }
    // 45 before everything: nothing in it would be accepted.
    assert_eq!(run(&[0xFF; 65_537]).to_string(), line(45));
    assert_eq!(run(&[0xFF; 65_536]).to_string(), line(44));
    let mut long = settings.clone();
    long.resize(65_537, 0x08);
    assert_eq!(run(&long).to_string(), line(45));
}

#[test]
fn point_17_after_a_refusal_nothing_later_is_looked_at() {
    let given = small();
    let records = [wait(7), DATA_ARRIVES, wait(9), disk_takes(9, 9)];
    assert_eq!(
        given.report(&records),
        "steps 1 time 7 refusal 37 at 2\n0 held 0 dropped 0 worst 0 paused 0\n"
    );
    // The state before the refused record, with something in it.
    let records = [&WANTED_AT_84[..], &[disk_takes(0, 65), disk_takes(0, 64)]].concat();
    assert_eq!(
        given.report(&records),
        "steps 3 time 84 refusal 42 at 4\n0 held 64 dropped 0 worst 0 paused 0\n"
    );
}

#[test]
fn point_18_worst_counts_an_open_span_starts_at_0_and_counts_dropped_octets() {
    // Rooms of 326 in `small`: the first octet held is wanted. Frames of 64 arrive at 84, 168, 252.
    let frame = [start_data(0, 64), wait(84), DATA_ARRIVES];
    let given = Given {
        // G 1,000 leaves time for three frames before the PFC frame must start:
        // one-way 1,168, headroom 1,252.
        generation: 8_000,
        rooms: [1_252 + 64; 8],
        ..small()
    };
    let open_span = [frame, frame, frame].concat();
    assert_eq!(
        given.report(&open_span),
        "steps 9 time 252 refusal 0 at 0\n0 held 192 dropped 0 worst 128 paused 0\n"
    );
    // The span ends when all is taken; the next has one frame after its crossing frame only.
    let second_span = [&open_span[..], &[disk_takes(0, 192)], &frame, &frame].concat();
    assert_eq!(
        given.report(&second_span),
        "steps 16 time 420 refusal 0 at 0\n0 held 128 dropped 0 worst 128 paused 0\n"
    );

    // No run drops a frame, but the recorder on its own can be overfilled: 5 x 64 = 320 of 326.
    let settings = small().settings();
    let mut recorder = Recorder::new(&settings, &settings.accept().unwrap());
    for _ in 0..6 {
        recorder.arrive(0, 64, OctetTimes(1));
    }
    let room = recorder.room(0);
    assert_eq!((room.held, room.dropped, room.worst), (320, 64, 320));
}

#[test]
fn point_19_what_fits_and_frames_of_priorities_not_enabled() {
    let settings = small().settings();
    let mut recorder = Recorder::new(&settings, &settings.accept().unwrap());
    recorder.arrive(0, 326, OctetTimes(1));
    assert_eq!(
        (recorder.room(0).held, recorder.room(0).dropped),
        (326, 0),
        "a frame as long as the free room fits"
    );
    recorder.arrive(0, 1, OctetTimes(1));
    assert_eq!((recorder.room(0).held, recorder.room(0).dropped), (326, 1));

    // Priority 1 is not enabled: it holds A's wire, arrives, and leaves no trace and no line.
    let records = [start_data(1, 64), start_data(0, 64)];
    assert_eq!(small().refusal(&records), (34, 2));
    let records = [start_data(1, 64), wait(84), DATA_ARRIVES];
    assert_eq!(
        small().report(&records),
        "steps 3 time 84 refusal 0 at 0\n0 held 0 dropped 0 worst 0 paused 0\n"
    );
    assert_eq!(small().refusal(&[disk_takes(1, 0)]), (43, 1));
    // While 0 is paused, 1 is never refused by 35.
    let mut bench = small().bench();
    accept_all(&mut bench, &WANTED_AT_84);
    accept_all(&mut bench, &[START_PFC, wait(84), PFC_TAKES_EFFECT]);
    assert_eq!(refused(&mut bench, start_data(0, 64)), 35);
    accept_all(&mut bench, &[start_data(1, 64)]);
}

#[test]
fn point_20_quanta_go_by_absolute_time() {
    // The frame takes effect at 168, and 192, 256 and 320 are the next multiples of 64.
    let given = Given {
        t: 7,
        i: 1,
        ..small()
    };
    // 64 x 7 = 448 >= 1 + 178 + 64.
    let mut bench = given.bench();
    accept_all(&mut bench, &WANTED_AT_84);
    accept_all(&mut bench, &[START_PFC, wait(84), PFC_TAKES_EFFECT]);
    assert_eq!(bench.head().timers[0], 7);
    accept_all(&mut bench, &[START_PFC, wait(23)]);
    assert_eq!((bench.time().0, bench.head().timers[0]), (191, 7));
    accept_all(&mut bench, &[wait(1)]);
    assert_eq!((bench.time().0, bench.head().timers[0]), (192, 6));
    accept_all(&mut bench, &[wait(60), PFC_TAKES_EFFECT]);
    assert_eq!((bench.time().0, bench.head().timers[0]), (252, 7));
    accept_all(&mut bench, &[wait(4)]);
    assert_eq!((bench.time().0, bench.head().timers[0]), (256, 6));

    // A timer set at a multiple of 64 first falls at the next: the effect comes at 172 + 84 = 256.
    // I 150 keeps the refresh out of the way: 448 >= 150 + 178 + 64.
    let mut bench = Given { i: 150, ..given }.bench();
    accept_all(&mut bench, &WANTED_AT_84);
    accept_all(&mut bench, &[wait(88), START_PFC, wait(84)]);
    accept_all(&mut bench, &[PFC_TAKES_EFFECT]);
    assert_eq!((bench.time().0, bench.head().timers[0]), (256, 7));
    accept_all(&mut bench, &[wait(63)]);
    assert_eq!(bench.head().timers[0], 7);
    accept_all(&mut bench, &[wait(1)]);
    assert_eq!((bench.time().0, bench.head().timers[0]), (320, 6));
}

#[test]
fn point_21_what_18_tries_and_enabled_00() {
    const LARGEST: u32 = 1_073_741_824;
    let answer = |given: Given| number(given.settings().accept());
    let rooms = [326, LARGEST + 1, u32::MAX, 0, 0, 0, 0, 0];
    assert_eq!(answer(Given { rooms, ..small() }), 0);
    let enabled = 0x03;
    assert_eq!(
        answer(Given {
            enabled,
            rooms,
            ..small()
        }),
        18
    );
    let rooms = [326, LARGEST, 0, 0, 0, 0, 0, 0];
    assert_eq!(
        answer(Given {
            enabled,
            rooms,
            ..small()
        }),
        0
    );
    // With nothing enabled: the hysteresis and 16 are tried, 15 has nothing to try.
    let nothing = Given {
        enabled: 0,
        rooms: [0; 8],
        ..small()
    };
    assert_eq!(answer(nothing), 0);
    let hysteresis = LARGEST;
    assert_eq!(
        answer(Given {
            hysteresis,
            ..nothing
        }),
        0
    );
    let hysteresis = LARGEST + 1;
    assert_eq!(
        answer(Given {
            hysteresis,
            ..nothing
        }),
        18
    );
    // 100 + 178 + 64 = 342 > 64 x 5.
    assert_eq!(answer(Given { t: 5, ..nothing }), 16);
    assert_eq!(
        nothing.report(&[wait(3)]),
        "steps 1 time 3 refusal 0 at 0\n"
    );
}

#[test]
fn point_22_rooms_from_priority_0_up_bit_0_is_priority_0_and_line_feeds() {
    // Priorities 0 and 7 enabled, room 7 one octet too small, then large enough.
    let rooms = [326, 0, 0, 0, 0, 0, 0, 325];
    let given = Given {
        enabled: 0x81,
        rooms,
        ..small()
    };
    assert_eq!(
        given.report(&[]),
        "steps 0 time 0 refusal 15 at 0\n",
        "line 1 stands alone"
    );
    let rooms = [326, 0, 0, 0, 0, 0, 0, 400];
    let given = Given { rooms, ..given };
    // 400 - 64 = 336 >= 326: priority 7 is not wanted with one frame held, priority 0 is.
    let mut bench = given.bench();
    accept_all(&mut bench, &[start_data(7, 64), wait(84), DATA_ARRIVES]);
    assert!(!bench.recorder().room(7).wanted);
    accept_all(&mut bench, &WANTED_AT_84);
    assert!(bench.recorder().room(0).wanted);
    let of_priority_7 = [start_data(7, 64), wait(84), DATA_ARRIVES];
    assert_eq!(
        given.report(&[of_priority_7, WANTED_AT_84].concat()),
        "steps 6 time 168 refusal 0 at 0\n\
         0 held 64 dropped 0 worst 0 paused 0\n\
         7 held 64 dropped 0 worst 0 paused 0\n"
    );
}
