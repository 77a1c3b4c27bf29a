//! Each refusal in its order: everything is wrong at first, then the wrong things go one by one.

mod common;

use common::*;
use second::bench::{run, Bench};
use second::frame::{build, verdict, Request, Verdict};
use second::head::choose;
use second::headroom::{calculate, Inputs};
use second::recorder::{sender_part, sender_refusal};
use second::settings::Settings;
use second::units::{BitTimes, OctetTimes};

const OWN: [u8; 6] = [0x02, 0, 0, 0, 0, 0x0A];

/// A change that takes one wrong thing away.
type Mend<T> = fn(&mut T);

#[test]
fn reading_13_1_2_data_3_4() {
    struct Case {
        m: u64,
        frame: Vec<u8>,
    }
    let answer = |case: &Case| number(verdict(case.m, &OWN, &case.frame));
    // A control frame for another address with another opcode, too short for any M.
    let mut frame = vec![0xAA; 12];
    frame.extend([0x88, 0x08, 0x00, 0x01]);
    frame.resize(59, 0);
    let mut case = Case { m: 9_217, frame };
    assert_eq!(answer(&case), 13);
    case.m = 64;
    assert_eq!(answer(&case), 1);
    case.frame.resize(61, 0);
    assert_eq!(answer(&case), 2);
    case.frame.resize(60, 0);
    assert_eq!(answer(&case), 3);
    case.frame[..6].copy_from_slice(&OWN);
    assert_eq!(answer(&case), 4);
    case.frame[14] = 0x01;
    assert_eq!(answer(&case), 0);
    assert!(matches!(
        verdict(64, &OWN, &case.frame),
        Ok(Verdict::Request(Request { e: 0, .. }))
    ));
    // The address of data is not looked at, nor what would be its opcode; 13, 1 and 2 are.
    case.frame[..6].fill(0xAA);
    case.frame[12..16].copy_from_slice(&[0x81, 0x00, 0x00, 0x01]);
    assert_eq!(verdict(64, &OWN, &case.frame), Ok(Verdict::Data));
    assert_eq!(number(verdict(63, &OWN, &case.frame)), 13);
    assert_eq!(number(verdict(64, &OWN, &case.frame[..59])), 1);
    case.frame.push(0);
    assert_eq!(number(verdict(64, &OWN, &case.frame)), 2);
    assert_eq!(verdict(65, &OWN, &case.frame), Ok(Verdict::Data));
}

#[test]
fn building_5_6() {
    let request = Request {
        e: 0xFF,
        times: [9; 8],
    };
    let group_source = [0x03, 0, 0, 0, 0, 0];
    for length in [0, 1, 59] {
        let mut buffer = vec![0xEE; length];
        assert_eq!(number(build(&group_source, &request, &mut buffer)), 5);
        assert_eq!(buffer, vec![0xEE; length]);
    }
    let mut buffer = [0xEE; 61];
    assert_eq!(number(build(&group_source, &request, &mut buffer)), 6);
    assert_eq!(buffer, [0xEE; 61]);
    assert_eq!(number(build(&OWN, &request, &mut buffer)), 0);
    assert_eq!(buffer[60], 0xEE);
}

#[test]
fn sender_5_due_or_not() {
    let data = [7; 100];
    for length in [0, 59] {
        for due in [true, false] {
            let control = vec![1; length];
            let refusal = sender_refusal(due, &control);
            assert_eq!(refusal.map(|refusal| refusal.number()), Some(5));
            assert!(sender_part(due, &control, &data).is_empty());
        }
    }
    let control: Vec<u8> = (0..70).collect();
    assert_eq!(sender_refusal(true, &control), None);
    assert_eq!(sender_part(true, &control, &data), &control[..60]);
    assert_eq!(sender_part(false, &control, &data), &data[..]);
    assert_eq!(sender_part(false, &control[..60], &[]), &[]);
    // The parts are the caller's own octets, not copies.
    let part = sender_part(true, &control, &data);
    assert!(std::ptr::eq(part.as_ptr(), control.as_ptr()));
}

#[test]
fn headroom_10_11_12_13_14_19() {
    let mut inputs = Inputs {
        rate: 25_000,
        metres: 100_001,
        percentage: 39,
        largest_frame: 63,
        generation: BitTimes(1_048_577),
        b_transmit: BitTimes(1_048_577),
        b_receive: BitTimes(1_048_577),
        a_transmit: BitTimes(1_048_577),
        a_receive: BitTimes(1_048_577),
        halt: BitTimes(134_217_729),
    };
    let mends: [(u8, Mend<Inputs>); 12] = [
        (10, |i| i.rate = 10_000),
        (11, |i| i.metres = 0),
        (12, |i| i.percentage = 100),
        (13, |i| i.largest_frame = 64),
        (14, |i| i.generation = BitTimes(1_048_576)),
        (14, |i| i.b_transmit = BitTimes(1_048_576)),
        (14, |i| i.b_receive = BitTimes(1_048_576)),
        (14, |i| i.a_transmit = BitTimes(1_048_576)),
        (14, |i| i.a_receive = BitTimes(1_048_576)),
        // The request path is 2 x 1,048,576 + halt.
        (14, |i| i.halt = BitTimes(134_217_728 - 2_097_152)),
        (19, |i| i.halt = BitTimes(6_144)),
        (0, |_| ()),
    ];
    for (step, (expected, mend)) in mends.into_iter().enumerate() {
        assert_eq!(number(calculate(&inputs)), expected, "step {step}");
        mend(&mut inputs);
    }
    // One bit more on the request path, and a data path of its own over the limit: at 100,000 m,
    // 100,000 Mb/s and 40 % the link is 83,391,024 bits, so no data path can be.
    inputs.halt = BitTimes(134_217_728 - 2_097_152 + 1);
    assert_eq!(number(calculate(&inputs)), 14);
    inputs.metres = 100_000;
    inputs.rate = 100_000;
    inputs.percentage = 40;
    inputs.halt = BitTimes(61_440);
    assert_eq!(calculate(&inputs).unwrap().link, BitTimes(83_391_024));
}

#[test]
fn choice_22_20_21() {
    let mut heads = [9, 0, 8, 8, 8, 8, 8, 8];
    let mut class_of = [0, 0, 0, 0, 0, 0, 0, 8];
    assert_eq!(number(choose(&heads, &class_of, 0xFF)), 22);
    class_of[7] = 7;
    assert_eq!(number(choose(&heads, &class_of, 0xFF)), 20);
    heads[0] = 8;
    assert_eq!(number(choose(&heads, &class_of, 0xFF)), 21);
    class_of[0] = 1;
    assert_eq!(choose(&heads, &class_of, 0xFF), Ok(None));
    assert_eq!(choose(&heads, &class_of, 0xFE), Ok(Some(1)));
    // A paused head gives way to the next class below; the highest that is free goes.
    let heads = [0, 8, 2, 8, 4, 8, 6, 8];
    let class_of = [0, 1, 2, 3, 4, 5, 6, 7];
    assert_eq!(choose(&heads, &class_of, 0x00), Ok(Some(6)));
    assert_eq!(choose(&heads, &class_of, 0x40), Ok(Some(4)));
    assert_eq!(choose(&heads, &class_of, 0x54), Ok(Some(0)));
}

#[test]
fn settings_13_14_17_18_16_15() {
    let mut settings = Settings {
        enabled: 0x80,
        largest_frame: 9_217,
        generation: BitTimes(1_048_577),
        request_path: BitTimes(134_217_729),
        data_path: BitTimes(134_217_729),
        pause_time: 0,
        refresh: OctetTimes(0),
        hysteresis: 1_073_741_825,
        rooms: [0, 0, 0, 0, 0, 0, 0, 1_073_741_825],
    };
    let mends: [(u8, Mend<Settings>); 11] = [
        (13, |s| s.largest_frame = 9_216),
        (14, |s| s.generation = BitTimes(1_048_576)),
        (14, |s| s.request_path = BitTimes(0)),
        (14, |s| s.data_path = BitTimes(134_217_728)),
        (17, |s| s.refresh = OctetTimes(4_194_305)),
        (17, |s| s.refresh = OctetTimes(1)),
        (18, |s| s.hysteresis = 0),
        (18, |s| s.rooms[7] = 0),
        // G 131,072, W 9,236, P 0, so one-way 140,392; 140,392 + 1 + 64 = 140,457 <= 64 x 2,195.
        (16, |s| s.pause_time = 2_194),
        (16, |s| s.pause_time = 2_195),
        // D 16,777,216: headroom 140,392 + 9,236 + 16,777,216 = 16,926,844, and M 9,216 more.
        (15, |s| s.rooms[7] = 16_936_060),
    ];
    for (step, (expected, mend)) in mends.into_iter().enumerate() {
        assert_eq!(number(settings.accept()), expected, "step {step}");
        mend(&mut settings);
    }
    assert_eq!(number(settings.accept()), 0);
    settings.rooms[7] -= 1;
    assert_eq!(number(settings.accept()), 15);
}

#[test]
fn every_setting_of_kind_00_reaches_its_refusal() {
    let answer = |given: Given| given.refusal(&[]);
    let given = small();
    assert_eq!(answer(given), NONE);
    assert_eq!(answer(Given { m: 63, ..given }), (13, 0));
    let generation = 1_048_577;
    assert_eq!(
        answer(Given {
            generation,
            ..given
        }),
        (14, 0)
    );
    let (request_path, data_path) = (134_217_729, 134_217_729);
    assert_eq!(
        answer(Given {
            request_path,
            ..given
        }),
        (14, 0)
    );
    assert_eq!(answer(Given { data_path, ..given }), (14, 0));
    assert_eq!(answer(Given { i: 0, ..given }), (17, 0));
    let hysteresis = 1_073_741_825;
    assert_eq!(
        answer(Given {
            hysteresis,
            ..given
        }),
        (18, 0)
    );
    assert_eq!(answer(Given { t: 5, ..given }), (16, 0));
    let rooms = [325; 8];
    assert_eq!(answer(Given { rooms, ..given }), (15, 0));
    // With hysteresis 10 the room must be 336.
    let hysteresis = 10;
    assert_eq!(
        answer(Given {
            hysteresis,
            rooms: [335; 8],
            ..given
        }),
        (15, 0)
    );
    assert_eq!(
        answer(Given {
            hysteresis,
            rooms: [336; 8],
            ..given
        }),
        NONE
    );
}

#[test]
fn records_45_44_30_31() {
    let settings = small().record();
    let answer = |tail: &[u8]| refusal_in(&run(&[&settings[..], tail].concat()).to_string());
    assert_eq!(answer(&[]), NONE);
    assert_eq!(answer(&[0x00]), (44, 1));
    assert_eq!(answer(&[0x08]), (30, 1));
    assert_eq!(answer(&[0xFF]), (30, 1));
    for cut in [
        &[0x01][..],
        &[0x01, 0],
        &[0x02],
        &[0x02, 9],
        &[0x02, 9, 0],
        &[0x04],
        &[0x04, 0],
        &[0x07],
        &[0x07, 9],
        &[0x07, 9, 0],
    ] {
        assert_eq!(answer(cut), (31, 1), "{cut:?}");
    }
    assert_eq!(answer(&[0x01, 0, 1, 0x01, 0]), (31, 2));
    // 45 though the first record is missing as well, and not at 65,536.
    assert_eq!(refusal_in(&run(&[0x08; 65_537]).to_string()), (45, 0));
    assert_eq!(refusal_in(&run(&[0x08; 65_536]).to_string()), (44, 0));
}

#[test]
fn kind_01_41_40() {
    // The frame started 100 before the end of time must arrive 16 before it.
    let start = OctetTimes((1 << 40) - 100);
    let mut bench = Bench::starting_at(small().settings(), start).unwrap();
    accept_all(&mut bench, &[start_data(0, 64)]);
    assert_eq!(refused(&mut bench, wait(101)), 41);
    assert_eq!(refused(&mut bench, wait(85)), 40);
    accept_all(&mut bench, &[wait(84)]);
}

#[test]
fn kind_02_32_33_34_35_36() {
    let mut bench = bench_with_data_under_way(128);
    assert_eq!(refused(&mut bench, start_data(8, 63)), 32);
    assert_eq!(refused(&mut bench, start_data(255, 64)), 32);
    assert_eq!(refused(&mut bench, start_data(0, 63)), 33);
    assert_eq!(refused(&mut bench, start_data(0, 65)), 33);
    assert_eq!(refused(&mut bench, start_data(0, 64)), 34);
    accept_all(&mut bench, &[wait(84)]);
    assert_eq!(refused(&mut bench, start_data(0, 64)), 35);
    assert_eq!(refused(&mut bench, start_data(1, 64)), 36);
    accept_all(&mut bench, &[DATA_ARRIVES]);
    assert_eq!(refused(&mut bench, start_data(0, 64)), 35);
    accept_all(&mut bench, &[start_data(1, 64)]);
}

#[test]
fn kinds_03_and_06_37() {
    let mut bench = bench_with_pfc_under_way(1);
    accept_all(&mut bench, &[start_data(1, 64), wait(83)]);
    assert_eq!(refused(&mut bench, DATA_ARRIVES), 37);
    assert_eq!(refused(&mut bench, PFC_TAKES_EFFECT), 37);
    accept_all(&mut bench, &[wait(1), DATA_ARRIVES, PFC_TAKES_EFFECT]);
    assert_eq!(refused(&mut bench, DATA_ARRIVES), 37);
    assert_eq!(refused(&mut bench, PFC_TAKES_EFFECT), 37);
}

#[test]
fn kind_04_33_34_38() {
    let mut bench = small().bench();
    accept_all(&mut bench, &WANTED_AT_84);
    accept_all(&mut bench, &[wait(10), start_other(64), wait(1)]);
    assert_eq!(refused(&mut bench, start_other(63)), 33);
    assert_eq!(refused(&mut bench, start_other(65)), 33);
    assert_eq!(refused(&mut bench, start_other(64)), 34);
    accept_all(&mut bench, &[wait(83)]);
    assert_eq!(refused(&mut bench, start_other(63)), 33);
    assert_eq!(refused(&mut bench, start_other(64)), 38);
    accept_all(&mut bench, &[START_PFC, wait(84), start_other(64)]);
}

#[test]
fn kind_05_39_34_36() {
    let mut bench = bench_with_pfc_under_way(128);
    assert_eq!(refused(&mut bench, START_PFC), 39);
    accept_all(&mut bench, &[wait(1)]);
    assert_eq!(refused(&mut bench, START_PFC), 34);
    accept_all(&mut bench, &[wait(83)]);
    assert_eq!(refused(&mut bench, START_PFC), 36);
    accept_all(&mut bench, &[PFC_TAKES_EFFECT, START_PFC]);
}

#[test]
fn kind_07_32_43_42() {
    let mut bench = small().bench();
    assert_eq!(refused(&mut bench, disk_takes(8, 1)), 32);
    assert_eq!(refused(&mut bench, disk_takes(1, 1)), 43);
    assert_eq!(refused(&mut bench, disk_takes(0, 1)), 42);
    accept_all(&mut bench, &WANTED_AT_84);
    assert_eq!(refused(&mut bench, disk_takes(0, 65)), 42);
    accept_all(&mut bench, &[disk_takes(0, 64), disk_takes(0, 0)]);
}
