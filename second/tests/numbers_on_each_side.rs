//! "Numbers on each side of a limit", line by line, with the figures of document 02's L1, and
//! Table N-1.

mod common;

use common::{accept_all, disk_takes, example, number, start_data, wait, Given, DATA_ARRIVES};
use second::frame::{verdict, Request, Verdict, GROUP_ADDRESS};
use second::head::Head;
use second::headroom::{calculate, Inputs, INTERFACE_ROWS};
use second::units::{BitTimes, OctetTimes, Quanta};

const OWN: [u8; 6] = [2, 0, 0, 0, 0, 0x0A];

/// A PFC frame of 60 octets, written out by hand.
fn pfc_frame(enable_vector: [u8; 2]) -> Vec<u8> {
    let mut frame = vec![0x01, 0x80, 0xC2, 0x00, 0x00, 0x01];
    frame.extend([0x02, 0, 0, 0, 0, 0x0B, 0x88, 0x08, 0x01, 0x01]);
    frame.extend(enable_vector);
    frame.resize(60, 0);
    frame
}

fn only(n: usize, time: u16) -> Request {
    let mut times = [0; 8];
    times[n] = time;
    Request { e: 1 << n, times }
}

fn head_with_timer_3(timer: u16) -> Head {
    let mut head = Head::new(0xFF);
    head.take_request(&only(3, timer));
    head
}

/// The inputs of document 004's example.
fn inputs_of_004() -> Inputs {
    Inputs {
        rate: 10_000,
        metres: 100,
        percentage: 60,
        largest_frame: 2000,
        generation: BitTimes(200),
        b_transmit: BitTimes(18_944),
        b_receive: BitTimes(18_944),
        a_transmit: BitTimes(18_944),
        a_receive: BitTimes(18_944),
        halt: BitTimes(6_144),
    }
}

#[test]
fn enable_vector_ff_08_sets_priority_3_only() {
    let frame = pfc_frame([0xFF, 0x08]);
    let Ok(Verdict::Request(request)) = verdict(2000, &OWN, &frame) else {
        panic!("it is a request");
    };
    assert_eq!(request.e, 0x08);
    let mut head = Head::new(0xFF);
    head.timers = [9; 8];
    head.take_request(&request);
    assert_eq!(head.timers, [9, 9, 9, 0, 9, 9, 9, 9]);
}

#[test]
fn timer_700_then_time_3_then_time_0() {
    let mut head = head_with_timer_3(700);
    assert_eq!(head.timers[3], 700);
    head.take_request(&only(3, 3));
    assert_eq!(head.timers, [0, 0, 0, 3, 0, 0, 0, 0]);
    head.take_request(&only(3, 0));
    assert_eq!(head.timers, [0; 8]);
}

#[test]
fn timer_5_after_4_5_and_9_quanta() {
    for (quanta, timer, paused) in [(4, 1, true), (5, 0, false), (9, 0, false)] {
        let mut head = head_with_timer_3(5);
        head.pass(Quanta(quanta));
        assert_eq!(head.timers[3], timer, "after {quanta}");
        assert_eq!(head.is_paused(3), paused, "after {quanta}");
        assert_eq!(head.paused_marks(), if paused { 0x08 } else { 0 });
    }
}

#[test]
fn link_bits_of_100_1_and_0_metres() {
    for (metres, bits) in [(100, 5_560), (1, 56), (0, 0)] {
        let inputs = Inputs {
            metres,
            ..inputs_of_004()
        };
        assert_eq!(calculate(&inputs).unwrap().link, BitTimes(bits));
    }
}

#[test]
fn each_direction_of_10gbase_t_with_mac_rs_and_two_xaui() {
    let row = |name: &str| {
        let row = INTERFACE_ROWS.iter().find(|row| row.name == name);
        row.unwrap().each_direction().0
    };
    let xaui = row("XGXS and XAUI");
    let sum = row("10GBASE-T") + row("10G MAC Control, MAC and RS") + xaui + xaui;
    assert_eq!(sum, 18_944);
}

#[test]
fn sums_of_document_004() {
    let sum = calculate(&inputs_of_004()).unwrap();
    assert_eq!(sum.total, BitTimes(126_232));
    assert_eq!(sum.request_path, BitTimes(49_592));
    assert_eq!(sum.data_path, BitTimes(43_448));
    assert_eq!(sum.delays.one_way(), OctetTimes(8_328));
    assert_eq!(sum.delays.headroom(), OctetTimes(15_779));
}

/// L1: "A site with 80 km of fibre caught this."
#[test]
fn sums_of_80_km_of_fibre() {
    let inputs = Inputs {
        metres: 80_000,
        percentage: 67,
        ..inputs_of_004()
    };
    let sum = calculate(&inputs).unwrap();
    assert_eq!(sum.link, BitTimes(3_982_855));
    // 18,944 + 3,982,855 + 18,944, and 6,144 more.
    assert_eq!(sum.data_path, BitTimes(4_020_743));
    assert_eq!(sum.request_path, BitTimes(4_026_887));
    // 200 + 16,160 + 672 + 4,026,887 + 16,160 + 4,020,743.
    assert_eq!(sum.total, BitTimes(8_080_822));
    // 25 + 2,020 + 84 + 503,361, and 2,020 + 502,593 more.
    assert_eq!(sum.delays.one_way(), OctetTimes(505_490));
    assert_eq!(sum.delays.headroom(), OctetTimes(1_010_103));
}

#[test]
fn t_132_and_i_56_pass_their_neighbours_give_16() {
    let answer = |t, i| number(Given { t, i, ..example() }.settings().accept());
    assert_eq!(answer(132, 56), 0);
    assert_eq!(answer(132, 57), 16);
    assert_eq!(answer(131, 1), 16);
    assert_eq!(answer(132, 1), 0);
}

#[test]
fn room_17779_passes_and_17778_gives_15() {
    let answer = |room| {
        let given = Given {
            rooms: [room; 8],
            ..example()
        };
        number(given.settings().accept())
    };
    assert_eq!(answer(17_779), 0);
    assert_eq!(answer(17_778), 15);
}

#[test]
fn in_room_17779_64_octets_held_are_wanted_and_taken_again_not() {
    let mut bench = example().bench();
    assert!(!bench.recorder().room(3).wanted);
    accept_all(&mut bench, &[start_data(3, 64), wait(84), DATA_ARRIVES]);
    assert_eq!(bench.recorder().room(3).held, 64);
    assert!(bench.recorder().room(3).wanted);
    accept_all(&mut bench, &[disk_takes(3, 64)]);
    assert!(!bench.recorder().room(3).wanted);
}

#[test]
fn with_m_2000_lengths_59_60_1996_1997() {
    for (length, expected) in [(59, 1), (60, 0), (1_996, 0), (1_997, 2)] {
        let mut frame = pfc_frame([0, 0]);
        frame.resize(length, 0);
        assert_eq!(number(verdict(2000, &OWN, &frame)), expected, "{length}");
    }
}

#[test]
fn opcode_00_01_gives_4() {
    let mut frame = pfc_frame([0, 0]);
    frame[14..16].copy_from_slice(&[0x00, 0x01]);
    assert_eq!(number(verdict(2000, &OWN, &frame)), 4);
    assert_eq!(&frame[..6], &GROUP_ADDRESS);
}

#[test]
fn every_row_of_table_n_1_has_512_bits_a_quantum() {
    let bits: Vec<u64> = INTERFACE_ROWS.iter().map(|row| row.bits.0).collect();
    assert_eq!(bits, [8192, 2048, 2048, 3584, 512, 512, 512, 25_600]);
    for row in &INTERFACE_ROWS {
        assert_eq!(row.bits, row.quanta.as_bit_times(), "{}", row.name);
    }
}

#[test]
fn halt_delay_limits_at_the_three_rates() {
    for (rate, limit) in [(10_000, 6_144), (40_000, 24_576), (100_000, 61_440)] {
        for (halt, expected) in [(limit, 0), (limit + 1, 19)] {
            let inputs = Inputs {
                rate,
                halt: BitTimes(halt),
                ..inputs_of_004()
            };
            assert_eq!(number(calculate(&inputs)), expected, "{halt} at {rate}");
        }
    }
}
