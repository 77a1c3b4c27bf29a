//! Document 02's L2: a count of quanta lowers the timers in one stroke, and callers see no change
//! from the countdown through every quantum, which is written out here.

use second::frame::Request;
use second::head::Head;
use second::slips::{with_slip, Slip};
use second::units::Quanta;

/// Rows of eight different timers, at both ends, at the half and where L2's chip wakes.
const ROWS: [[u16; 8]; 3] = [
    [0, 1, 2, 39_999, 40_000, 40_001, 65_534, 65_535],
    [65_535, 32_769, 32_768, 32_767, 257, 256, 255, 3],
    [7, 6, 5, 4, 3, 2, 1, 0],
];

/// Counts on each side of a limit, rising.
const COUNTS: [u64; 24] = [
    0,
    1,
    2,
    3,
    127,
    128,
    255,
    256,
    257,
    32_767,
    32_768,
    32_769,
    39_999,
    40_000,
    40_001,
    65_533,
    65_534,
    65_535,
    65_536,
    65_537,
    1 << 32,
    (1 << 32) + 1,
    u64::MAX - 1,
    u64::MAX,
];

fn head(timers: [u16; 8]) -> Head {
    let mut head = Head::new(0xFF);
    head.timers = timers;
    head
}

/// The timers after these counts, one after the other.
fn lowered(timers: [u16; 8], counts: &[u64]) -> [u16; 8] {
    let mut head = head(timers);
    for &count in counts {
        head.pass(Quanta(count));
    }
    head.timers
}

/// One quantum of the countdown: every timer above zero falls by one.
fn quantum_passes(timers: &mut [u16]) {
    for timer in timers {
        if *timer > 0 {
            *timer -= 1;
        }
    }
}

/// Each count with what it leaves of the timers.
fn try_counts(timers: [u16; 8], left: &[(u64, [u16; 8])]) {
    for &(count, expected) in left {
        assert_eq!(lowered(timers, &[count]), expected, "{timers:?}, {count}");
    }
}

#[test]
fn numbers_of_the_documents() {
    // Document 01: "timer 5: after 4 quanta 1 and paused; after 5 or 9, 0 and free".
    for (count, timer, marks) in [(4, 1, 0x08), (5, 0, 0), (9, 0, 0)] {
        let mut head = head([0, 0, 0, 5, 0, 0, 0, 0]);
        head.pass(Quanta(count));
        assert_eq!(head.timers, [0, 0, 0, timer, 0, 0, 0, 0], "{count}");
        assert_eq!(head.paused_marks(), marks, "{count}");
    }
    // Document 01: "lowers each timer by that count, not below zero". L2: "wakes with tens of
    // thousands of quanta to count off": at, one below and one above a timer; "each timer".
    try_counts(
        [0, 1, 39_999, 40_000, 40_001, 50_000, 65_534, 65_535],
        &[
            (0, [0, 1, 39_999, 40_000, 40_001, 50_000, 65_534, 65_535]),
            (1, [0, 0, 39_998, 39_999, 40_000, 49_999, 65_533, 65_534]),
            (39_999, [0, 0, 0, 1, 2, 10_001, 25_535, 25_536]),
            (40_000, [0, 0, 0, 0, 1, 10_000, 25_534, 25_535]),
            (40_001, [0, 0, 0, 0, 0, 9_999, 25_533, 25_534]),
            (65_533, [0, 0, 0, 0, 0, 0, 1, 2]),
            (65_534, [0, 0, 0, 0, 0, 0, 0, 1]),
            (65_535, [0; 8]),
        ],
    );
    // The readings: "A count of quanta wider than any timer lowers to 0; it is never refused".
    // The low 16 bits of these are 0, 1, 40,000, 1 and 65,535.
    for wide in [65_536, 65_537, 105_536, (1 << 32) + 1, u64::MAX] {
        try_counts([65_535, 65_534, 40_001, 2, 1, 0, 1, 2], &[(wide, [0; 8])]);
    }
}

#[test]
fn every_count_is_the_countdown() {
    for timers in ROWS {
        let mut counted_down = timers;
        for count in 0..=70_000 {
            assert_eq!(lowered(timers, &[count]), counted_down, "{count} quanta");
            quantum_passes(&mut counted_down);
        }
    }
}

#[test]
fn every_timer_is_lowered_as_by_the_countdown() {
    let all: Vec<u16> = (0..=u16::MAX).collect();
    let mut counted_down = all.clone();
    let mut passed = 0;
    for count in COUNTS.into_iter().filter(|&count| count < 70_000) {
        for _ in passed..count {
            quantum_passes(&mut counted_down);
        }
        passed = count;
        for (timers, expected) in all.chunks_exact(8).zip(counted_down.chunks_exact(8)) {
            let left = lowered(timers.try_into().unwrap(), &[count]);
            assert_eq!(left, expected, "{timers:?}, {count} quanta");
        }
    }
}

#[test]
fn two_counts_in_a_row_are_their_sum() {
    for timers in ROWS {
        for first in COUNTS {
            for then in COUNTS {
                // A sum past the type's end leaves nothing, as its end does.
                let sum = first.saturating_add(then);
                let apart = lowered(timers, &[first, then]);
                assert_eq!(apart, lowered(timers, &[sum]), "{first}, {then}");
            }
        }
    }
    // 20,000 and 20,001 quanta are 40,001: 65,535 - 40,001 = 25,534.
    let timers = [40_000, 40_001, 40_002, 65_535, 20_000, 20_001, 1, 0];
    let expected = [0, 0, 1, 25_534, 0, 0, 0, 0];
    assert_eq!(lowered(timers, &[20_000, 20_001]), expected);
    // 65,535 and 1 are 65,536, and neither is past 16 bits.
    assert_eq!(lowered([65_535; 8], &[65_535, 1]), [0; 8]);
    assert_eq!(lowered([65_535; 8], &[1, 65_533]), [1; 8]);
}

/// Whatever their low 16 bits are, nearly all of which alone would leave something of these timers.
#[test]
fn counts_past_16_bits_leave_nothing() {
    for above in [1, 2, 0x7FFF, 0x8000, 0xFFFF, 1 << 16, 1 << 31, 1 << 32] {
        for low in 0..=0xFFFF {
            let count = above << 16 | low;
            assert_eq!(lowered(ROWS[0], &[count]), [0; 8], "{count}");
        }
    }
    for bit in 16..64 {
        let from_there_up = u64::MAX << bit;
        for count in [1 << bit, (1 << bit) + 1, from_there_up, from_there_up + 1] {
            assert_eq!(lowered([65_535; 8], &[count]), [0; 8], "{count}");
            assert_eq!(lowered([1; 8], &[count]), [0; 8], "{count}");
        }
    }
}

#[test]
fn a_count_changes_the_timers_alone_enabled_or_not() {
    for enabled in 0..=0xFF {
        for indications in [0, 1, u32::MAX] {
            for (count, timers) in [
                (0, ROWS[0]),
                (40_000, [0, 0, 0, 0, 0, 1, 25_534, 25_535]),
                (u64::MAX, [0; 8]),
            ] {
                let mut after = Head {
                    enabled,
                    indications,
                    timers: ROWS[0],
                };
                let expected = Head { timers, ..after };
                after.pass(Quanta(count));
                assert_eq!(after, expected, "{count} quanta");
            }
        }
    }
}

#[test]
fn requests_and_counts_by_turns() {
    // Document 01: "A request sets timer n to time[n] for each n with e[n] set and PFC enabled;
    // others keep their value."
    let request = Request {
        e: 0xF3,
        times: [50_000, 3, 9, 9, 40_000, 40_001, 0, 65_535],
    };
    let mut head = Head::new(0x7F);
    head.timers = [1, 65_535, 40_001, 0, 39_999, 7, 60_000, 65_535];
    head.take_request(&request);
    // A count after a request: 40,000 off 50,000, 3, 40,001, 0, 40,000, 40,001, 0 and 65,535.
    head.pass(Quanta(40_000));
    assert_eq!(head.timers, [10_000, 0, 1, 0, 0, 1, 0, 25_535]);
    assert_eq!(head.paused_marks(), 0b1010_0101);
    // A request after a count is not lowered by it; priority 7 is not enabled.
    head.take_request(&request);
    assert_eq!(head.timers, [50_000, 3, 1, 0, 40_000, 40_001, 0, 25_535]);
    // 65,536 + 3 leave nothing, not what 3 would.
    head.pass(Quanta(65_539));
    assert_eq!(head.timers, [0; 8]);
    assert_eq!((head.paused_marks(), head.indications), (0, 2));
    head.take_request(&request);
    assert_eq!(head.timers, [50_000, 3, 0, 0, 40_000, 40_001, 0, 0]);
}

#[test]
fn a_long_row_of_requests_and_counts_is_the_countdown() {
    const ENABLED: u8 = 0xB7;
    let mut head = Head::new(ENABLED);
    let mut counted_down = [0; 8];
    for turn in 0..600u16 {
        let request = Request {
            e: turn as u8,
            times: std::array::from_fn(|n| turn.wrapping_mul(7_919) >> n),
        };
        head.take_request(&request);
        for (n, timer) in counted_down.iter_mut().enumerate() {
            if request.e & ENABLED & 1 << n != 0 {
                *timer = request.times[n];
            }
        }
        // Now and then as many quanta as a timer has, else a few or some thousands.
        let count = match turn % 3 {
            0 => head.timers[usize::from(turn / 3 % 8)],
            1 => turn % 50,
            _ => turn.wrapping_mul(4_801) >> 3,
        };
        head.pass(Quanta(count.into()));
        for _ in 0..count {
            quantum_passes(&mut counted_down);
        }
        assert_eq!(head.timers, counted_down, "turn {turn}, {count} quanta");
    }
}

/// The row for what is got wrong, of which priorities 1, 3, 4 and 6 are enabled.
const TIMERS: [u16; 8] = [0, 1, 2, 3, 4, 40_000, 65_534, 65_535];

/// What each way to get it wrong makes of the row, after a count.
const WRONG: [(Slip, u64, [u16; 8]); 9] = [
    // 65,536 less 3, 2 and 1.
    (
        Slip::LoweringWraps,
        3,
        [65_533, 65_534, 65_535, 0, 1, 39_997, 65_531, 65_532],
    ),
    // As by 2.
    (
        Slip::CountCutTo16Bits,
        65_538,
        [0, 0, 0, 1, 2, 39_998, 65_532, 65_533],
    ),
    (
        Slip::CountCutTo32Bits,
        (1 << 32) + 2,
        [0, 0, 0, 1, 2, 39_998, 65_532, 65_533],
    ),
    (Slip::CountStopsAt65534, u64::MAX, [0, 0, 0, 0, 0, 0, 0, 1]),
    (
        Slip::TimerAtCountKept,
        3,
        [0, 0, 0, 3, 1, 39_997, 65_531, 65_532],
    ),
    (
        Slip::TimerBelowCountKept,
        3,
        [0, 1, 2, 0, 1, 39_997, 65_531, 65_532],
    ),
    // Above 32,767 it is taken as below zero.
    (Slip::LoweredAsSigned, 3, [0, 0, 0, 0, 1, 0, 0, 0]),
    (
        Slip::LastTimerLeftOut,
        40_000,
        [0, 0, 0, 0, 0, 0, 25_534, 65_535],
    ),
    (
        Slip::OnlyEnabledLowered,
        2,
        [0, 0, 2, 1, 2, 40_000, 65_532, 65_535],
    ),
];

#[test]
fn a_wrong_stroke_shows() {
    for (slip, count, wrong) in WRONG {
        let mut head = Head {
            enabled: 0x5A,
            ..head(TIMERS)
        };
        with_slip(slip, || head.pass(Quanta(count)));
        assert_eq!(head.timers, wrong, "{slip:?}");
        assert_ne!(lowered(TIMERS, &[count]), wrong, "{slip:?}");
    }
}
