//! The sums of figures files, worked out by hand from docs/FIGURES.md and document 01.

mod common;

use common::output_of;
use second::hex::octets_of_text;

/// What the program prints for this file: one line, a number.
fn printed(file: &[u8]) -> u64 {
    let output = output_of(env!("CARGO_BIN_EXE_second_figures"), file);
    let number = output.strip_suffix('\n').expect("the line ends");
    number.parse().expect("the line is a number")
}

fn file(work: u8, turns: u64, material: &[u8]) -> Vec<u8> {
    [&[work], &turns.to_be_bytes()[..], material].concat()
}

fn sum(work: u8, turns: u64) -> u64 {
    printed(&file(work, turns, &[]))
}

/// The sum of work 08 with this count.
fn sum_of_count(count: u64, turns: u64) -> u64 {
    printed(&file(0x08, turns, &count.to_be_bytes()))
}

/// Tries a row of counts of turns, each with its sum.
fn try_sums(work: u8, sums: &[(u64, u64)]) {
    for &(turns, expected) in sums {
        assert_eq!(sum(work, turns), expected, "work {work}, {turns} turns");
    }
}

/// Tries a row of turns, each with what it alone adds to the sum, through the count at the end too.
fn try_turns(work: u8, turns: &[(u64, u64)]) {
    for &(t, expected) in turns {
        let added = sum(work, t + 1) - sum(work, t);
        assert_eq!(added, expected, "work {work}, turn {t}");
    }
}

#[test]
fn short_files_and_unknown_works_print_0() {
    for work in 0..=9 {
        // Turns enough that a whole file of each known work but reading has a sum above 0.
        let whole = file(work, 20, &[]);
        for length in 0..whole.len() {
            assert_eq!(printed(&whole[..length]), 0, "{length} octets");
        }
    }
    // Material is there for the works that need some.
    for work in [0x00, 0x09, 0x10, 0xFF] {
        assert_eq!(printed(&file(work, 20, &[0; 300])), 0, "work {work}");
    }
}

#[test]
fn the_line_has_no_more_than_the_number() {
    let program = env!("CARGO_BIN_EXE_second_figures");
    assert_eq!(output_of(program, &[]), "0\n");
    assert_eq!(output_of(program, &file(0x06, 2, &[])), "100\n");
}

#[test]
fn works_02_to_07_look_at_no_material() {
    for work in 2..=7 {
        let with_material = file(work, 20, &[0xA5; 300]);
        assert_eq!(printed(&with_material), sum(work, 20), "work {work}");
        assert_ne!(sum(work, 20), 0, "work {work}");
    }
}

/// M 2000 and the own address 02-00-00-00-00-0A.
const M_2000_AND_OWN: &str = "07D0 02000000000A";

/// For the own address: e 05, times 1 to 7 and 256, the enable vector's first octet to be ignored.
const REQUEST: &str = "02000000000A 02000000000B 8808 0101 FF05
    0001 0002 0003 0004 0005 0006 0007 0100";
/// The largest request there is, for the group address.
const LARGEST_REQUEST: &str = "0180C2000001 02000000000B 8808 0101 00FF
    FFFF FFFF FFFF FFFF FFFF FFFF FFFF FFFF";
const OTHER_ADDRESS: &str = "02000000000C 02000000000B 8808 0101 0001";
const OTHER_OPCODE: &str = "0180C2000001 02000000000B 8808 0001 0001";
const DATA: &str = "0180C2000001 02000000000B 0800 0101 0001";

/// A slot with this length and this front of a frame; zeroes fill it up.
fn slot(length: u16, front: &str) -> Vec<u8> {
    let mut slot = length.to_be_bytes().to_vec();
    slot.extend(octets_of_text(front.as_bytes()).unwrap());
    slot.resize(128, 0);
    slot
}

fn sum_read(turns: u64, m_and_own: &str, slots: &[Vec<u8>]) -> u64 {
    let front = octets_of_text(m_and_own.as_bytes()).unwrap();
    printed(&file(0x01, turns, &[front, slots.concat()].concat()))
}

#[test]
fn reading_takes_the_slots_in_turn() {
    let mut slots = vec![slot(60, REQUEST), slot(60, DATA), slot(60, OTHER_ADDRESS)];
    // The request: 2,000 + e 5 + (1 + .. + 7 = 28) + 256 = 2,289. Data: 1,000. The third: 3.
    // Sums: 2,289; 3,289; 3,292; then the first slot again, 5,581; the second, 6,581.
    let sums = [
        (0, 0),
        (1, 2_289),
        (2, 3_289),
        (3, 3_292),
        (4, 5_581),
        (5, 6_581),
    ];
    for (turns, expected) in sums {
        assert_eq!(sum_read(turns, M_2000_AND_OWN, &slots), expected);
    }
    // A last slot with an octet missing is none.
    slots.push(slot(60, DATA)[..127].to_vec());
    for (turns, expected) in sums {
        assert_eq!(sum_read(turns, M_2000_AND_OWN, &slots), expected);
    }
}

#[test]
fn reading_without_a_whole_slot_prints_0() {
    assert_eq!(sum(0x01, 5), 0);
    assert_eq!(sum_read(5, "07D0", &[]), 0);
    assert_eq!(sum_read(5, "07D0 0200000000", &[]), 0);
    assert_eq!(sum_read(5, M_2000_AND_OWN, &[]), 0);
    let cut = slot(60, DATA)[..127].to_vec();
    assert_eq!(sum_read(5, M_2000_AND_OWN, &[cut]), 0);
    // The whole slot: five times data.
    assert_eq!(sum_read(5, M_2000_AND_OWN, &[slot(60, DATA)]), 5_000);
}

#[test]
fn what_a_reading_adds() {
    let read = |m: &str, length: u16, front: &str| {
        sum_read(1, &format!("{m} 02000000000A"), &[slot(length, front)])
    };
    // 2,000 + 255 + 8 x 65,535 = 526,535.
    assert_eq!(read("07D0", 60, LARGEST_REQUEST), 526_535);
    assert_eq!(read("07D0", 60, OTHER_OPCODE), 4);
    assert_eq!(read("07D0", 59, REQUEST), 1);
    assert_eq!(read("07D0", 0, REQUEST), 1);
    // M 64 allows 60 octets, whatever else is in the slot.
    assert_eq!(read("0040", 60, REQUEST), 2_289);
    assert_eq!(read("0040", 61, REQUEST), 2);
    // M 63 and M 9,217 give 13 before the length is looked at; M 9,216 is allowed.
    assert_eq!(read("003F", 59, REQUEST), 13);
    assert_eq!(read("2401", 60, REQUEST), 13);
    assert_eq!(read("2400", 60, REQUEST), 2_289);
}

#[test]
fn a_frame_has_at_most_the_126_octets_of_its_slot() {
    // M 130 allows 126 octets, M 129 no more than 125.
    for length in [126, 127, 0x0100, 0xFFFF] {
        let slots = [slot(length, DATA)];
        assert_eq!(sum_read(1, "0082 02000000000A", &slots), 1_000);
        assert_eq!(sum_read(1, "0081 02000000000A", &slots), 2);
    }
    let slots = [slot(125, DATA)];
    assert_eq!(sum_read(1, "0081 02000000000A", &slots), 1_000);
}

#[test]
fn building() {
    // Turns 0 to 5 add the group address, 01 + 80 + C2 + 00 + 00 + 01 = 1 + 128 + 194 + 1 = 324.
    // Turns 6 to 11 add the source, 02 + 0B = 13: 337. Turns 12 to 16 add 88 + 08 + 01 + 01 + 00 =
    // 136 + 8 + 1 + 1 = 146: 483. Turn 17 adds e, 17: 500.
    // Turns 18 + 2n and 19 + 2n add the two octets of time[n], which are those of
    // 18 + 2n + 8191n = 18 + 8193n and of 19 + 8193n. 8193 is 2001 in hex, so the first octet is
    // 32n and the second 19 + n: over n from 0 to 7 they add 32 x 28 = 896 and 8 x 19 + 28 = 180,
    // and 500 + 896 + 180 = 1,576.
    // Turns 34 to 59 add zeroes as built, turns 60 to 63 zeroes never touched. Then it starts anew:
    // 64 adds 1, 65 adds 128, and 17 turns from 64 on add 483 again, after which turn 81 adds 81.
    try_sums(
        0x02,
        &[
            (0, 0),
            (1, 1),
            (2, 129),
            (3, 323),
            (6, 324),
            (12, 337),
            (17, 483),
            (18, 500),
            (34, 1_576),
            (64, 1_576),
            (65, 1_577),
            (66, 1_705),
            (81, 2_059),
            (82, 2_140),
        ],
    );
    // 273 = 4 x 64 + 17 and 273 mod 256 = 17; 337 = 5 x 64 + 17 and 337 mod 256 = 81.
    // 8,224 = 128 x 64 + 32, so turns 8,224 and 8,225 add the octets of time[7], which are those of
    // 8,224 + 57,337 - 65,536 = 25 and of 26.
    try_turns(0x02, &[(273, 17), (337, 81), (8_224, 0), (8_225, 26)]);
}

#[test]
fn a_quantum_passes() {
    // The times of turn 65,535: time[0] is 65,535, and time[n] is 8191n - 1 for n from 1 on, so
    // 8,190 and 16,381 for 1 and 2, and 57,336 for 7. After turn t, t + 1 quanta have passed.
    // Turn 0 adds 65,535 - 1 = 65,534; turn 1 adds 8,190 - 2 = 8,188; turn 2 adds 16,381 - 3 =
    // 16,378: 65,534; 73,722; 90,100. The end adds the one indication of turn 0: 65,535; 73,723;
    // 90,101. A fresh head has none.
    try_sums(0x03, &[(0, 0), (1, 65_535), (2, 73_723), (3, 90_101)]);
    // Turn 7 adds 57,336 - 8, turn 8 adds 65,535 - 9. Priority 1 is at 8,190 - 8,186 = 4 after turn
    // 8,185, and at 0 after turn 8,193 = 8 x 1,024 + 1. Turn 65,528 adds 65,535 - 65,529 = 6; turn
    // 65,535 adds 0. Then a request comes again: turn 65,536 adds 65,534 and one indication, turn
    // 65,537 what turn 1 did.
    try_turns(
        0x03,
        &[
            (7, 57_328),
            (8, 65_526),
            (8_185, 4),
            (8_193, 0),
            (65_528, 6),
            (65_535, 0),
            (65_536, 65_535),
            (65_537, 8_188),
        ],
    );
}

#[test]
fn a_request_is_taken_and_100_quanta_pass() {
    // Turn 0 adds 0 - 100, that is 0; turn 1 adds 1 + 8,191 - 100 = 8,092; turn 2 adds
    // 2 + 16,382 - 100 = 16,284: 0; 8,092; 24,376. The end adds as many indications as there were
    // turns: 0 + 1; 8,092 + 2; 24,376 + 3.
    try_sums(0x04, &[(0, 0), (1, 1), (2, 8_094), (3, 24_379)]);
    // Priority 0, whose time is t mod 65,536: 96 is used up, of 104 there are 4 left.
    // Priority 7 at 8,199 = 8 x 1,024 + 7: 8,199 + 57,337 = 65,536, that is 0; at 8,303 it is 104.
    // The turn's indication makes each 1 more.
    try_turns(
        0x04,
        &[
            (8, 1),
            (96, 1),
            (104, 5),
            (8_199, 1),
            (8_303, 5),
            (65_640, 5),
        ],
    );
}

#[test]
fn a_request_is_taken_and_a_count_passes() {
    // Before the count the timer of turn n, for n below 8, is n + 8,191n = 8,192n. Off 0; 8,192;
    // 16,384; 24,576; 32,768; 40,960; 49,152; 57,344 go 40,000, which leave 960, 9,152 and 17,344
    // in turns 5 to 7. Sums: 0; 960; 10,112; 27,456. The end adds as many indications as there were
    // turns.
    for (turns, expected) in [(0, 0), (5, 5), (6, 966), (7, 10_119), (8, 27_464)] {
        assert_eq!(sum_of_count(40_000, turns), expected, "{turns} turns");
    }
    // Three turns with counts at 8,192 and 16,384 and on each side of them, and past both.
    for (count, expected) in [
        (0, 24_576 + 3),
        (1, 24_574 + 3),
        (8_191, 1 + 8_193 + 3),
        (8_192, 8_192 + 3),
        (8_193, 8_191 + 3),
        (16_383, 1 + 3),
        (16_384, 3),
        (16_385, 3),
        (65_535, 3),
        // The low 16 bits, or 32, of these are 0 and 1.
        (65_536, 3),
        (65_537, 3),
        ((1 << 32) + 1, 3),
        (u64::MAX, 3),
    ] {
        assert_eq!(sum_of_count(count, 3), expected, "{count} quanta");
    }
    // Turn 8,191 = 8 x 1,023 + 7 is the first with 65,528: 8,191 + 57,337. Each turn has an
    // indication.
    assert_eq!(sum_of_count(65_527, 8_191), 8_191);
    assert_eq!(sum_of_count(65_527, 8_192), 8_193);
    assert_eq!(sum_of_count(65_528, 8_192), 8_192);
    // Work 04 is the one of 100 quanta.
    for turns in [0, 1, 2, 3, 100, 105, 8_304, 65_641] {
        assert_eq!(sum_of_count(100, turns), sum(0x04, turns), "{turns} turns");
    }
}

#[test]
fn a_count_is_eight_octets_and_what_follows_is_ignored() {
    let count = 40_000u64.to_be_bytes();
    for length in 0..8 {
        let cut = file(0x08, 8, &count[..length]);
        assert_eq!(printed(&cut), 0, "{length} octets");
    }
    for spare in [0, 1, 8, 300] {
        let material = [&count[..], &vec![0xA5; spare]].concat();
        let sum = printed(&file(0x08, 8, &material));
        assert_eq!(sum, 27_464, "{spare} octets more");
    }
}

#[test]
fn a_request_is_taken() {
    // Turn n below 8 adds timer n, which is first set in turn 2^n, when bit n of t is first one.
    // Since 2^n is above n, each of them adds 0.
    // Turn 8 adds timer 0, last set in turn 7, the last odd one: 7.
    // Turn 9 adds timer 1, last set in turn 7 (0111; 8 is 1000 and 9 is 1001): 7 + 8,191 = 8,198.
    // Turn 10 adds timer 2, last set in turn 7: 7 + 16,382 = 16,389.
    // Turn 11 adds timer 3, set in turn 11 itself: 11 + 24,573 = 24,584.
    // Turn 12 adds timer 4, not set yet. Sums: 7; 8,205; 24,594; 49,178; 49,178.
    // The end adds as many indications as there were turns, since turn 0 has one too, though its e
    // is 0: 7 + 9 = 16; 8,205 + 10; 24,594 + 11; 49,178 + 12; 49,178 + 13.
    try_sums(
        0x05,
        &[
            (0, 0),
            (1, 1),
            (2, 2),
            (3, 3),
            (8, 8),
            (9, 16),
            (10, 8_215),
            (11, 24_605),
            (12, 49_190),
            (13, 49_191),
        ],
    );
    // In turn 256 e is 0, so timer 0 is that of turn 255. In turn 263 e is 7, and the last e with
    // bit 7 was that of turn 255: 255 + 57,337 = 57,592. The turn's indication makes each 1 more.
    try_turns(0x05, &[(256, 256), (263, 57_593)]);
}

#[test]
fn choices() {
    // No head; class 0; class 1; classes 0 and 1: 0; 100; 201; 302.
    // Turns 4 to 7 add 102 each, 710; turns 8 to 14 add 103 each, 1,431; turn 15 adds refusal 22,
    // though class 3 is free: 1,453.
    try_sums(
        0x06,
        &[
            (0, 0),
            (1, 0),
            (2, 100),
            (3, 201),
            (4, 302),
            (8, 710),
            (15, 1_431),
            (16, 1_453),
        ],
    );
    try_turns(
        0x06,
        &[
            (16, 104),
            (31, 22),
            (128, 107),
            (254, 107),
            // From 256 on priority 0 is paused: it is the only head, then the lower of two.
            (256, 0),
            (257, 0),
            (258, 101),
            (259, 101),
            // From 512 on priority 1 is: it is the only head, then the higher of two.
            (514, 0),
            (515, 100),
            // 65,534 is 255 x 256 + 254: seven heads, all paused. 65,535 mod 16 is 15.
            (65_534, 0),
            (65_535, 22),
            // 65,537 / 256 is 256, of which bits 0 to 7 are zero.
            (65_537, 100),
        ],
    );
}

#[test]
fn room_watching() {
    // G 200 / 8 = 25, W 2,000 + 20 = 2,020, P 62,564 / 8 = 7,820.5 up to 7,821, D 29,300 / 8 =
    // 3,662.5 up to 3,663; one-way 25 + 2,020 + 84 + 7,821 = 9,950, headroom 9,950 + 2,020 + 3,663
    // = 15,633. 64 x 65,535 = 4,194,240 is above 32,768 + 9,950 + 64, and 20,000 is above
    // 15,633 + 2,000 + 2,000 = 19,633: the settings are accepted.
    // Wanted below 17,633 free, that is above 2,367 held; no longer from 19,633 free on, that is up
    // to 367 held.
    //
    // Each priority has its turn once in eight, eight times while bit 6 of t is zero, then eight
    // times while it is one. In its first it holds 1,522 and then 522; in its second 2,044 and then
    // 1,044; in its third 2,566, which makes it wanted, and then 1,566. Up to its eighth it holds
    // 522 more after each: 4,176. In its ninth it holds 5,698, of which 2,044 are taken: 3,654.
    // From then on it holds 522 fewer after each. After its fifteenth it holds 522, still wanted;
    // in its sixteenth 2,044, which are all there is to take, and with 0 held it is wanted no
    // longer.
    //
    // In turn 0 a PFC frame starts, though none is due. The first mark rises in turn 16, at time
    // 16; from then on PFC is due since 16, whatever marks rise after it up to turn 23 and fall in
    // turns 120 to 127, until a frame starts in turn 128. In turn 144 it becomes due again.
    try_turns(
        0x07,
        &[
            // 522 and the request sent; 522; 1,044.
            (0, 523),
            (1, 522),
            (15, 1_044),
            // The marks rise, of priority 0 and of 7: 1,566 + 1 + 16.
            (16, 1_583),
            (23, 1_583),
            // The most that is held: 4,176 + 1 + 16. Then more is taken: 3,654 + 1 + 16.
            (63, 4_193),
            (64, 3_671),
            // Priority 7's fifteenth: 522 + 1 + 16. Then the marks fall: 0 + 0 + 16.
            (119, 539),
            (120, 16),
            (127, 16),
            // The start ends the due state: 522 and the request sent; 522.
            (128, 523),
            (129, 522),
            // Priority 7's second: 1,044. Then the marks rise and fall again: 1,566 + 1 + 144; 144.
            (143, 1_044),
            (144, 1_711),
            (248, 144),
            (256, 523),
        ],
    );
    // Turns 0 to 7 add 522 each: 4,176. Turns 8 to 15 add 1,044 each: 12,528. Turns 16 to 23 add
    // 1,583 each: 14,111 after turn 16, 25,192 after turn 23. The end adds the request of turn 0.
    // In 64 turns the held octets add 8 x 522 x (1 + .. + 8 = 36) = 150,336, and mark and due
    // moment add 1 + 16 in 48 of them, 816: 151,152, and the request. Turns 64 to 119 add 8 x 522 x
    // (7 + .. + 1 = 28) = 116,928 and 56 x 17 = 952: 269,032, and the request. Turns 120 to 127 add
    // 16 each: 269,160, and the request. Turn 128 adds 522: 269,682, and two requests.
    try_sums(
        0x07,
        &[
            (0, 0),
            (1, 523),
            (2, 1_045),
            (8, 4_177),
            (9, 5_221),
            (16, 12_529),
            (17, 14_112),
            (24, 25_193),
            (64, 151_153),
            (120, 269_033),
            (128, 269_161),
            (129, 269_684),
        ],
    );
    // Turns 128 to 255 start with empty rooms as turns 0 to 127 did. They add the same, but for the
    // due moment, 128 later in 112 turns: 14,336 more, that is 283,497, and 552,658 in all. With
    // each 128 turns it is 14,336 more again, since no refresh comes within 128: c times 128 turns
    // add c x 269,161 + (c - 1) x c / 2 x 14,336. For c = 1,000 that is
    // 269,161,000 + 499,500 x 14,336 = 269,161,000 + 7,160,832,000 = 7,429,993,000.
    try_sums(0x07, &[(256, 552_658), (128_000, 7_429_993_000)]);
}
