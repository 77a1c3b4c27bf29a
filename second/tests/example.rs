//! Document 01's example: its input and its output, through the library and through the program; and
//! the example of 80 km of fibre.

mod common;

use common::output_of;
use second::hex::octets_of_text;

const INPUT: &str = "
    00 08 07D0              # settings: enabled 08, M 2000
    000000C8                # generation 200
    0000C1B4 0000A9B4       # request path 49588, data path 43444
    FFFF 000186A0 00000000  # T 65535, I 100000, hysteresis 0
    00004573 00004573 00004573 00004573 00004573 00004573 00004573 00004573 # rooms 17779
    02 03 07D0
    01 07E4
    03
    07 03 01F4
";

const OUTPUT: &str = "\
steps 4 time 2020 refusal 0 at 0
3 held 1500 dropped 0 worst 0 paused 0
";

#[test]
fn the_library_prints_the_example_output() {
    let input = octets_of_text(INPUT.as_bytes()).unwrap();
    assert_eq!(second::bench::run(&input).to_string(), OUTPUT);
}

#[test]
fn the_program_prints_the_example_output() {
    let input = octets_of_text(INPUT.as_bytes()).unwrap();
    assert_eq!(
        output_of(env!("CARGO_BIN_EXE_second_bench"), &input),
        OUTPUT
    );
}

#[test]
fn the_program_reads_65536_octets_and_not_one_more() {
    let mut input = octets_of_text(INPUT.as_bytes()).unwrap();
    // 58 octets of settings and 4 + 3 + 1 + 4 of records leave 65,536 - 70 = 65,466 = 3 x 21,822:
    // so many waits of 0 fill the input to its last octet.
    while input.len() < 65_536 {
        input.extend([0x01, 0x00, 0x00]);
    }
    assert_eq!(input.len(), 65_536);
    let program = env!("CARGO_BIN_EXE_second_bench");
    let full = output_of(program, &input);
    assert!(full.starts_with("steps 21826 time 2020 refusal 0 at 0\n3 held 1500 "));
    input.push(0x03);
    assert_eq!(
        output_of(program, &input),
        "steps 0 time 0 refusal 45 at 0\n"
    );
}

/// The paths in bits of 80 km of fibre as they stand in the example's settings, by L1 and by light
/// at 300 metres per microsecond: 4,026,887 and 4,020,743, then 4,024,132 and 4,017,988.
const PATHS: &str = "003D7207 003D5A07";
const PATHS_BY_300: &str = "003D6744 003D4F44";

/// Each room as it stands there, headroom + M: 1,010,103 + 2,000, and 1,009,415 + 2,000.
const ROOM: &str = "000F7187";
const ROOM_BY_300: &str = "000F6ED7";

#[test]
fn over_80_km_of_fibre_only_the_new_paths_let_the_request_take_as_long_as_it_takes() {
    let text = include_str!("../../examples/fibre_80_km.txt");
    let report = |from: &str, to: &str| {
        assert!(text.contains(from));
        let changed = text.replace(from, to);
        second::bench::run(&octets_of_text(changed.as_bytes()).unwrap()).to_string()
    };
    assert_eq!(
        report(PATHS, PATHS),
        include_str!("../../examples/fibre_80_km.out")
    );
    // The wait from 451,581 to 507,510, record 26, passes 4,149 + 503,017.
    let refused = "steps 25 time 451581 refusal 40 at 26\n3 held 2000 dropped 0 worst 0 paused 0\n";
    assert_eq!(report(PATHS, PATHS_BY_300), refused);
    assert_eq!(
        report(ROOM, ROOM_BY_300),
        "steps 0 time 0 refusal 15 at 0\n"
    );
}

#[test]
fn the_vector_program_prints_a_line_a_case() {
    // A reading cut short, a choice of nothing present, a sender with nothing lent, a cut case.
    let file = octets_of_text(
        b"0002 01 00
          0012 04 08 08 08 08 08 08 08 08 00 00 00 00 00 00 00 00 00
          0006 08 00 0000 0000
          0005 04",
    )
    .unwrap();
    assert_eq!(
        output_of(env!("CARGO_BIN_EXE_second_vectors"), &file),
        "short\nchoice none\nsender 5 -\n"
    );
}
