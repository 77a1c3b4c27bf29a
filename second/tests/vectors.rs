//! The lines of vector files, one kind after the other, worked out by hand.

use second::hex::octets_of_text;
use second::vectors::{answer_case, answer_file};

fn line(hex: &str) -> String {
    answer_case(&octets_of_text(hex.as_bytes()).unwrap())
}

/// A PFC frame from 02-00-00-00-00-0B with e 08 and time[3] 0x0102, all other times 1.
const PFC_FRAME: &str = "0180C2000001 02000000000B 8808 0101 FF08
    0001 0001 0001 0102 0001 0001 0001 0001
    0000000000000000000000000000000000000000000000000000";

const M_2000_AND_OWN: &str = "01 00000000000007D0 02000000000A";

#[test]
fn reading_a_request_and_refusals() {
    assert_eq!(
        line(&format!("{M_2000_AND_OWN} {PFC_FRAME}")),
        "read request 8 1 1 1 258 1 1 1 1 part -"
    );
    assert_eq!(line(M_2000_AND_OWN), "read 1 part -");
    let m_63 = "01 000000000000003F 02000000000A";
    assert_eq!(line(m_63), "read 13 part -");
    let other_address = PFC_FRAME.replacen("01", "03", 1);
    assert_eq!(
        line(&format!("{M_2000_AND_OWN} {other_address}")),
        "read 3 part -"
    );
}

#[test]
fn reading_data() {
    let addresses = "0180C2000001 02000000000B";
    let rest = "0800".to_string() + &"5a".repeat(46);
    assert_eq!(
        line(&format!("{M_2000_AND_OWN} {addresses} {rest}")),
        format!("read data part {rest}")
    );
}

#[test]
fn building() {
    let asked = "02 02000000000B 08 0001 0001 0001 0102 0001 0001 0001 0001";
    let zero_pad = "00".repeat(26);
    assert_eq!(
        line(&format!("{asked} {}", "ee".repeat(62))),
        format!(
            "build 0 0180c200000102000000000b880801010008\
             00010001000101020001000100010001{zero_pad}eeee"
        )
    );
    assert_eq!(line(asked), "build 5 -");
    assert_eq!(
        line(&format!("{asked} {}", "ee".repeat(59))),
        format!("build 5 {}", "ee".repeat(59))
    );
    let group_source = asked.replacen("02 02", "02 03", 1);
    assert_eq!(
        line(&format!("{group_source} {}", "ee".repeat(60))),
        format!("build 6 {}", "ee".repeat(60))
    );
}

#[test]
fn the_head() {
    // Enabled 0F, 4,294,967,294 indications, timers 1 to 8.
    let start = "03 0F FFFFFFFE 0001 0002 0003 0004 0005 0006 0007 0008";
    assert_eq!(
        line(start),
        "head 1 2 3 4 5 6 7 8 paused 255 indications 4294967294"
    );
    // Time 100 for priorities 1 and 5, of which 1 is enabled.
    let request = "00 22 0064 0064 0064 0064 0064 0064 0064 0064";
    let three_quanta = "01 0000000000000003";
    assert_eq!(
        line(&format!("{start} {request} {three_quanta} {request}")),
        "head 0 100 0 1 2 3 4 5 paused 250 indications 0"
    );
    // The row ends at an action cut short and at an unknown one.
    assert_eq!(
        line(&format!("{start} {three_quanta} 01 00000000000003")),
        "head 0 0 0 1 2 3 4 5 paused 248 indications 4294967294"
    );
    assert_eq!(
        line(&format!("{start} 02 {three_quanta}")),
        "head 1 2 3 4 5 6 7 8 paused 255 indications 4294967294"
    );
}

#[test]
fn the_choice() {
    let map = "00 01 02 03 04 05 06 07";
    let asked = |paused: &str| line(&format!("04 00 08 08 03 08 08 08 08 {map} {paused}"));
    assert_eq!(asked("00"), "choice class 3");
    assert_eq!(asked("08"), "choice class 0");
    assert_eq!(asked("09"), "choice none");
    assert_eq!(
        line(&format!("04 09 08 08 03 08 08 08 08 {map} 00")),
        "choice 20"
    );
}

/// Numbers of eight octets each, in hex.
fn wide(numbers: &[u64]) -> String {
    numbers
        .iter()
        .map(|number| format!("{number:016x}"))
        .collect()
}

#[test]
fn headroom_of_document_004() {
    let delay = 18_944;
    let inputs = [
        10_000, 100, 60, 2000, 200, delay, delay, delay, delay, 6_144,
    ];
    assert_eq!(
        line(&format!("05 {}", wide(&inputs))),
        "headroom link 5560 request 49592 data 43448 total 126232 \
         G 25 W 2020 P 6199 D 5431 oneway 8328 headroom 15779"
    );
    let mut refused = inputs;
    refused[9] = 6_145;
    assert_eq!(line(&format!("05 {}", wide(&refused))), "headroom 19");
}

#[test]
fn headroom_takes_its_inputs_in_the_order_of_the_table() {
    // Each delay has a size of its own: request path 1,000 + 0 + 30 + 4 = 1,034 bits,
    // data path 200 + 0 + 5,000 = 5,200 bits.
    let inputs = [40_000, 0, 40, 64, 7, 1_000, 5_000, 200, 30, 4];
    // Total 7 + 672 + 672 + 1,034 + 672 + 5,200 = 8,257; G 1, P 130, D 650;
    // one-way 1 + 84 + 84 + 130 = 299; headroom 299 + 84 + 650 = 1,033.
    assert_eq!(
        line(&format!("05 {}", wide(&inputs))),
        "headroom link 0 request 1034 data 5200 total 8257 \
         G 1 W 84 P 130 D 650 oneway 299 headroom 1033"
    );
}

#[test]
fn settings() {
    let asked = |t: &str, room: u64| {
        let rooms = wide(&[0, 0, 0, room, 0, 0, 0, 0]);
        let front = wide(&[2000, 200, 49_588, 43_444]);
        let back = wide(&[56, 0]);
        line(&format!("06 08 {front} {t} {back} {rooms}"))
    };
    assert_eq!(
        asked("0084", 17_779),
        "settings G 25 W 2020 P 6199 D 5431 oneway 8328 headroom 15779"
    );
    assert_eq!(asked("0083", 17_779), "settings 16");
    assert_eq!(asked("0084", 17_778), "settings 15");
}

#[test]
fn the_sender() {
    let control = "01".repeat(61);
    assert_eq!(
        line(&format!("08 01 003D 0002 {control} aabb")),
        format!("sender 0 {}", "01".repeat(60))
    );
    assert_eq!(
        line(&format!("08 00 003D 0002 {control} aabb ffff")),
        "sender 0 aabb"
    );
    assert_eq!(line(&format!("08 00 003D 0000 {control}")), "sender 0 -");
    assert_eq!(line("08 00 0001 0002 01 aabb"), "sender 5 -");
    assert_eq!(line(&format!("08 00 003D 0002 {control} aa")), "short");
}

#[test]
fn short_and_unknown_cases() {
    for case in [
        "", "00", "07", "09", "ff 00", "01", "02", "03", "04", "05", "06", "08",
    ] {
        assert_eq!(line(case), "short", "{case}");
    }
    // One octet short of what each needs: 8 + 6, 6 + 1 + 16, 1 + 4 + 16, 17, 80, 115, 5.
    for (kind, body) in [
        (1, 14),
        (2, 23),
        (3, 21),
        (4, 17),
        (5, 80),
        (6, 115),
        (8, 5),
    ] {
        let mut case = vec![kind];
        case.resize(body, 0);
        assert_eq!(answer_case(&case), "short", "kind {kind}");
        case.push(0);
        assert_ne!(answer_case(&case), "short", "kind {kind}");
    }
}

#[test]
fn a_file_is_a_row_of_cases_and_a_cut_one_ends_it() {
    let file = octets_of_text(b"0001 09 0006 080000000000 0000 0002 04").unwrap();
    assert_eq!(answer_file(&file), "short\nsender 5 -\nshort\n");
    assert_eq!(answer_file(&[]), "");
    assert_eq!(answer_file(&[0]), "");
}
