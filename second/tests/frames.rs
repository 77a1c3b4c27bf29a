//! The frame's layout octet by octet, and built frames that read back as the same request.

use second::frame::{build, part, verdict, Request, Verdict};
use second::head::Head;

const OWN: [u8; 6] = [0x02, 0, 0, 0, 0, 0x0A];
const SOURCE: [u8; 6] = [0x02, 0x12, 0x34, 0x56, 0x78, 0x9A];

/// A row of numbers that is the same at every run.
struct Row(u64);

impl Row {
    fn next(&mut self) -> u64 {
        self.0 = self
            .0
            .wrapping_mul(6_364_136_223_846_793_005)
            .wrapping_add(1);
        self.0 >> 33
    }
}

#[test]
fn a_built_frame_octet_by_octet() {
    let request = Request {
        e: 0x88,
        times: [0x0102, 0, 0, 0xABCD, 0, 0, 0, 0xFFFE],
    };
    let mut buffer = [0xEE; 64];
    build(&SOURCE, &request, &mut buffer).unwrap();
    let mut expected = vec![0x01, 0x80, 0xC2, 0x00, 0x00, 0x01]; // 0-5
    expected.extend([0x02, 0x12, 0x34, 0x56, 0x78, 0x9A]); // 6-11
    expected.extend([0x88, 0x08, 0x01, 0x01]); // 12-15
    expected.extend([0x00, 0x88]); // 16-17
    expected.extend([0x01, 0x02, 0, 0, 0, 0, 0xAB, 0xCD]); // 18-25
    expected.extend([0, 0, 0, 0, 0, 0, 0xFF, 0xFE]); // 26-33
    expected.extend([0; 26]); // 34-59
    expected.extend([0xEE; 4]); // not touched
    assert_eq!(buffer.to_vec(), expected);
}

#[test]
fn built_frames_read_back_as_the_same_request() {
    let mut row = Row(1);
    for _ in 0..2_000 {
        let request = Request {
            e: row.next() as u8,
            times: std::array::from_fn(|_| row.next() as u16),
        };
        let mut source: [u8; 6] = std::array::from_fn(|_| row.next() as u8);
        source[0] &= 0xFE;
        let length = 60 + (row.next() % 20) as usize;
        let mut buffer: Vec<u8> = (0..length).map(|_| row.next() as u8).collect();
        let after = buffer[60..].to_vec();
        build(&source, &request, &mut buffer).unwrap();
        assert_eq!(buffer[60..], after);
        let m = 64 + row.next() % (9_216 - 64);
        let frame = &buffer[..60];
        assert_eq!(verdict(m, &OWN, frame), Ok(Verdict::Request(request)));
        assert!(part(m, &OWN, frame).is_empty());
    }
}

#[test]
fn what_is_ignored_when_read() {
    let request = Request {
        e: 0x01,
        times: [700, 1, 2, 3, 4, 5, 6, 7],
    };
    let mut frame = vec![0; 200];
    build(&SOURCE, &request, &mut frame).unwrap();
    frame[16] = 0xFF;
    frame[34..].fill(0x55);
    assert_eq!(verdict(9_216, &OWN, &frame), Ok(Verdict::Request(request)));
}

#[test]
fn data_hands_back_the_callers_own_frame_from_octet_12_on() {
    let mut frame: Vec<u8> = (0..100).collect();
    for length_type in [[0x08, 0x00], [0x81, 0x00], [0x88, 0x09], [0x08, 0x88]] {
        frame[12..14].copy_from_slice(&length_type);
        assert_eq!(verdict(2000, &OWN, &frame), Ok(Verdict::Data));
        let handed_back = part(2000, &OWN, &frame);
        assert_eq!(handed_back.len(), 88);
        assert!(std::ptr::eq(handed_back.as_ptr(), &frame[12]));
    }
    // A refusal has an empty part.
    assert!(part(63, &OWN, &frame).is_empty());
    assert!(part(2000, &OWN, &frame[..59]).is_empty());
    assert!(part(103, &OWN, &frame).is_empty());
    assert!(!part(104, &OWN, &frame).is_empty());
}

#[test]
fn only_priorities_with_e_and_pfc_enabled_take_their_time() {
    let mut head = Head::new(0b0101_0101);
    head.timers = [50; 8];
    head.take_request(&Request {
        e: 0b0011_0011,
        times: [10, 11, 12, 13, 14, 15, 16, 17],
    });
    assert_eq!(head.timers, [10, 50, 50, 50, 14, 50, 50, 50]);
}

#[test]
fn indications_go_from_the_largest_count_back_to_0() {
    let mut head = Head::new(0);
    head.indications = 4_294_967_295;
    let request = Request {
        e: 0,
        times: [0; 8],
    };
    head.take_request(&request);
    assert_eq!(head.indications, 0);
    head.take_request(&request);
    assert_eq!(head.indications, 1);
}
