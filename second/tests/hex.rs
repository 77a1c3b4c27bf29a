//! Hex text: comments, white space and errors.

use second::hex::{octets_of_text, text_of_octets};

#[test]
fn comments_and_white_space() {
    let text = b"# nothing here ZZ\n 0 1\t0aFF # rest 99\r\n\n7\n f#";
    assert_eq!(octets_of_text(text).unwrap(), [0x01, 0x0A, 0xFF, 0x7F]);
    assert_eq!(octets_of_text(b"").unwrap(), []);
}

#[test]
fn errors_carry_their_line() {
    let bad = octets_of_text(b"00\n# x\n0g\n").unwrap_err();
    assert_eq!((bad.line, bad.why.as_str()), (3, "`g` is no hex digit"));
    let half = octets_of_text(b"00\n123\n\n").unwrap_err();
    assert_eq!(half.line, 2);
}

#[test]
fn octets_as_text() {
    assert_eq!(text_of_octets(&[0x00, 0x9A, 0xFF]), "009aff");
    assert_eq!(text_of_octets(&[]), "");
}
