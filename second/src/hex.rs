//! Hex text to octets and back.

/// What is wrong in a hex text, and in which line (the first line is 1).
#[derive(Debug, PartialEq, Eq)]
pub struct BadHex {
    pub line: usize,
    pub why: String,
}

/// Turns hex text into octets: `#` starts a comment that ends with its line, white space is ignored.
pub fn octets_of_text(text: &[u8]) -> Result<Vec<u8>, BadHex> {
    let mut octets = Vec::new();
    // The first digit of an octet whose second is still to come, with its line.
    let mut half: Option<(u8, usize)> = None;
    for (index, line) in text.split(|&c| c == b'\n').enumerate() {
        let line_number = index + 1;
        for &c in line.iter().take_while(|&&c| c != b'#') {
            if c.is_ascii_whitespace() {
                continue;
            }
            let digit = digit_value(c).ok_or_else(|| BadHex {
                line: line_number,
                why: format!("`{}` is no hex digit", (c as char).escape_default()),
            })?;
            half = match half {
                None => Some((digit, line_number)),
                Some((first, _)) => {
                    octets.push(first << 4 | digit);
                    None
                }
            };
        }
    }
    match half {
        None => Ok(octets),
        Some((_, line)) => Err(BadHex {
            line,
            why: "the last octet has one digit only".to_string(),
        }),
    }
}

fn digit_value(c: u8) -> Option<u8> {
    (c as char).to_digit(16).map(|value| value as u8)
}

/// Lower-case hex without spaces; nothing for no octets.
pub fn text_of_octets(octets: &[u8]) -> String {
    const DIGITS: &[u8; 16] = b"0123456789abcdef";
    let mut text = String::with_capacity(2 * octets.len());
    for octet in octets {
        text.push(DIGITS[usize::from(octet >> 4)] as char);
        text.push(DIGITS[usize::from(octet & 15)] as char);
    }
    text
}
