//! A bench input as hex text with a comment a record, as `hex_to_octets` reads it back.

use second::hex::text_of_octets;

use crate::bench_inputs::record_starts;
use crate::settings_record::{FIELD_WIDTHS, SETTINGS_OCTETS};

/// The fields before the eight rooms.
const FIELD_NAMES: [&str; 8] = [
    "enabled",
    "M",
    "generation bits",
    "request path bits",
    "data path bits",
    "T",
    "I",
    "hysteresis",
];

/// The text of a whole input.
pub fn commented(input: &[u8]) -> String {
    let starts = record_starts(input);
    let records = starts.windows(2).map(|pair| &input[pair[0]..pair[1]]);
    records
        .enumerate()
        .map(|(number, record)| commented_record(number, record))
        .collect()
}

fn commented_record(number: usize, record: &[u8]) -> String {
    if record.len() == SETTINGS_OCTETS {
        return commented_settings(number, record);
    }
    format!(
        "{:<12} # {number}: {}\n",
        text_of_octets(record),
        meaning(record)
    )
}

fn meaning(record: &[u8]) -> String {
    match *record {
        [1, a, b] => format!("{} octet times pass", number2(a, b)),
        [2, p, a, b] => format!(
            "A starts a data frame, priority {p}, {} octets",
            number2(a, b)
        ),
        [3] => "the oldest data frame reaches B".to_string(),
        [4, a, b] => format!("B starts some other frame, {} octets", number2(a, b)),
        [5] => "B starts the PFC frame".to_string(),
        [6] => "the oldest PFC frame takes effect at A".to_string(),
        [7, p, a, b] => format!("the disk takes {} octets of priority {p}", number2(a, b)),
        [0..=7, ..] => "cut short".to_string(),
        _ => "no kind".to_string(),
    }
}

fn number2(a: u8, b: u8) -> u16 {
    u16::from_be_bytes([a, b])
}

fn commented_settings(number: usize, record: &[u8]) -> String {
    let mut text = format!("{:<12} # {number}: settings\n", "00");
    let mut at = 1;
    for (index, width) in FIELD_WIDTHS.into_iter().enumerate() {
        let field = &record[at..at + width];
        let value = field.iter().fold(0u64, |n, &o| n << 8 | u64::from(o));
        let name = match FIELD_NAMES.get(index) {
            Some(name) => name.to_string(),
            None => format!("room {}", index - FIELD_NAMES.len()),
        };
        text += &format!("{:<12} #    {name} {value}\n", text_of_octets(field));
        at += width;
    }
    text
}
