//! Reads a vector file and prints one line a case, as docs/VECTORS.md says.

use crate::frame::{self, Request, Verdict};
use crate::head::{choose, Head};
use crate::headroom::{self, Delays, Inputs};
use crate::hex::text_of_octets;
use crate::octets::Octets;
use crate::recorder::{sender_part, sender_refusal};
use crate::refusal::Refusal;
use crate::settings::Settings;
use crate::units::{BitTimes, OctetTimes, Quanta};
use crate::PRIORITIES;

/// The line of a case too short for what it asks, or of an unknown kind.
const SHORT: &str = "short";

/// The cases of a vector file, in order; a last case cut short is left out.
pub fn cases(file: &[u8]) -> impl Iterator<Item = &[u8]> {
    let mut file = Octets::new(file);
    std::iter::from_fn(move || {
        let length = file.number2()?;
        file.take(length.into())
    })
}

/// The answer to a whole vector file: each line ends with a line feed.
pub fn answer_file(file: &[u8]) -> String {
    let mut lines = String::new();
    for case in cases(file) {
        lines.push_str(&answer_case(case));
        lines.push('\n');
    }
    lines
}

/// The line of one case, given without its length.
pub fn answer_case(case: &[u8]) -> String {
    let mut body = Octets::new(case);
    let line = match body.number1() {
        Some(0x01) => reading(body),
        Some(0x02) => building(body),
        Some(0x03) => head(body),
        Some(0x04) => choice(body),
        Some(0x05) => headroom_sum(body),
        Some(0x06) => settings(body),
        Some(0x08) => sender(body),
        _ => None,
    };
    line.unwrap_or_else(|| SHORT.to_string())
}

fn reading(mut body: Octets) -> Option<String> {
    let largest_frame = body.number8()?;
    let own = body.array()?;
    let frame = body.rest();
    let verdict = match frame::verdict(largest_frame, &own, frame) {
        Err(refusal) => refusal.number().to_string(),
        Ok(Verdict::Data) => "data".to_string(),
        Ok(Verdict::Request(request)) => {
            format!("request {} {}", request.e, spaced(&request.times))
        }
    };
    let part = hex_or_dash(frame::part(largest_frame, &own, frame));
    Some(format!("read {verdict} part {part}"))
}

fn building(mut body: Octets) -> Option<String> {
    let source = body.array()?;
    let request = take_request(&mut body)?;
    let mut buffer = body.rest().to_vec();
    let number = number_or_0(frame::build(&source, &request, &mut buffer).err());
    Some(format!("build {number} {}", hex_or_dash(&buffer)))
}

fn head(mut body: Octets) -> Option<String> {
    let mut head = Head {
        enabled: body.number1()?,
        indications: body.number4()?,
        timers: body.numbers2()?,
    };
    while take_action(&mut body, &mut head).is_some() {}
    Some(format!(
        "head {} paused {} indications {}",
        spaced(&head.timers),
        head.paused_marks(),
        head.indications
    ))
}

/// Does the next action of the row; nothing where it is cut short or unknown, which ends the row.
fn take_action(body: &mut Octets, head: &mut Head) -> Option<()> {
    match body.number1()? {
        0x00 => head.take_request(&take_request(body)?),
        0x01 => head.pass(Quanta(body.number8()?)),
        _ => return None,
    }
    Some(())
}

fn take_request(body: &mut Octets) -> Option<Request> {
    Some(Request {
        e: body.number1()?,
        times: body.numbers2()?,
    })
}

fn choice(mut body: Octets) -> Option<String> {
    let heads = body.array()?;
    let class_of = body.array()?;
    let paused = body.number1()?;
    Some(match choose(&heads, &class_of, paused) {
        Err(refusal) => format!("choice {}", refusal.number()),
        Ok(Some(class)) => format!("choice class {class}"),
        Ok(None) => "choice none".to_string(),
    })
}

/// What a case asks the headroom of, if it asks that and is long enough.
pub fn headroom_inputs(case: &[u8]) -> Option<Inputs> {
    let mut body = Octets::new(case);
    match body.number1() {
        Some(0x05) => take_headroom_inputs(&mut body),
        _ => None,
    }
}

fn take_headroom_inputs(body: &mut Octets) -> Option<Inputs> {
    Some(Inputs {
        rate: body.number8()?,
        metres: body.number8()?,
        percentage: body.number8()?,
        largest_frame: body.number8()?,
        generation: BitTimes(body.number8()?),
        b_transmit: BitTimes(body.number8()?),
        b_receive: BitTimes(body.number8()?),
        a_transmit: BitTimes(body.number8()?),
        a_receive: BitTimes(body.number8()?),
        halt: BitTimes(body.number8()?),
    })
}

fn headroom_sum(mut body: Octets) -> Option<String> {
    let inputs = take_headroom_inputs(&mut body)?;
    Some(match headroom::calculate(&inputs) {
        Err(refusal) => format!("headroom {}", refusal.number()),
        Ok(sum) => format!(
            "headroom link {} request {} data {} total {} {}",
            sum.link.0,
            sum.request_path.0,
            sum.data_path.0,
            sum.total.0,
            octet_times(&sum.delays)
        ),
    })
}

fn settings(mut body: Octets) -> Option<String> {
    let mut settings = Settings {
        enabled: body.number1()?,
        largest_frame: body.number8()?,
        generation: BitTimes(body.number8()?),
        request_path: BitTimes(body.number8()?),
        data_path: BitTimes(body.number8()?),
        pause_time: body.number2()?,
        refresh: OctetTimes(body.number8()?),
        hysteresis: body.number8()?,
        rooms: [0; PRIORITIES],
    };
    for room in &mut settings.rooms {
        *room = body.number8()?;
    }
    Some(match settings.accept() {
        Err(refusal) => format!("settings {}", refusal.number()),
        Ok(delays) => format!("settings {}", octet_times(&delays)),
    })
}

fn sender(mut body: Octets) -> Option<String> {
    let due = body.number1()? != 0;
    let control_length = body.number2()?;
    let data_length = body.number2()?;
    let control = body.take(control_length.into())?;
    let data = body.take(data_length.into())?;
    let number = number_or_0(sender_refusal(due, control));
    let part = hex_or_dash(sender_part(due, control, data));
    Some(format!("sender {number} {part}"))
}

/// The end that the lines of headroom and of settings share.
fn octet_times(delays: &Delays) -> String {
    format!(
        "G {} W {} P {} D {} oneway {} headroom {}",
        delays.generation.0,
        delays.wire.0,
        delays.request_path.0,
        delays.data_path.0,
        delays.one_way().0,
        delays.headroom().0
    )
}

fn number_or_0(refusal: Option<Refusal>) -> u8 {
    refusal.map_or(0, Refusal::number)
}

fn spaced(numbers: &[u16]) -> String {
    let texts: Vec<String> = numbers.iter().map(u16::to_string).collect();
    texts.join(" ")
}

fn hex_or_dash(octets: &[u8]) -> String {
    if octets.is_empty() {
        return "-".to_string();
    }
    text_of_octets(octets)
}
