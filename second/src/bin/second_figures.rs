//! Does the turns of a figures file on standard input and prints the sum, as docs/FIGURES.md says.
//!
//! The library's public functions are called as any caller would. Each work is a function that is
//! never inlined, so that its speed does not hang on how the other works are laid out beside it.

use std::hint::black_box;
use std::io::{self, Read, Write};
use std::process::ExitCode;

use second::frame::{self, Address, Request, Verdict};
use second::head::{choose, Head, EMPTY_QUEUE};
use second::octets::Octets;
use second::recorder::Recorder;
use second::refusal::Refusal;
use second::settings::Settings;
use second::units::{BitTimes, OctetTimes, Quanta};
use second::{bit, PRIORITIES};

/// A slot of the reading's material: a length, then the frame and what fills the slot up.
const SLOT_OCTETS: usize = 128;

const BUILT_SOURCE: Address = [0x02, 0x00, 0x00, 0x00, 0x00, 0x0B];
const BUFFER_OCTETS: u64 = 64;

const ALL_ENABLED: u8 = 0xFF;
/// Of the work in which quanta pass one by one: the turns from one request to the next.
const TURNS_A_REQUEST: u64 = 65_536;
/// Of the work in which a request is taken every turn: what passes after it.
const QUANTA_A_REQUEST: Quanta = Quanta(100);

/// Each priority has the class of its own number.
const OWN_CLASSES: [u8; PRIORITIES] = [0, 1, 2, 3, 4, 5, 6, 7];
/// The same map but for priority 0, whose class gives refusal 22.
const REFUSED_CLASSES: [u8; PRIORITIES] = [8, 1, 2, 3, 4, 5, 6, 7];

/// G 25, W 2,020, P 7,821, D 3,663, one-way 9,950, headroom 15,633: pause becomes wanted where
/// more than 2,367 octets are held, and stops being wanted where at most 367 are.
const WATCHED: Settings = Settings {
    enabled: ALL_ENABLED,
    largest_frame: 2_000,
    generation: BitTimes(200),
    request_path: BitTimes(62_564),
    data_path: BitTimes(29_300),
    pause_time: 65_535,
    refresh: OctetTimes(32_768),
    hysteresis: 2_000,
    rooms: [20_000; PRIORITIES],
};
const ARRIVING_OCTETS: u64 = 1_522;
/// Taken where bit 6 of t is zero: 522 fewer than arrive.
const FEWER_TAKEN_OCTETS: u64 = 1_000;
/// Taken where bit 6 of t is one: 522 more than arrive.
const MORE_TAKEN_OCTETS: u64 = 2_044;
/// Of the room watching: the turns from one start of a PFC frame to the next.
const TURNS_A_PFC_FRAME: u64 = 128;

fn main() -> ExitCode {
    match read_and_print() {
        Ok(()) => ExitCode::SUCCESS,
        Err(error) => {
            eprintln!("second_figures: {error}");
            ExitCode::FAILURE
        }
    }
}

fn read_and_print() -> io::Result<()> {
    let mut file = Vec::new();
    io::stdin().lock().read_to_end(&mut file)?;
    let sum = sum_asked(&file).unwrap_or(0);
    writeln!(io::stdout().lock(), "{sum}")
}

/// The sum that a figures file asks for; nothing where it is too short or the work unknown.
fn sum_asked(file: &[u8]) -> Option<u64> {
    let mut file = Octets::new(file);
    let work = file.number1()?;
    let turns = file.number8()?;
    match work {
        0x01 => reading(turns, file),
        0x02 => Some(building(turns)),
        0x03 => Some(quanta_one_by_one(turns)),
        0x04 => Some(requests_and_quanta(turns)),
        0x05 => Some(requests(turns)),
        0x06 => Some(choices(turns)),
        0x07 => Some(room_watching(turns)),
        0x08 => requests_and_a_count(turns, file),
        _ => None,
    }
}

/// The sum of the turns' answers, which goes on from 0 after the last value.
fn sum(answers: impl Iterator<Item = u64>) -> u64 {
    answers.fold(0, u64::wrapping_add)
}

/// The sum over turns at a fresh head: the turn's timer after each, the indications at the end.
fn sum_at_head(turns: u64, turn: impl Fn(&mut Head, u64)) -> u64 {
    let mut head = Head::new(ALL_ENABLED);
    let timers = sum((0..turns).map(|t| {
        turn(&mut head, t);
        head.timers[priority_of(t)].into()
    }));
    timers.wrapping_add(head.indications.into())
}

/// Reads a slot's frame a turn; nothing where the material is too short for its front.
#[inline(never)]
fn reading(turns: u64, mut material: Octets) -> Option<u64> {
    let largest_frame = material.number2()?.into();
    let own = material.array()?;
    let slots = material.rest().chunks_exact(SLOT_OCTETS);
    let frames: Vec<&[u8]> = slots.map(frame_in).collect::<Option<_>>()?;
    // Slot t mod their count: after the last comes the first again. Without any the row is empty.
    let in_turn = (0..turns).zip(frames.iter().cycle());
    let answers = in_turn.map(|(_, frame)| value_read(frame::verdict(largest_frame, &own, frame)));
    Some(sum(answers))
}

/// The frame at the front of a slot; a length above the octets there means all of them.
fn frame_in(slot: &[u8]) -> Option<&[u8]> {
    let mut slot = Octets::new(slot);
    let length = slot.number2()?;
    let octets = slot.rest();
    octets.get(..octets.len().min(length.into()))
}

fn value_read(answer: Result<Verdict, Refusal>) -> u64 {
    match answer {
        Err(refusal) => refusal.number().into(),
        Ok(Verdict::Data) => 1_000,
        Ok(Verdict::Request(Request { e, times })) => {
            2_000 + u64::from(e) + times.into_iter().map(u64::from).sum::<u64>()
        }
    }
}

/// Builds a frame a turn, always in the same buffer.
#[inline(never)]
fn building(turns: u64) -> u64 {
    let mut buffer = [0; BUFFER_OCTETS as usize];
    let octets = sum((0..turns).map(|t| {
        frame::build(&BUILT_SOURCE, &request_of(t, t as u8), &mut buffer)
            .expect("the buffer is long enough and the source has no group bit");
        buffer[(t % BUFFER_OCTETS) as usize].into()
    }));
    // Used, so that the compiler leaves out none of the octets that no answer shows.
    black_box(&buffer);
    octets
}

/// One quantum passes a turn, now and then after a request.
#[inline(never)]
fn quanta_one_by_one(turns: u64) -> u64 {
    sum_at_head(turns, |head, t| {
        if t.is_multiple_of(TURNS_A_REQUEST) {
            head.take_request(&request_of(TURNS_A_REQUEST - 1, 0xFF));
        }
        head.pass(Quanta(1));
    })
}

/// A request for all priorities is taken a turn, and quanta pass after it.
#[inline(never)]
fn requests_and_quanta(turns: u64) -> u64 {
    sum_at_head(turns, request_then_count(QUANTA_A_REQUEST))
}

/// The same with the count that the material gives; nothing where it is too short for one.
#[inline(never)]
fn requests_and_a_count(turns: u64, mut material: Octets) -> Option<u64> {
    let count = Quanta(material.number8()?);
    Some(sum_at_head(turns, request_then_count(count)))
}

/// A turn in which a request for all priorities is taken and then this count passes.
fn request_then_count(count: Quanta) -> impl Fn(&mut Head, u64) {
    move |head, t| {
        head.take_request(&request_of(t, 0xFF));
        head.pass(count);
    }
}

/// A request for some of the priorities is taken a turn.
#[inline(never)]
fn requests(turns: u64) -> u64 {
    sum_at_head(turns, |head, t| head.take_request(&request_of(t, t as u8)))
}

/// Heads, map and paused marks of a turn all come from its number.
#[inline(never)]
fn choices(turns: u64) -> u64 {
    sum((0..turns).map(|t| {
        let class_of = match t % 16 {
            15 => &REFUSED_CLASSES,
            _ => &OWN_CLASSES,
        };
        match choose(&heads_of(t), class_of, (t / 256) as u8) {
            Err(refusal) => refusal.number().into(),
            Ok(Some(class)) => 100 + class as u64,
            Ok(None) => 0,
        }
    }))
}

/// Class n's head is priority n where bit n of t is one.
fn heads_of(t: u64) -> [u8; PRIORITIES] {
    let marks = t as u8;
    std::array::from_fn(|n| if bit(marks, n) { n as u8 } else { EMPTY_QUEUE })
}

/// A frame arrives a turn, and the disk takes octets after it; now and then a PFC frame starts.
#[inline(never)]
fn room_watching(turns: u64) -> u64 {
    let delays = WATCHED.accept().expect("the settings keep every rule");
    let mut recorder = Recorder::new(&WATCHED, &delays);
    let answers = sum((0..turns).map(|t| {
        if t.is_multiple_of(TURNS_A_PFC_FRAME) {
            recorder.start_pfc(OctetTimes(t));
        }
        let priority = priority_of(t);
        recorder.arrive(priority, ARRIVING_OCTETS, OctetTimes(t));
        // Whether it is taken or refused, the turn's answer is how the recorder stands then.
        let _ = recorder.take(priority, octets_taken(t), OctetTimes(t + 1));
        value_watched(&recorder, priority)
    }));
    // Used, so that the compiler leaves out none of the counts that no answer shows.
    black_box(&recorder);
    answers.wrapping_add(recorder.requests_sent().into())
}

fn octets_taken(t: u64) -> u64 {
    if bit(t as u8, 6) {
        MORE_TAKEN_OCTETS
    } else {
        FEWER_TAKEN_OCTETS
    }
}

fn value_watched(recorder: &Recorder, priority: usize) -> u64 {
    let room = recorder.room(priority);
    let due_since = recorder.due_since().map_or(0, |moment| moment.0);
    room.held + u64::from(room.wanted) + due_since
}

/// A request with the times of turn t: time[n] is (t + 8191 n) mod 65,536.
fn request_of(t: u64, e: u8) -> Request {
    let time = |n: usize| (t as u16).wrapping_add(8_191 * n as u16);
    Request {
        e,
        times: std::array::from_fn(time),
    }
}

fn priority_of(t: u64) -> usize {
    t as usize % PRIORITIES
}
