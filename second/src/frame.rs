//! The PFC frame: reading any frame, building a PFC frame.

use crate::octets::Octets;
use crate::order::{first_of, refuse_first, Line};
use crate::refusal::Refusal;
use crate::slips::{slipped, Slip};
use crate::PRIORITIES;

pub type Address = [u8; 6];

/// The destination of built frames, and one of the two accepted in control frames.
pub const GROUP_ADDRESS: Address = [0x01, 0x80, 0xC2, 0x00, 0x00, 0x01];

/// The octets of a PFC frame without FCS; also the shortest frame.
pub const PFC_FRAME_OCTETS: usize = 60;

pub const SMALLEST_M: u64 = 64;
pub const LARGEST_M: u64 = 9_216;

const FCS_OCTETS: u64 = 4;
const MAC_CONTROL_TYPE: [u8; 2] = [0x88, 0x08];
const PFC_OPCODE: [u8; 2] = [0x01, 0x01];

/// Where the part handed back of a data frame starts: at its Length/Type.
const TYPE_AT: usize = 12;
const OPCODE_AT: usize = 14;
const ENABLE_VECTOR_AT: usize = 16;
const TIMES_AT: usize = 18;
const PAD_AT: usize = 34;

/// What a PFC frame asks: bit n of `e` says that `times[n]`, in quanta, is valid.
#[derive(Clone, Copy, Debug, PartialEq, Eq)]
pub struct Request {
    pub e: u8,
    pub times: [u16; PRIORITIES],
}

/// What a frame that is not refused turns out to be.
#[derive(Clone, Copy, Debug, PartialEq, Eq)]
pub enum Verdict {
    Data,
    Request(Request),
}

/// The condition of refusal 13, shared by reading, headroom and settings.
pub fn is_no_largest_frame(largest_frame: u64) -> bool {
    !(SMALLEST_M..=LARGEST_M).contains(&largest_frame)
}

/// Reads a frame without FCS at a station with this own address, taken as given.
pub fn verdict(largest_frame: u64, own: &Address, frame: &[u8]) -> Result<Verdict, Refusal> {
    let found = first_of!(
        Line::Reading,
        [
            (
                Err(Refusal::LargestFrame),
                is_no_largest_frame(largest_frame)
            ),
            (Err(Refusal::FrameTooShort), frame.len() < PFC_FRAME_OCTETS),
            (
                Err(Refusal::FrameTooLong),
                frame.len() as u64 > longest_without_fcs(largest_frame)
            ),
            (Ok(()), has_other(frame, TYPE_AT, MAC_CONTROL_TYPE)),
            (
                Err(Refusal::OtherAddress),
                has_other(frame, 0, GROUP_ADDRESS) && has_other(frame, 0, *own)
            ),
            (
                Err(Refusal::OtherOpcode),
                has_other(frame, OPCODE_AT, PFC_OPCODE)
            ),
        ],
    );
    match found {
        Some(Ok(())) => Ok(Verdict::Data),
        Some(Err(refusal)) => Err(refusal),
        None => Ok(Verdict::Request(request_in(frame))),
    }
}

/// Whether other octets stand at this place. A frame that ends before it has none there.
fn has_other<const N: usize>(frame: &[u8], at: usize, octets: [u8; N]) -> bool {
    frame.get(at..at + N).is_some_and(|found| found != octets)
}

/// The part of the caller's own frame that is handed back: from octet 12 on for data, else empty.
pub fn part<'a>(largest_frame: u64, own: &Address, frame: &'a [u8]) -> &'a [u8] {
    match verdict(largest_frame, own, frame) {
        Ok(Verdict::Data) => &frame[TYPE_AT..],
        Ok(Verdict::Request(_)) | Err(_) => &[],
    }
}

fn longest_without_fcs(largest_frame: u64) -> u64 {
    if slipped(Slip::FrameUpToM) {
        return largest_frame;
    }
    largest_frame.saturating_sub(FCS_OCTETS)
}

/// The request of a frame already found to be a PFC frame of at least 60 octets.
///
/// Never inlined: on its own it takes the eight times as one row.
#[inline(never)]
fn request_in(frame: &[u8]) -> Request {
    let [first, mut e] = [frame[ENABLE_VECTOR_AT], frame[ENABLE_VECTOR_AT + 1]];
    if slipped(Slip::FirstEnableOctetRead) {
        e |= first;
    }
    let mut times = Octets::new(&frame[TIMES_AT..PAD_AT])
        .numbers2()
        .expect("octets 18 to 33 hold eight times");
    if slipped(Slip::TimesFromOtherEnd) {
        times.reverse();
    }
    Request { e, times }
}

/// Builds the PFC frame in the first 60 octets of the buffer; all others, and all at a refusal, stay.
pub fn build(source: &Address, request: &Request, buffer: &mut [u8]) -> Result<(), Refusal> {
    refuse_first!(
        Line::Building,
        [
            (
                Refusal::ControlBufferTooShort,
                buffer.len() < PFC_FRAME_OCTETS
            ),
            (Refusal::GroupSource, source[0] & 1 == 1),
        ],
    )?;
    let frame = &mut buffer[..PFC_FRAME_OCTETS];
    frame[..6].copy_from_slice(&GROUP_ADDRESS);
    frame[6..TYPE_AT].copy_from_slice(source);
    frame[TYPE_AT..OPCODE_AT].copy_from_slice(&MAC_CONTROL_TYPE);
    frame[OPCODE_AT..ENABLE_VECTOR_AT].copy_from_slice(&PFC_OPCODE);
    frame[ENABLE_VECTOR_AT..TIMES_AT].copy_from_slice(&[0, request.e]);
    let time_fields = frame[TIMES_AT..PAD_AT].chunks_exact_mut(2);
    for (field, time) in time_fields.zip(request.times) {
        field.copy_from_slice(&time.to_be_bytes());
    }
    if !slipped(Slip::PadLeftAsFound) {
        frame[PAD_AT..].fill(0);
    }
    if slipped(Slip::OctetAfterFrameTouched) && buffer.len() > PFC_FRAME_OCTETS {
        buffer[PFC_FRAME_OCTETS] = 0;
    }
    Ok(())
}
