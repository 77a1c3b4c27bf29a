//! Station A, the head: its eight pause timers and the choice of the next frame.

use crate::frame::Request;
use crate::order::{refuse_first, Line};
use crate::refusal::Refusal;
use crate::slips::{slipped, Slip};
use crate::units::Quanta;
use crate::{bit, PRIORITIES};

/// The PFC receiver of A.
#[derive(Clone, Copy, Debug, PartialEq, Eq)]
pub struct Head {
    /// Bit n: PFC is enabled for priority n.
    pub enabled: u8,
    /// The timers, in quanta.
    pub timers: [u16; PRIORITIES],
    /// How many requests were accepted, modulo 2^32.
    pub indications: u32,
}

impl Head {
    /// All timers zero, as at the start.
    pub fn new(enabled: u8) -> Self {
        Head {
            enabled,
            timers: [0; PRIORITIES],
            indications: 0,
        }
    }

    /// A request replaces the timers it names and that are enabled; the others keep their value.
    pub fn take_request(&mut self, request: &Request) {
        for (n, timer) in self.timers.iter_mut().enumerate() {
            let enabled = bit(self.enabled, n) || slipped(Slip::EnableSettingIgnored);
            if bit(request.e, n) && enabled {
                let larger_kept = slipped(Slip::LargerTimeKept) && *timer > request.times[n];
                if !larger_kept {
                    *timer = request.times[n];
                }
            } else if slipped(Slip::UnsetTimersZeroed) {
                *timer = 0;
            }
        }
        self.indications = if slipped(Slip::IndicationsSaturate) {
            self.indications.saturating_add(1)
        } else {
            self.indications.wrapping_add(1)
        };
    }

    /// Lowers each timer by the count, not below zero, in one stroke however many quanta it counts.
    pub fn pass(&mut self, count: Quanta) {
        let count = narrowed(count);
        for (n, timer) in self.timers.iter_mut().enumerate() {
            let left_out = slipped(Slip::LastTimerLeftOut) && n == PRIORITIES - 1
                || slipped(Slip::OnlyEnabledLowered) && !bit(self.enabled, n);
            if !left_out {
                *timer = lowered(*timer, count);
            }
        }
    }

    /// A priority above 7 has no timer.
    pub fn is_paused(&self, priority: usize) -> bool {
        self.timers.get(priority).is_some_and(|&timer| timer > 0)
    }

    /// Bit n: priority n is paused.
    pub fn paused_marks(&self) -> u8 {
        (0..PRIORITIES)
            .filter(|&n| self.is_paused(n))
            .fold(0, |marks, n| marks | 1 << n)
    }
}

/// The count at the width of a timer. One wider than any timer lowers each to zero, and so does the
/// count of the widest.
fn narrowed(Quanta(mut count): Quanta) -> u16 {
    if slipped(Slip::CountCutTo16Bits) || slipped(Slip::LoweringWraps) {
        return count as u16;
    }
    let mut widest = u16::MAX;
    if slipped(Slip::CountCutTo32Bits) {
        count = u64::from(count as u32);
    }
    if slipped(Slip::CountStopsAt65534) {
        widest = 65_534;
    }
    u16::try_from(count).map_or(widest, |count| count.min(widest))
}

/// The timer after the count: what is above it, or zero.
fn lowered(timer: u16, count: u16) -> u16 {
    if slipped(Slip::LoweringWraps) {
        return timer.wrapping_sub(count);
    }
    if slipped(Slip::LoweredAsSigned) {
        return 0.max(timer.wrapping_sub(count) as i16) as u16;
    }
    let kept = slipped(Slip::TimerAtCountKept) && timer == count
        || slipped(Slip::TimerBelowCountKept) && timer < count;
    if kept {
        return timer;
    }
    timer.saturating_sub(count)
}

/// The head of an empty class queue.
pub const EMPTY_QUEUE: u8 = 8;

/// The highest class whose head is present and not paused, or none.
///
/// `heads[c]` is the priority of class c's first frame, `class_of` the map from priority to class,
/// bit n of `paused` says that priority n is paused.
pub fn choose(
    heads: &[u8; PRIORITIES],
    class_of: &[u8; PRIORITIES],
    paused: u8,
) -> Result<Option<usize>, Refusal> {
    refuse_first!(
        Line::Choice,
        [
            (
                Refusal::MapEntryAbove7,
                class_of.iter().any(|&class| class > 7)
            ),
            (
                Refusal::HeadAbove8,
                heads.iter().any(|&head| head > EMPTY_QUEUE)
            ),
            (
                Refusal::HeadOfOtherClass,
                (0..PRIORITIES).any(|class| is_of_other_class(heads, class_of, class))
            ),
        ],
    )?;
    let mut present = (0..PRIORITIES)
        .rev()
        .filter(|&class| heads[class] != EMPTY_QUEUE);
    if slipped(Slip::PausedHeadStopsChoice) {
        return Ok(present
            .next()
            .filter(|&class| !bit(paused, heads[class].into())));
    }
    Ok(present.find(|&class| !bit(paused, heads[class].into())))
}

/// Whether the class has a head that its map gives another class; the map says nothing of an empty
/// queue or of a head above 8.
fn is_of_other_class(heads: &[u8; 8], class_of: &[u8; 8], class: usize) -> bool {
    class_of
        .get(usize::from(heads[class]))
        .is_some_and(|&given| usize::from(given) != class)
}
