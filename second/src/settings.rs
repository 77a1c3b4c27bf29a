//! The recorder's settings and their refusals.

use crate::frame::is_no_largest_frame;
use crate::headroom::{is_delay_too_long, is_path_too_long, Delays};
use crate::order::{refuse_first, Line};
use crate::refusal::Refusal;
use crate::slips::{slipped, Slip};
use crate::units::{BitTimes, OctetTimes, Quanta};
use crate::{bit, PRIORITIES};

const LONGEST_REFRESH: OctetTimes = OctetTimes(4_194_304);
const LARGEST_ROOM: u64 = 1_073_741_824;

/// Settings as given, wide enough that none is wrapped before it is tried.
#[derive(Clone, Copy, Debug)]
pub struct Settings {
    /// Bit n: PFC is enabled for priority n.
    pub enabled: u8,
    /// M.
    pub largest_frame: u64,
    pub generation: BitTimes,
    pub request_path: BitTimes,
    pub data_path: BitTimes,
    /// T, in quanta.
    pub pause_time: u16,
    /// I.
    pub refresh: OctetTimes,
    /// Octets.
    pub hysteresis: u64,
    /// Octets; ignored where the priority is not enabled.
    pub rooms: [u64; PRIORITIES],
}

impl Settings {
    /// Tries the settings; the answer holds G, W, P and D.
    pub fn accept(&self) -> Result<Delays, Refusal> {
        let delays = Delays::new(
            self.largest_frame,
            self.generation,
            self.request_path,
            self.data_path,
        );
        refuse_first!(
            Line::Settings,
            [
                (
                    Refusal::LargestFrame,
                    is_no_largest_frame(self.largest_frame)
                ),
                (Refusal::DelayTooLong, self.has_delay_too_long()),
                (
                    Refusal::Refresh,
                    !(OctetTimes(1)..=LONGEST_REFRESH).contains(&self.refresh)
                ),
                (Refusal::RoomTooLarge, self.has_room_too_large()),
                (
                    Refusal::PauseTimeTooShort,
                    self.is_pause_time_too_short(&delays)
                ),
                (Refusal::RoomTooSmall, self.has_room_too_small(&delays)),
            ],
        )?;
        Ok(delays)
    }

    /// The free room below which pause becomes wanted: headroom + M.
    ///
    /// The extra M is for the frame that crosses the mark.
    pub fn wanted_below(&self, delays: &Delays) -> u64 {
        let headroom = delays.headroom().octets_carried();
        headroom.saturating_add(self.largest_frame)
    }

    /// The free room from which on pause is no longer wanted: headroom + M + hysteresis.
    pub fn unwanted_from(&self, delays: &Delays) -> u64 {
        self.wanted_below(delays).saturating_add(self.hysteresis)
    }

    fn has_delay_too_long(&self) -> bool {
        is_delay_too_long(self.generation)
            || is_path_too_long(self.request_path)
            || is_path_too_long(self.data_path)
    }

    fn has_room_too_large(&self) -> bool {
        let room_too_large = (0..PRIORITIES)
            .filter(|&n| bit(self.enabled, n) || slipped(Slip::NotEnabledRoomsTried))
            .any(|n| self.rooms[n] > LARGEST_ROOM);
        room_too_large || self.hysteresis > LARGEST_ROOM
    }

    fn is_pause_time_too_short(&self, delays: &Delays) -> bool {
        // The first quantum may end at once, so one quantum more is asked for.
        let first_quantum = if slipped(Slip::FirstQuantumWhole) {
            Quanta(0)
        } else {
            Quanta(1)
        };
        let pause = Quanta(self.pause_time.into()).as_octet_times();
        pause < self.refresh + delays.one_way() + first_quantum.as_octet_times()
    }

    fn has_room_too_small(&self, delays: &Delays) -> bool {
        let needed = self.unwanted_from(delays);
        (0..PRIORITIES)
            .filter(|&n| bit(self.enabled, n))
            .any(|n| self.rooms[n] < needed)
    }
}
