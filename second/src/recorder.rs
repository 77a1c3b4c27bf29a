//! Station B, the recorder: room watching, when PFC is due, and the sender.

use crate::frame::{Request, PFC_FRAME_OCTETS};
use crate::headroom::Delays;
use crate::order::{refuse_first, Line};
use crate::refusal::Refusal;
use crate::settings::Settings;
use crate::slips::{slipped, Slip};
use crate::units::OctetTimes;
use crate::{bit, PRIORITIES};

/// The room of one priority and what is counted about it, in octets.
#[derive(Clone, Copy, Debug, Default)]
pub struct Room {
    pub size: u64,
    pub held: u64,
    pub dropped: u64,
    /// Whether pause is wanted.
    pub wanted: bool,
    /// What arrived in the wanted span that is open now, the crossing frame not counted.
    arrived_in_span: u64,
    /// The largest of these counts so far.
    pub worst: u64,
}

impl Room {
    pub fn free(&self) -> u64 {
        self.size - self.held
    }

    /// A frame that fits is held, else it is dropped and its octets counted.
    fn arrive(&mut self, length: u64) {
        if self.wanted {
            self.count_in_span(length);
        }
        if length <= self.free() {
            self.held += length;
        } else {
            self.dropped += length;
        }
    }

    fn count_in_span(&mut self, length: u64) {
        self.arrived_in_span += length;
        if !slipped(Slip::OpenSpanNotCounted) {
            self.worst = self.worst.max(self.arrived_in_span);
        }
    }

    /// The wanted mark changes, and with it a span starts or ends.
    fn set_wanted(&mut self, wanted: bool) {
        self.wanted = wanted;
        if slipped(Slip::OpenSpanNotCounted) {
            self.worst = self.worst.max(self.arrived_in_span);
        }
        if !slipped(Slip::SpansJoined) {
            self.arrived_in_span = 0;
        }
    }
}

/// The recorder's rooms, its wanted marks and the state of its PFC frames.
#[derive(Clone, Debug)]
pub struct Recorder {
    enabled: u8,
    /// T, in quanta.
    pause_time: u16,
    /// I.
    refresh: OctetTimes,
    wanted_below: u64,
    unwanted_from: u64,
    rooms: [Room; PRIORITIES],
    due_since: Option<OctetTimes>,
    last_start: Option<OctetTimes>,
    requests_sent: u32,
}

impl Recorder {
    /// Empty rooms, from settings already accepted.
    pub fn new(settings: &Settings, delays: &Delays) -> Self {
        let mut wanted_below = settings.wanted_below(delays);
        if slipped(Slip::MarkAtHeadroom) {
            wanted_below -= settings.largest_frame;
        }
        let mut unwanted_from = settings.unwanted_from(delays);
        if slipped(Slip::HysteresisIgnored) {
            unwanted_from = wanted_below;
        }
        Recorder {
            enabled: settings.enabled,
            pause_time: settings.pause_time,
            refresh: settings.refresh,
            wanted_below,
            unwanted_from,
            rooms: settings.rooms.map(|size| Room {
                size,
                ..Room::default()
            }),
            due_since: None,
            last_start: None,
            requests_sent: 0,
        }
    }

    /// A priority above 7 is not.
    pub fn is_enabled(&self, priority: usize) -> bool {
        priority < PRIORITIES && bit(self.enabled, priority)
    }

    pub fn room(&self, priority: usize) -> &Room {
        &self.rooms[priority]
    }

    /// The first moment of the due state, while PFC is due.
    pub fn due_since(&self) -> Option<OctetTimes> {
        self.due_since
    }

    pub fn last_start(&self) -> Option<OctetTimes> {
        self.last_start
    }

    /// How many PFC frames were started, modulo 2^32.
    pub fn requests_sent(&self) -> u32 {
        self.requests_sent
    }

    /// A frame of this priority arrives; one of a priority not enabled is neither held nor counted.
    pub fn arrive(&mut self, priority: usize, length: u64, now: OctetTimes) {
        if !self.is_enabled(priority) {
            return;
        }
        let was_wanted = self.rooms[priority].wanted;
        self.rooms[priority].arrive(length);
        self.watch(priority, now);
        let crossed = !was_wanted && self.rooms[priority].wanted;
        if crossed && slipped(Slip::CrossingFrameCounted) {
            self.rooms[priority].count_in_span(length);
        }
    }

    /// The disk takes octets of this priority.
    pub fn take(&mut self, priority: usize, octets: u64, now: OctetTimes) -> Result<(), Refusal> {
        refuse_first!(
            Line::Kind07,
            [
                (Refusal::PriorityAbove7, priority > 7),
                (Refusal::NotEnabled, !self.is_enabled(priority)),
                (Refusal::MoreThanHeld, octets > self.held(priority)),
            ],
        )?;
        self.rooms[priority].held -= octets;
        self.watch(priority, now);
        Ok(())
    }

    /// Of a priority above 7 nothing is held.
    fn held(&self, priority: usize) -> u64 {
        self.rooms.get(priority).map_or(0, |room| room.held)
    }

    /// Sets the wanted mark after an arrival or a taking; a change makes PFC due.
    #[inline]
    fn watch(&mut self, priority: usize, now: OctetTimes) {
        let free = self.rooms[priority].free();
        let room = &mut self.rooms[priority];
        let wanted = if free < self.wanted_below {
            true
        } else if free >= self.unwanted_from + u64::from(slipped(Slip::ReleaseAboveOnly)) {
            false
        } else {
            room.wanted
        };
        if wanted != room.wanted {
            room.set_wanted(wanted);
            self.become_due(now);
        }
    }

    /// PFC is due from now on, unless it is due already: then its first moment stands.
    fn become_due(&mut self, now: OctetTimes) {
        if self.due_since.is_none() || slipped(Slip::DueDatedAnew) {
            self.due_since = Some(now);
        }
        if slipped(Slip::LateMarkDatedBack) {
            let refresh = self.last_start.map(|last| last + self.refresh);
            self.due_since = self.due_since.min(refresh.or(self.due_since));
        }
    }

    /// How a walk through octet times has left the due state.
    pub fn set_due_since(&mut self, due_since: Option<OctetTimes>) {
        self.due_since = due_since;
    }

    /// The moment at which the refresh makes PFC due if nothing changes before, if there is one.
    pub fn refresh_moment(&self) -> Option<OctetTimes> {
        if self.due_since.is_some() || !self.rooms.iter().any(|room| room.wanted) {
            return None;
        }
        let more_than_i = OctetTimes(slipped(Slip::RefreshAfterI).into());
        Some(self.last_start? + self.refresh + more_than_i)
    }

    /// A PFC frame starts now: what it carries.
    pub fn start_pfc(&mut self, now: OctetTimes) -> Request {
        self.due_since = None;
        self.last_start = Some(now);
        self.requests_sent = self.requests_sent.wrapping_add(1);
        self.request()
    }

    /// e[n] for every enabled priority, T where pause is wanted and 0 elsewhere.
    fn request(&self) -> Request {
        let wanted = |n: usize| self.is_enabled(n) && self.rooms[n].wanted;
        let time = |n: usize| if wanted(n) { self.pause_time } else { 0 };
        let mut e = self.enabled;
        if slipped(Slip::OnlyWantedEnabled) {
            e = (0..PRIORITIES).fold(0, |marks, n| marks | u8::from(wanted(n)) << n);
        }
        Request {
            e,
            times: std::array::from_fn(time),
        }
    }
}

/// The sender's number: 5 where the control frame is too short, due or not, else none.
pub fn sender_refusal(due: bool, control: &[u8]) -> Option<Refusal> {
    let silent = slipped(Slip::SenderFiveOnlyWhenDue) && !due;
    (control.len() < PFC_FRAME_OCTETS && !silent).then_some(Refusal::ControlBufferTooShort)
}

/// The part the sender hands back of the two frames lent to it: the one to go.
pub fn sender_part<'a>(due: bool, control: &'a [u8], data: &'a [u8]) -> &'a [u8] {
    if sender_refusal(due, control).is_some() {
        &[]
    } else if due {
        &control[..PFC_FRAME_OCTETS]
    } else {
        data
    }
}

#[cfg(test)]
mod tests {
    use super::*;
    use crate::units::BitTimes;

    #[test]
    fn requests_sent_go_from_the_largest_count_back_to_0() {
        // W 84, one-way 168, headroom 252, so 316 is the smallest room.
        let settings = Settings {
            enabled: 1,
            largest_frame: 64,
            generation: BitTimes(0),
            request_path: BitTimes(0),
            data_path: BitTimes(0),
            pause_time: 65_535,
            refresh: OctetTimes(1),
            hysteresis: 0,
            rooms: [316; PRIORITIES],
        };
        let mut recorder = Recorder::new(&settings, &settings.accept().unwrap());
        recorder.requests_sent = 4_294_967_295;
        recorder.start_pfc(OctetTimes(1));
        assert_eq!(recorder.requests_sent(), 0);
    }
}
