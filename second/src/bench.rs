//! The two-ended bench: its records, its steps, a whole run and the report.

use std::collections::VecDeque;
use std::fmt;

use crate::frame::{self, Address, Verdict, PFC_FRAME_OCTETS, SMALLEST_M};
use crate::head::Head;
use crate::headroom::{wire_time, Delays, PFC_WIRE_TIME};
use crate::octets::Octets;
use crate::order::{refuse_first, Line};
use crate::recorder::Recorder;
use crate::refusal::{refuse_if, Refusal};
use crate::settings::Settings;
use crate::slips::{slipped, Slip};
use crate::units::{BitTimes, OctetTimes, Quanta, OCTET_TIMES_PER_QUANTUM};
use crate::PRIORITIES;

pub const LONGEST_INPUT: usize = 65_536;

/// The source of B's PFC frames.
pub const ADDRESS_OF_B: Address = [0x02, 0x00, 0x00, 0x00, 0x00, 0x0B];
pub const ADDRESS_OF_A: Address = [0x02, 0x00, 0x00, 0x00, 0x00, 0x0A];

/// Time may reach this moment, but not pass it.
const LAST_TIME: OctetTimes = OctetTimes(1 << 40);

/// How many frames may be under way in each direction.
pub const MOST_UNDER_WAY: usize = 128;

/// Stands for a moment that never comes.
const NEVER: OctetTimes = OctetTimes(u64::MAX);

/// The record that gives the settings.
pub const SETTINGS_KIND: u8 = 0x00;

/// A record after the settings, numbers as given.
#[derive(Clone, Copy, Debug, PartialEq, Eq)]
pub enum Record {
    /// 01: octet times pass.
    Wait { n: u16 },
    /// 02: A starts a data frame.
    StartData { priority: u8, length: u16 },
    /// 03: the oldest data frame reaches B.
    DataArrives,
    /// 04: B starts some other frame.
    StartOther { length: u16 },
    /// 05: B starts the PFC frame.
    StartPfc,
    /// 06: the oldest PFC frame takes effect at A.
    PfcTakesEffect,
    /// 07: B's disk takes octets.
    DiskTakes { priority: u8, octets: u16 },
}

impl Record {
    /// Writes the record as it stands in an input.
    pub fn write_to(self, input: &mut Vec<u8>) {
        match self {
            Record::Wait { n } => write_kind(input, 1, &[], Some(n)),
            Record::StartData { priority, length } => {
                write_kind(input, 2, &[priority], Some(length))
            }
            Record::DataArrives => write_kind(input, 3, &[], None),
            Record::StartOther { length } => write_kind(input, 4, &[], Some(length)),
            Record::StartPfc => write_kind(input, 5, &[], None),
            Record::PfcTakesEffect => write_kind(input, 6, &[], None),
            Record::DiskTakes { priority, octets } => {
                write_kind(input, 7, &[priority], Some(octets))
            }
        }
    }
}

fn write_kind(input: &mut Vec<u8>, kind: u8, priority: &[u8], number: Option<u16>) {
    input.push(kind);
    input.extend(priority);
    input.extend(number.map(u16::to_be_bytes).iter().flatten());
}

/// The octets of each kind's body; a kind above 07 has no body.
const BODY_OCTETS: [usize; 8] = [57, 2, 3, 0, 2, 0, 0, 3];

/// A record as the order line of records looks at it.
struct Form {
    input_too_long: bool,
    is_first: bool,
    /// None where the input is empty.
    kind: Option<u8>,
    /// How many octets stand after the kind.
    octets_left: usize,
}

impl Form {
    fn accept(&self) -> Result<(), Refusal> {
        refuse_first!(
            Line::Records,
            [
                (Refusal::InputTooLong, self.input_too_long),
                (
                    Refusal::SettingsMissingOrRepeated,
                    self.lacks_or_repeats_settings()
                ),
                (Refusal::KindAbove7, self.kind.is_some_and(|kind| kind > 7)),
                (Refusal::BodyCutShort, self.is_cut_short()),
            ],
        )
    }

    fn lacks_or_repeats_settings(&self) -> bool {
        let is_settings = self.kind.is_some_and(|kind| kind == SETTINGS_KIND);
        let spared = slipped(Slip::CutSettingsGive31) && is_settings && self.is_cut_short();
        is_settings != self.is_first && !spared
    }

    fn is_cut_short(&self) -> bool {
        let octets = self
            .kind
            .and_then(|kind| BODY_OCTETS.get(usize::from(kind)));
        octets.is_some_and(|&octets| self.octets_left < octets)
    }
}

/// What a record whose form is accepted always has.
const WHOLE_BODY: &str = "a body that is not cut short";

/// Takes the settings, the first record, from the front of the input.
fn take_settings(input: &mut Octets) -> Result<Settings, Refusal> {
    let form = Form {
        input_too_long: input.count() > LONGEST_INPUT,
        is_first: true,
        kind: input.number1(),
        octets_left: input.count(),
    };
    form.accept()?;
    Ok(settings_body(input).expect(WHOLE_BODY))
}

fn settings_body(input: &mut Octets) -> Option<Settings> {
    let mut settings = Settings {
        enabled: input.number1()?,
        largest_frame: input.number2()?.into(),
        generation: BitTimes(input.number4()?.into()),
        request_path: BitTimes(input.number4()?.into()),
        data_path: BitTimes(input.number4()?.into()),
        pause_time: input.number2()?,
        refresh: OctetTimes(input.number4()?.into()),
        hysteresis: input.number4()?.into(),
        rooms: [0; PRIORITIES],
    };
    for room in &mut settings.rooms {
        *room = input.number4()?.into();
    }
    Some(settings)
}

/// Takes a later record of this kind from the input, which stands after the octet of kind.
fn take_record(kind: u8, input: &mut Octets) -> Result<Record, Refusal> {
    let form = Form {
        // An input that is too long has been refused at its first record.
        input_too_long: false,
        is_first: false,
        kind: Some(kind),
        octets_left: input.count(),
    };
    form.accept()?;
    Ok(record_body(kind, input).expect(WHOLE_BODY))
}

fn record_body(kind: u8, input: &mut Octets) -> Option<Record> {
    Some(match kind {
        1 => Record::Wait {
            n: input.number2()?,
        },
        2 => Record::StartData {
            priority: input.number1()?,
            length: input.number2()?,
        },
        3 => Record::DataArrives,
        4 => Record::StartOther {
            length: input.number2()?,
        },
        5 => Record::StartPfc,
        6 => Record::PfcTakesEffect,
        _ => Record::DiskTakes {
            priority: input.number1()?,
            octets: input.number2()?,
        },
    })
}

/// A data frame that A started.
#[derive(Clone, Copy, Debug)]
pub struct DataFrame {
    pub priority: u8,
    pub length: u16,
}

/// One direction of the link: its wire and the frames under way, oldest first.
#[derive(Clone, Debug)]
pub struct Direction<Frame> {
    wire_free_from: OctetTimes,
    /// Each with the moment its wire time ends.
    under_way: VecDeque<(Frame, OctetTimes)>,
    /// How long after its wire time a frame must have arrived at the latest.
    path: OctetTimes,
}

impl<Frame> Direction<Frame> {
    fn new(path: OctetTimes) -> Self {
        Direction {
            wire_free_from: OctetTimes(0),
            under_way: VecDeque::with_capacity(MOST_UNDER_WAY),
            path,
        }
    }

    /// The first moment at which the wire is free.
    pub fn wire_free_from(&self) -> OctetTimes {
        self.wire_free_from
    }

    pub fn under_way(&self) -> usize {
        self.under_way.len()
    }

    /// The moment at which the oldest frame's wire time ends.
    pub fn oldest_ends(&self) -> Option<OctetTimes> {
        self.under_way.front().map(|(_, end)| *end)
    }

    /// The moment by which the oldest frame must have arrived. Frames end in the order they
    /// start, so no younger frame must arrive earlier.
    pub fn oldest_bound(&self) -> Option<OctetTimes> {
        self.oldest_ends().map(|end| end + self.path)
    }

    fn is_busy(&self, now: OctetTimes) -> bool {
        let mut is_free = now >= self.wire_free_from;
        if slipped(Slip::WireFreeOneLater) {
            is_free &= now != self.wire_free_from || now == OctetTimes(0);
        }
        !is_free
    }

    /// Whether as many frames are under way as may be.
    fn is_full(&self) -> bool {
        let most = MOST_UNDER_WAY - usize::from(slipped(Slip::Only127UnderWay));
        self.under_way.len() >= most
    }

    /// The wire is held from now on.
    fn hold_wire(&mut self, now: OctetTimes, wire_time: OctetTimes) {
        self.wire_free_from = now + wire_time;
    }

    fn start(&mut self, frame: Frame, now: OctetTimes, wire_time: OctetTimes) {
        self.hold_wire(now, wire_time);
        self.under_way.push_back((frame, self.wire_free_from));
    }

    /// Takes the oldest frame, if its wire time has ended.
    fn take_oldest(&mut self, now: OctetTimes) -> Result<Frame, Refusal> {
        let has_ended = self.oldest_ends().is_some_and(|end| end <= now);
        refuse_if(!has_ended, Refusal::NoneEnded)?;
        let (frame, _) = self.under_way.pop_front().expect("it has an end");
        Ok(frame)
    }
}

/// Both ends of the link and what is under way between them.
#[derive(Clone, Debug)]
pub struct Bench {
    settings: Settings,
    delays: Delays,
    time: OctetTimes,
    head: Head,
    recorder: Recorder,
    /// From A to B.
    data: Direction<DataFrame>,
    /// From B to A.
    requests: Direction<[u8; PFC_FRAME_OCTETS]>,
}

impl Bench {
    /// The empty state at time 0, if the settings are accepted.
    pub fn new(settings: Settings) -> Result<Self, Refusal> {
        let delays = settings.accept()?;
        let (mut data_path, mut request_path) = (delays.data_path, delays.request_path);
        if slipped(Slip::PathsSwapped) {
            std::mem::swap(&mut data_path, &mut request_path);
        }
        Ok(Bench {
            head: Head::new(settings.enabled),
            recorder: Recorder::new(&settings, &delays),
            data: Direction::new(data_path),
            requests: Direction::new(request_path),
            time: OctetTimes(0),
            settings,
            delays,
        })
    }

    /// The empty state at a later time: for trying refusal 41, which no input reaches.
    pub fn starting_at(settings: Settings, time: OctetTimes) -> Result<Self, Refusal> {
        let bench = Bench::new(settings)?;
        Ok(Bench { time, ..bench })
    }

    pub fn settings(&self) -> &Settings {
        &self.settings
    }

    pub fn delays(&self) -> &Delays {
        &self.delays
    }

    pub fn time(&self) -> OctetTimes {
        self.time
    }

    pub fn head(&self) -> &Head {
        &self.head
    }

    pub fn recorder(&self) -> &Recorder {
        &self.recorder
    }

    /// The wire from A to B and the data frames under way.
    pub fn data_direction(&self) -> &Direction<DataFrame> {
        &self.data
    }

    /// The wire from B to A and the PFC frames under way.
    pub fn request_direction(&self) -> &Direction<[u8; PFC_FRAME_OCTETS]> {
        &self.requests
    }

    /// Does one record; a refusal changes nothing.
    pub fn step(&mut self, record: Record) -> Result<(), Refusal> {
        match record {
            Record::Wait { n } => self.wait(n),
            Record::StartData { priority, length } => self.start_data(priority, length),
            Record::DataArrives => self.data_arrives(),
            Record::StartOther { length } => self.start_other(length),
            Record::StartPfc => self.start_pfc(),
            Record::PfcTakesEffect => self.pfc_takes_effect(),
            Record::DiskTakes { priority, octets } => self.disk_takes(priority, octets),
        }
    }

    /// Walks n octet times one by one. The walk goes on copies, so that n is taken whole or not
    /// at all; nothing arrives in it, so the bound of the frames under way stays what it is.
    fn wait(&mut self, n: u16) -> Result<(), Refusal> {
        // The order of kind 01: 41, 40. No input reaches 41, so no slip of it could be noticed.
        let end = self.time + OctetTimes(n.into());
        refuse_if(end > LAST_TIME, Refusal::TimeTooLate)?;
        let mut due_since = self.recorder.due_since();
        let mut bound = self.bound(due_since);
        let mut refresh_moment = self.refresh_moment(end);
        // Up to here neither the refresh nor the bound is felt; I is at least 1, so is the moment.
        let mut quiet_until = bound.min(OctetTimes(refresh_moment.0 - 1));
        let mut head = self.head;
        let mut now = self.time;
        while now < end {
            now.0 += 1;
            if now.ends_a_quantum() {
                head.pass(Quanta(1));
            }
            if now <= quiet_until {
                continue;
            }
            if now >= refresh_moment {
                due_since = Some(now);
                refresh_moment = NEVER;
                bound = self.bound_from_refresh(due_since, bound);
                quiet_until = bound;
            }
            if now > bound {
                return Err(Refusal::BoundOverrun);
            }
        }
        if slipped(Slip::QuantaByWait) {
            head = self.head;
            head.pass(Quanta(u64::from(n) / OCTET_TIMES_PER_QUANTUM));
        }
        self.time = end;
        self.head = head;
        self.recorder.set_due_since(due_since);
        Ok(())
    }

    /// Time may reach this moment, but not pass it in the state as it is, PFC due since then.
    fn bound(&self, due_since: Option<OctetTimes>) -> OctetTimes {
        // What is not there stands at NEVER before any two are compared. A row of `Option`s compiles
        // to jumps on what was never set, which valgrind reports though no answer hangs on it.
        let data_bound = self.data.oldest_bound().unwrap_or(NEVER);
        let request_bound = self.requests.oldest_bound().unwrap_or(NEVER);
        let due_bound =
            due_since.map_or(NEVER, |due| due + self.delays.generation + self.delays.wire);
        let earliest = data_bound.min(request_bound).min(due_bound);
        OctetTimes(earliest.0 - u64::from(slipped(Slip::BoundsExclusive)))
    }

    /// The bound once the refresh has made PFC due inside a wait.
    fn bound_from_refresh(&self, due_since: Option<OctetTimes>, before: OctetTimes) -> OctetTimes {
        if slipped(Slip::RefreshBoundForgotten) {
            return before;
        }
        self.bound(due_since)
    }

    /// When the refresh makes PFC due in a wait to this end, if it does.
    fn refresh_moment(&self, end: OctetTimes) -> OctetTimes {
        let moment = self.recorder.refresh_moment().unwrap_or(NEVER);
        if slipped(Slip::RefreshUnseenInWait) && moment < end {
            return end;
        }
        moment
    }

    fn start_data(&mut self, priority: u8, length: u16) -> Result<(), Refusal> {
        refuse_first!(
            Line::Kind02,
            [
                (Refusal::PriorityAbove7, priority > 7),
                (Refusal::Length, self.is_no_length(length)),
                (Refusal::WireBusy, self.data.is_busy(self.time)),
                (Refusal::PausedAtA, self.head.is_paused(priority.into())),
                (Refusal::TooManyUnderWay, self.data.is_full()),
            ],
        )?;
        let frame = DataFrame { priority, length };
        self.data
            .start(frame, self.time, wire_time(u64::from(length)));
        Ok(())
    }

    fn data_arrives(&mut self) -> Result<(), Refusal> {
        let frame = self.data.take_oldest(self.time)?;
        self.recorder
            .arrive(frame.priority.into(), frame.length.into(), self.time);
        Ok(())
    }

    /// Some other frame of B only holds the wire.
    fn start_other(&mut self, length: u16) -> Result<(), Refusal> {
        refuse_first!(
            Line::Kind04,
            [
                (Refusal::Length, self.is_no_length(length)),
                (Refusal::WireBusy, self.requests.is_busy(self.time)),
                (Refusal::OtherFrameTooLate, self.is_too_late_for_other()),
            ],
        )?;
        self.requests
            .hold_wire(self.time, wire_time(u64::from(length)));
        Ok(())
    }

    /// Whether PFC has been due for more than G.
    fn is_too_late_for_other(&self) -> bool {
        let Some(due_since) = self.recorder.due_since() else {
            return false;
        };
        let latest = due_since + self.delays.generation;
        if slipped(Slip::OtherFrameOneLater) {
            return self.time > latest + OctetTimes(1);
        }
        if slipped(Slip::OtherFrameOneEarlier) {
            return self.time >= latest;
        }
        self.time > latest
    }

    fn start_pfc(&mut self) -> Result<(), Refusal> {
        refuse_first!(
            Line::Kind05,
            [
                (Refusal::NotDue, self.recorder.due_since().is_none()),
                (Refusal::WireBusy, self.requests.is_busy(self.time)),
                (Refusal::TooManyUnderWay, self.requests.is_full()),
            ],
        )?;
        let request = self.recorder.start_pfc(self.time);
        let mut octets = [0; PFC_FRAME_OCTETS];
        frame::build(&ADDRESS_OF_B, &request, &mut octets)
            .expect("60 octets are enough and B's address has no group bit");
        let wire_time = if slipped(Slip::PfcWireOf80) {
            OctetTimes(80)
        } else {
            PFC_WIRE_TIME
        };
        self.requests.start(octets, self.time, wire_time);
        Ok(())
    }

    fn pfc_takes_effect(&mut self) -> Result<(), Refusal> {
        let octets = self.requests.take_oldest(self.time)?;
        match frame::verdict(self.settings.largest_frame, &ADDRESS_OF_A, &octets) {
            Ok(Verdict::Request(request)) => self.head.take_request(&request),
            other => unreachable!("a frame we build reads back as a request, not as {other:?}"),
        }
        Ok(())
    }

    fn disk_takes(&mut self, priority: u8, octets: u16) -> Result<(), Refusal> {
        self.recorder
            .take(priority.into(), octets.into(), self.time)
    }

    fn is_no_length(&self, length: u16) -> bool {
        let allowed = SMALLEST_M..=self.settings.largest_frame;
        !allowed.contains(&length.into())
    }
}

/// What the bench program prints.
#[derive(Clone, Debug, Default, PartialEq, Eq)]
pub struct Report {
    /// Records accepted after the settings.
    pub steps: u64,
    pub time: OctetTimes,
    pub refusal: Option<Refusal>,
    /// The refused record's number; the settings are record 0.
    pub at: u64,
    /// One for each enabled priority, rising; none where there is no accepted state.
    pub lines: Vec<PriorityLine>,
}

/// The report of one enabled priority.
#[derive(Clone, Copy, Debug, PartialEq, Eq)]
pub struct PriorityLine {
    pub priority: usize,
    pub held: u64,
    pub dropped: u64,
    pub worst: u64,
    /// A's timer in quanta.
    pub paused: u16,
}

impl Report {
    /// Line 1 alone: settings refused or missing, or input too long.
    fn without_state(refusal: Refusal) -> Self {
        Report {
            refusal: Some(refusal),
            ..Report::default()
        }
    }

    fn of(bench: &Bench, steps: u64, refusal: Option<Refusal>) -> Self {
        Report {
            steps,
            time: bench.time,
            refusal,
            at: refusal.map_or(0, |_| steps + 1),
            lines: (0..PRIORITIES)
                .filter(|&n| bench.recorder.is_enabled(n))
                .map(|n| PriorityLine::of(bench, n))
                .collect(),
        }
    }
}

impl PriorityLine {
    fn of(bench: &Bench, priority: usize) -> Self {
        let room = bench.recorder.room(priority);
        PriorityLine {
            priority,
            held: room.held,
            dropped: room.dropped,
            worst: room.worst,
            paused: bench.head.timers[priority],
        }
    }
}

impl fmt::Display for Report {
    fn fmt(&self, f: &mut fmt::Formatter<'_>) -> fmt::Result {
        let number = self.refusal.map_or(0, Refusal::number);
        let (steps, time, at) = (self.steps, self.time.0, self.at);
        writeln!(f, "steps {steps} time {time} refusal {number} at {at}")?;
        for line in &self.lines {
            writeln!(
                f,
                "{} held {} dropped {} worst {} paused {}",
                line.priority, line.held, line.dropped, line.worst, line.paused
            )?;
        }
        Ok(())
    }
}

/// Runs a whole input and stops at the first refusal.
pub fn run(input: &[u8]) -> Report {
    run_watched(input, |_, _| ())
}

/// As `run`; the watcher sees each accepted record and the state after it.
pub fn run_watched(input: &[u8], mut watcher: impl FnMut(Record, &Bench)) -> Report {
    let mut input = Octets::new(input);
    let mut bench = match take_settings(&mut input).and_then(Bench::new) {
        Ok(bench) => bench,
        Err(refusal) => return Report::without_state(refusal),
    };
    let mut steps = 0;
    while let Some(kind) = input.number1() {
        let record = match take_record(kind, &mut input) {
            Ok(record) => record,
            Err(refusal) => return Report::of(&bench, steps, Some(refusal)),
        };
        if let Err(refusal) = bench.step(record) {
            return Report::of(&bench, steps, Some(refusal));
        }
        watcher(record, &bench);
        steps += step_count(record);
    }
    Report::of(&bench, steps, None)
}

/// Each accepted record is one step, a wait of 0 too.
fn step_count(record: Record) -> u64 {
    let uncounted = slipped(Slip::WaitOfZeroNotCounted) && record == Record::Wait { n: 0 };
    u64::from(!uncounted)
}
