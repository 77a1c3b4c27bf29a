//! The settings record of the bench, field by field, for making and shrinking it.

use second::bench::SETTINGS_KIND;
use second::headroom::Delays;
use second::octets::Octets;
use second::settings::Settings;
use second::units::{BitTimes, OctetTimes, OCTET_TIMES_PER_QUANTUM};
use second::PRIORITIES;

use crate::random::Random;

#[derive(Clone, Copy)]
pub struct SettingsRecord {
    pub enabled: u8,
    pub m: u16,
    pub generation: u32,
    pub request_path: u32,
    pub data_path: u32,
    pub t: u16,
    pub i: u32,
    pub hysteresis: u32,
    pub rooms: [u32; PRIORITIES],
}

pub const SETTINGS_OCTETS: usize = 58;

/// The width in octets of each number of the body, after the octet of kind.
pub const FIELD_WIDTHS: [usize; 16] = [1, 2, 4, 4, 4, 2, 4, 4, 4, 4, 4, 4, 4, 4, 4, 4];

const DELAY_LIMIT: u32 = 1_048_576;
const PATH_LIMIT: u32 = 134_217_728;
const REFRESH_LIMIT: u32 = 4_194_304;
const ROOM_LIMIT: u32 = 1_073_741_824;

impl SettingsRecord {
    pub fn octets(&self) -> Vec<u8> {
        let mut octets = vec![SETTINGS_KIND, self.enabled];
        octets.extend(self.m.to_be_bytes());
        for number in [self.generation, self.request_path, self.data_path] {
            octets.extend(number.to_be_bytes());
        }
        octets.extend(self.t.to_be_bytes());
        for number in [self.i, self.hysteresis] {
            octets.extend(number.to_be_bytes());
        }
        for room in self.rooms {
            octets.extend(room.to_be_bytes());
        }
        octets
    }

    /// The settings with which an input starts, if it does.
    pub fn at_the_front_of(input: &[u8]) -> Option<Self> {
        let mut octets = Octets::new(input);
        if octets.number1()? != SETTINGS_KIND {
            return None;
        }
        let mut record = SettingsRecord {
            enabled: octets.number1()?,
            m: octets.number2()?,
            generation: octets.number4()?,
            request_path: octets.number4()?,
            data_path: octets.number4()?,
            t: octets.number2()?,
            i: octets.number4()?,
            hysteresis: octets.number4()?,
            rooms: [0; PRIORITIES],
        };
        for room in &mut record.rooms {
            *room = octets.number4()?;
        }
        Some(record)
    }

    pub fn settings(&self) -> Settings {
        Settings {
            enabled: self.enabled,
            largest_frame: self.m.into(),
            generation: BitTimes(self.generation.into()),
            request_path: BitTimes(self.request_path.into()),
            data_path: BitTimes(self.data_path.into()),
            pause_time: self.t,
            refresh: OctetTimes(self.i.into()),
            hysteresis: self.hysteresis.into(),
            rooms: self.rooms.map(u64::from),
        }
    }

    pub fn delays(&self) -> Delays {
        let settings = self.settings();
        Delays::new(
            settings.largest_frame,
            settings.generation,
            settings.request_path,
            settings.data_path,
        )
    }

    /// The smallest T that refusal 16 lets pass; it may be wider than T can be.
    fn smallest_t(&self) -> u64 {
        let needed = u64::from(self.i) + self.delays().one_way().0 + OCTET_TIMES_PER_QUANTUM;
        needed.div_ceil(OCTET_TIMES_PER_QUANTUM)
    }

    /// The smallest room that refusal 15 lets pass.
    fn smallest_room(&self) -> u64 {
        self.settings().unwanted_from(&self.delays())
    }
}

/// Settings that are accepted, near their limits as often as not.
pub fn accepted(random: &mut Random) -> SettingsRecord {
    loop {
        let record = proposed(random);
        if record.settings().accept().is_ok() {
            return record;
        }
    }
}

/// Settings with small delays, so that a short run pauses, refreshes and resumes.
pub fn accepted_small(random: &mut Random) -> SettingsRecord {
    loop {
        let mut record = proposed(random);
        record.m = random.between(64, 200) as u16;
        record.generation = random.between(0, 800) as u32;
        record.request_path = random.between(0, 2_000) as u32;
        record.data_path = random.between(0, 2_000) as u32;
        record.i = random.pick(&[1, 50, 84, 85, 200, 1_000]);
        record.hysteresis = random.pick(&[0, 0, 1, 64, 100]);
        fit_t_and_rooms(random, &mut record);
        if record.settings().accept().is_ok() && record.enabled != 0 {
            return record;
        }
    }
}

/// Settings of which nearly all are accepted.
fn proposed(random: &mut Random) -> SettingsRecord {
    let mut record = SettingsRecord {
        enabled: enabled(random),
        m: largest_frame(random),
        generation: delay(random, DELAY_LIMIT),
        request_path: delay(random, 33_000_000),
        data_path: delay(random, PATH_LIMIT),
        t: 0,
        i: refresh(random),
        hysteresis: hysteresis(random),
        rooms: [0; PRIORITIES],
    };
    fit_t_and_rooms(random, &mut record);
    record
}

fn enabled(random: &mut Random) -> u8 {
    match random.between(0, 9) {
        0 => 0xFF,
        1 => 0x00,
        2..=5 => 1 << random.between(0, 7),
        _ => random.octet(),
    }
}

fn largest_frame(random: &mut Random) -> u16 {
    match random.between(0, 5) {
        0 => 64,
        1 => random.pick(&[65, 512, 1_518, 2_000, 9_215, 9_216]),
        2 => random.between(64, 9_216) as u16,
        _ => random.between(64, 300) as u16,
    }
}

fn delay(random: &mut Random, limit: u32) -> u32 {
    match random.between(0, 9) {
        0 => 0,
        1 => random.between(1, 17) as u32,
        2 => limit - random.between(0, 9) as u32,
        3 => random.between(0, limit.into()) as u32,
        // Long enough for 128 frames under way.
        4 => random.between(90_000, 200_000) as u32,
        _ => random.between(0, 20_000) as u32,
    }
}

fn refresh(random: &mut Random) -> u32 {
    match random.between(0, 7) {
        0 => random.pick(&[1, 2, 63, 64, 65, 83, 84, 85]),
        1 => random.of_any_width(22) as u32 + 1,
        _ => random.between(1, 4_000) as u32,
    }
}

fn hysteresis(random: &mut Random) -> u32 {
    match random.between(0, 5) {
        0 => 1,
        1 => random.between(0, 300) as u32,
        2 => random.of_any_width(29) as u32,
        _ => 0,
    }
}

/// T at the edge of refusal 16, above it or at its largest; rooms at the edge of 15 or above.
fn fit_t_and_rooms(random: &mut Random, record: &mut SettingsRecord) {
    let smallest_t = record.smallest_t();
    if smallest_t <= 65_535 {
        record.t = match random.between(0, 3) {
            0 => 65_535,
            1 => random.between(smallest_t, 65_535) as u16,
            _ => smallest_t as u16,
        };
        if random.once_in(2) {
            stretch_i_to_the_edge(record);
        }
    }
    let smallest_room = record.smallest_room();
    for n in 0..PRIORITIES {
        record.rooms[n] = if record.enabled >> n & 1 == 1 {
            room(random, smallest_room, record.m)
        } else {
            random.pick(&[0, u32::MAX, ROOM_LIMIT + 1])
        };
    }
}

/// Makes 64T exactly I + one-way + 64, as far as refusal 17 allows.
fn stretch_i_to_the_edge(record: &mut SettingsRecord) {
    let t = u64::from(record.t) * OCTET_TIMES_PER_QUANTUM;
    let rest = record.delays().one_way().0 + OCTET_TIMES_PER_QUANTUM;
    let stretched = (t - rest).min(REFRESH_LIMIT.into());
    // Only a little: a far refresh would not come in a short run.
    if stretched < u64::from(record.i) + OCTET_TIMES_PER_QUANTUM {
        record.i = stretched as u32;
    }
}

fn room(random: &mut Random, smallest: u64, m: u16) -> u32 {
    let more = match random.between(0, 7) {
        0 => 1,
        1 => 63,
        2 => 64,
        3 => random.between(0, 20 * u64::from(m)),
        4 => random.of_any_width(29),
        _ => 0,
    };
    (smallest + more).min(u32::MAX.into()) as u32
}

/// Settings with one field or two just on or past a limit, T and rooms fitted before or after.
pub fn near_limits(random: &mut Random) -> SettingsRecord {
    let mut record = proposed(random);
    for _ in 0..random.between(1, 3) {
        bring_near_a_limit(random, &mut record);
    }
    if random.once_in(3) {
        fit_t_and_rooms(random, &mut record);
    }
    for _ in 0..random.between(0, 1) {
        bring_near_a_limit(random, &mut record);
    }
    record
}

fn bring_near_a_limit(random: &mut Random, record: &mut SettingsRecord) {
    let path = random.pick(&[PATH_LIMIT - 1, PATH_LIMIT, PATH_LIMIT + 1, u32::MAX]);
    match random.between(0, 10) {
        0 => record.m = random.pick(&[0, 63, 64, 9_216, 9_217, u16::MAX]),
        1 => record.generation = random.pick(&[DELAY_LIMIT, DELAY_LIMIT + 1, u32::MAX]),
        2 => record.request_path = path,
        3 => record.data_path = path,
        4 => record.i = random.pick(&[0, 1, REFRESH_LIMIT, REFRESH_LIMIT + 1, u32::MAX]),
        5 => record.hysteresis = random.pick(&[ROOM_LIMIT, ROOM_LIMIT + 1, u32::MAX]),
        6 => {
            let n = random.between(0, 7) as usize;
            record.rooms[n] = random.pick(&[ROOM_LIMIT, ROOM_LIMIT + 1, u32::MAX, 0]);
        }
        7 | 8 => {
            let t = record.smallest_t().min(65_535);
            record.t = t.saturating_sub(random.between(0, 1)) as u16;
        }
        _ => {
            let room = record.smallest_room().min(u64::from(u32::MAX)) as u32;
            let n = random.between(0, 7) as usize;
            record.rooms[n] = room.saturating_sub(random.between(0, 1) as u32);
        }
    }
}
