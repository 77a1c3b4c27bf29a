//! The headroom sum of Annex N as document 01 states it, with light's speed as document 02's L1
//! corrects it, and Table N-1.

use crate::frame::is_no_largest_frame;
use crate::order::{refuse_first, Line};
use crate::refusal::Refusal;
use crate::slips::{slipped, Slip};
use crate::units::{BitTimes, OctetTimes, Quanta};

/// Octets that a frame holds the wire for besides its own: preamble, start and gap.
const WIRE_OVERHEAD: OctetTimes = OctetTimes(20);

/// The wire time of a PFC frame: 60 octets, 4 of FCS, 20 around them.
pub const PFC_WIRE_TIME: OctetTimes = OctetTimes(84);

/// Light's speed (document 02, L1: 299.792458 metres per microsecond).
const LIGHT_METRES_PER_SECOND: u128 = 299_792_458;

/// A rate in Mb/s is so many bits per second for each.
const BITS_PER_MEGABIT: u128 = 1_000_000;

/// The percentage at which a signal is as fast as light.
const SPEED_OF_LIGHT_PERCENTAGE: u128 = 100;

const LONGEST_LINK_METRES: u64 = 100_000;
const LONGEST_DELAY: BitTimes = BitTimes(1_048_576);
/// Refusal 14 is for a path above it.
pub const LONGEST_PATH: BitTimes = BitTimes(134_217_728);

/// Each rate in Mb/s with its halt delay limit, 614.4 ns.
const HALT_LIMITS: [(u64, Quanta); 3] = [
    (10_000, Quanta(12)),
    (40_000, Quanta(48)),
    (100_000, Quanta(120)),
];

/// How long a frame of this length (octets with FCS) holds the wire.
pub fn wire_time(length: u64) -> OctetTimes {
    OctetTimes(length) + WIRE_OVERHEAD
}

/// The inputs of the headroom sum.
#[derive(Clone, Copy, Debug)]
pub struct Inputs {
    /// Mb/s.
    pub rate: u64,
    pub metres: u64,
    /// Signal speed as a percentage of light's.
    pub percentage: u64,
    /// M, octets with FCS.
    pub largest_frame: u64,
    pub generation: BitTimes,
    pub b_transmit: BitTimes,
    pub b_receive: BitTimes,
    pub a_transmit: BitTimes,
    pub a_receive: BitTimes,
    pub halt: BitTimes,
}

impl Inputs {
    /// The bits in flight on the cable, whatever is refused.
    pub fn link(&self) -> BitTimes {
        link_bits(self.metres, self.rate, self.percentage)
    }

    /// From B's request to A's silence, with this link.
    pub fn request_path(&self, link: BitTimes) -> BitTimes {
        self.b_transmit + link + self.a_receive + self.halt
    }

    /// From A's frame to B, with this link.
    pub fn data_path(&self, link: BitTimes) -> BitTimes {
        self.a_transmit + link + self.b_receive
    }
}

/// The delays of one link in octet times, each rounded up apart.
#[derive(Clone, Copy, Debug, PartialEq, Eq)]
pub struct Delays {
    /// G.
    pub generation: OctetTimes,
    /// W, the wire time of the largest frame.
    pub wire: OctetTimes,
    /// P.
    pub request_path: OctetTimes,
    /// D.
    pub data_path: OctetTimes,
}

impl Delays {
    pub fn new(
        largest_frame: u64,
        generation: BitTimes,
        request_path: BitTimes,
        data_path: BitTimes,
    ) -> Self {
        Delays {
            generation: generation.rounded_up_to_octet_times(),
            wire: wire_time(largest_frame),
            request_path: request_path.rounded_up_to_octet_times(),
            data_path: data_path.rounded_up_to_octet_times(),
        }
    }

    pub fn one_way(&self) -> OctetTimes {
        self.generation + self.wire + PFC_WIRE_TIME + self.request_path
    }

    pub fn headroom(&self) -> OctetTimes {
        self.one_way() + self.wire + self.data_path
    }
}

/// The answer of the headroom sum.
#[derive(Clone, Copy, Debug, PartialEq, Eq)]
pub struct Headroom {
    pub link: BitTimes,
    pub request_path: BitTimes,
    pub data_path: BitTimes,
    pub total: BitTimes,
    pub delays: Delays,
}

/// The headroom sum, in bits and in octet times.
pub fn calculate(inputs: &Inputs) -> Result<Headroom, Refusal> {
    let halt_limit = halt_limit(inputs.rate);
    let link = inputs.link();
    let request_path = inputs.request_path(link);
    let data_path = inputs.data_path(link);
    refuse_first!(
        Line::Headroom,
        [
            (Refusal::Rate, halt_limit.is_none()),
            (Refusal::Metres, inputs.metres > LONGEST_LINK_METRES),
            (
                Refusal::Percentage,
                !(40..=100).contains(&inputs.percentage)
            ),
            (
                Refusal::LargestFrame,
                is_no_largest_frame(inputs.largest_frame)
            ),
            (
                Refusal::DelayTooLong,
                station_delays(inputs).into_iter().any(is_delay_too_long)
                    || is_path_too_long(request_path)
                    || is_path_too_long(data_path)
            ),
            (
                Refusal::HaltTooLong,
                halt_limit.is_some_and(|limit| inputs.halt > limit)
            ),
        ],
    )?;
    Ok(sum(inputs, link, request_path, data_path))
}

/// The sum itself, once every input is known to be within its limit.
fn sum(inputs: &Inputs, link: BitTimes, request_path: BitTimes, data_path: BitTimes) -> Headroom {
    let mut delays = Delays::new(
        inputs.largest_frame,
        inputs.generation,
        request_path,
        data_path,
    );
    let wire_bits = delays.wire.as_bit_times();
    let total = inputs.generation
        + wire_bits
        + PFC_WIRE_TIME.as_bit_times()
        + request_path
        + wire_bits
        + data_path;
    if slipped(Slip::RoundedTogether) {
        let rest = delays.one_way() + delays.wire;
        delays.data_path = OctetTimes(total.rounded_up_to_octet_times().0 - rest.0);
    }
    Headroom {
        link,
        request_path,
        data_path,
        total,
        delays,
    }
}

fn halt_limit(rate: u64) -> Option<BitTimes> {
    let (_, quanta) = HALT_LIMITS.iter().find(|(of_rate, _)| *of_rate == rate)?;
    Some(quanta.as_bit_times())
}

/// What refusal 14 tries one by one; the halt delay is no station delay.
fn station_delays(inputs: &Inputs) -> [BitTimes; 6] {
    let halt = if slipped(Slip::HaltAsStationDelay) {
        inputs.halt
    } else {
        BitTimes(0)
    };
    [
        inputs.generation,
        inputs.b_transmit,
        inputs.b_receive,
        inputs.a_transmit,
        inputs.a_receive,
        halt,
    ]
}

/// The condition of refusal 14 for a generation or station delay.
pub fn is_delay_too_long(delay: BitTimes) -> bool {
    delay > LONGEST_DELAY
}

/// The condition of refusal 14 for a path.
pub fn is_path_too_long(path: BitTimes) -> bool {
    path > LONGEST_PATH
}

/// Bits in flight on the cable: metres × rate × 100,000,000 / (percentage × 299,792,458), rounded
/// up. Of inputs that 10, 11 and 12 refuse the number decides nothing but whether 14 holds as well:
/// none is wrapped, and a signal without speed has no bits. A dividend that stays at the end of its
/// 128 bits still gives more than 2^35 bits by any divisor, which no path may have.
fn link_bits(metres: u64, rate: u64, percentage: u64) -> BitTimes {
    if percentage == 0 {
        return BitTimes(0);
    }
    // A signal takes 100 / percentage times as long as light.
    let mut slower = (SPEED_OF_LIGHT_PERCENTAGE, u128::from(percentage));
    if slipped(Slip::PercentageOnWrongSide) {
        slower = (slower.1, slower.0);
    }
    let dividend = (u128::from(metres) * u128::from(rate))
        .saturating_mul(BITS_PER_MEGABIT)
        .saturating_mul(slower.0);
    let divisor = slower.1 * light_metres_per_second();
    let mut bits = dividend.div_ceil(divisor);
    if slipped(Slip::LinkBitsRoundedDown) {
        bits = dividend / divisor;
    }
    if slipped(Slip::LinkBitsOneMore) {
        bits = dividend / divisor + 1;
    }
    BitTimes(u64::try_from(bits).unwrap_or(u64::MAX))
}

fn light_metres_per_second() -> u128 {
    if slipped(Slip::LightAt300) {
        return 300_000_000;
    }
    if slipped(Slip::LightCutShort) {
        return 299_792_000;
    }
    LIGHT_METRES_PER_SECOND
}

/// A row of Table N-1: what an interface takes for transmit and receive together.
pub struct InterfaceRow {
    pub name: &'static str,
    pub bits: BitTimes,
    pub quanta: Quanta,
}

impl InterfaceRow {
    const fn new(name: &'static str, bits: u64, quanta: u64) -> Self {
        InterfaceRow {
            name,
            bits: BitTimes(bits),
            quanta: Quanta(quanta),
        }
    }

    /// Half a row is transmit, half receive.
    pub fn each_direction(&self) -> BitTimes {
        BitTimes(self.bits.0 / 2)
    }
}

/// Table N-1.
pub const INTERFACE_ROWS: [InterfaceRow; 8] = [
    InterfaceRow::new("10G MAC Control, MAC and RS", 8_192, 16),
    InterfaceRow::new("XGXS and XAUI", 2_048, 4),
    InterfaceRow::new("10GBASE-X PCS", 2_048, 4),
    InterfaceRow::new("10GBASE-R PCS", 3_584, 7),
    InterfaceRow::new("LX4", 512, 1),
    InterfaceRow::new("CX4", 512, 1),
    InterfaceRow::new("serial PMA and PMD", 512, 1),
    InterfaceRow::new("10GBASE-T", 25_600, 50),
];
