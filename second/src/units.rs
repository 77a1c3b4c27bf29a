//! The three counts of document 01, kept apart by type, and the named conversions between them.

use std::ops::Add;

/// A count of bit times.
#[derive(Clone, Copy, Debug, Default, PartialEq, Eq, PartialOrd, Ord)]
pub struct BitTimes(pub u64);

/// A count of octet times (8 bit times each), or a moment counted in them from the start.
#[derive(Clone, Copy, Debug, Default, PartialEq, Eq, PartialOrd, Ord)]
pub struct OctetTimes(pub u64);

/// A count of pause quanta (512 bit times each).
#[derive(Clone, Copy, Debug, Default, PartialEq, Eq, PartialOrd, Ord)]
pub struct Quanta(pub u64);

pub const BITS_PER_OCTET: u64 = 8;
pub const BITS_PER_QUANTUM: u64 = 512;
pub const OCTET_TIMES_PER_QUANTUM: u64 = BITS_PER_QUANTUM / BITS_PER_OCTET;

impl BitTimes {
    pub const fn rounded_up_to_octet_times(self) -> OctetTimes {
        OctetTimes(self.0.div_ceil(BITS_PER_OCTET))
    }
}

impl OctetTimes {
    pub const fn as_bit_times(self) -> BitTimes {
        BitTimes(self.0 * BITS_PER_OCTET)
    }

    /// The octets that a wire carries in this time.
    pub const fn octets_carried(self) -> u64 {
        self.0
    }

    /// Whether a quantum passes at A when time reaches this moment.
    pub const fn ends_a_quantum(self) -> bool {
        self.0 != 0 && self.0.is_multiple_of(OCTET_TIMES_PER_QUANTUM)
    }
}

impl Quanta {
    pub const fn as_bit_times(self) -> BitTimes {
        BitTimes(self.0 * BITS_PER_QUANTUM)
    }

    pub const fn as_octet_times(self) -> OctetTimes {
        OctetTimes(self.0 * OCTET_TIMES_PER_QUANTUM)
    }
}

// A sum wider than the type stays at its end, past every limit, and is never wrapped.

impl Add for BitTimes {
    type Output = BitTimes;
    fn add(self, other: BitTimes) -> BitTimes {
        BitTimes(self.0.saturating_add(other.0))
    }
}

impl Add for OctetTimes {
    type Output = OctetTimes;
    fn add(self, other: OctetTimes) -> OctetTimes {
        OctetTimes(self.0.saturating_add(other.0))
    }
}
