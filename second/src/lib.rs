//! Document 01 and document 02's L1 and L2 as an independent second program: the stations, the
//! headroom sum and the bench.
//!
//! Written from those and their settled readings alone, by someone who has not read the Rattle code
//! or its definitions.

pub mod bench;
pub mod frame;
pub mod head;
pub mod headroom;
pub mod hex;
pub mod octets;
pub mod order;
pub mod recorder;
pub mod refusal;
pub mod settings;
pub mod slips;
pub mod units;
pub mod vectors;

/// The number of priorities, of timers, of rooms and of class queues.
pub const PRIORITIES: usize = 8;

/// Whether bit n of a row of eight marks is set; bit 0 is priority 0.
pub fn bit(marks: u8, n: usize) -> bool {
    marks >> n & 1 == 1
}
