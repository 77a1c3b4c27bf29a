//! Takes numbers, most significant octet first, from the front of a row of octets.

use crate::PRIORITIES;

/// What is left of a row of octets. Every taking answers nothing where too few octets are left.
pub struct Octets<'a> {
    rest: &'a [u8],
}

impl<'a> Octets<'a> {
    pub fn new(row: &'a [u8]) -> Self {
        Octets { rest: row }
    }

    /// How many octets are left.
    pub fn count(&self) -> usize {
        self.rest.len()
    }

    pub fn take(&mut self, count: usize) -> Option<&'a [u8]> {
        let (taken, rest) = self.rest.split_at_checked(count)?;
        self.rest = rest;
        Some(taken)
    }

    pub fn array<const N: usize>(&mut self) -> Option<[u8; N]> {
        self.take(N)?.try_into().ok()
    }

    pub fn number1(&mut self) -> Option<u8> {
        self.array().map(u8::from_be_bytes)
    }

    pub fn number2(&mut self) -> Option<u16> {
        self.array().map(u16::from_be_bytes)
    }

    pub fn number4(&mut self) -> Option<u32> {
        self.array().map(u32::from_be_bytes)
    }

    pub fn number8(&mut self) -> Option<u64> {
        self.array().map(u64::from_be_bytes)
    }

    /// One number of two octets for each priority.
    pub fn numbers2(&mut self) -> Option<[u16; PRIORITIES]> {
        let mut numbers = [0; PRIORITIES];
        for number in &mut numbers {
            *number = self.number2()?;
        }
        Some(numbers)
    }

    pub fn rest(self) -> &'a [u8] {
        self.rest
    }
}
