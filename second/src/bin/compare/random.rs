//! A small generator of random numbers (splitmix64), the same row for the same seed.

pub struct Random(u64);

impl Random {
    pub fn new(seed: u64) -> Self {
        Random(seed)
    }

    /// The generator of one run, so that each run can be made again without those before it.
    pub fn of_run(seed: u64, run: u64) -> Self {
        let mut random = Random(seed ^ run.wrapping_mul(0xA24B_AED4_963E_E407));
        random.next();
        random
    }

    pub fn next(&mut self) -> u64 {
        self.0 = self.0.wrapping_add(0x9E37_79B9_7F4A_7C15);
        let mut mixed = self.0;
        mixed = (mixed ^ mixed >> 30).wrapping_mul(0xBF58_476D_1CE4_E5B9);
        mixed = (mixed ^ mixed >> 27).wrapping_mul(0x94D0_49BB_1331_11EB);
        mixed ^ mixed >> 31
    }

    /// A number from `low` to `high`, both included.
    pub fn between(&mut self, low: u64, high: u64) -> u64 {
        let span = (high - low).wrapping_add(1);
        if span == 0 {
            return self.next();
        }
        low + self.next() % span
    }

    /// True once in `times`.
    pub fn once_in(&mut self, times: u64) -> bool {
        self.next().is_multiple_of(times)
    }

    pub fn pick<T: Copy>(&mut self, from: &[T]) -> T {
        from[self.between(0, from.len() as u64 - 1) as usize]
    }

    /// One of these edges, or now and then any number from `low` to `high`.
    pub fn edge_or_between(&mut self, edges: &[u64], low: u64, high: u64) -> u64 {
        if self.once_in(edges.len() as u64 + 1) {
            return self.between(low, high);
        }
        self.pick(edges)
    }

    pub fn octet(&mut self) -> u8 {
        self.next() as u8
    }

    pub fn number2(&mut self) -> u16 {
        self.next() as u16
    }

    pub fn octets(&mut self, count: usize) -> Vec<u8> {
        (0..count).map(|_| self.octet()).collect()
    }

    /// A number whose width is itself random, so that small ones are as likely as large ones.
    pub fn of_any_width(&mut self, bits: u32) -> u64 {
        let width = self.between(0, bits.into()) as u32;
        if width == 0 {
            return 0;
        }
        self.next() >> (64 - width)
    }
}
