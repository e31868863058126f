//! Numbers that look random, for the jobs of the comparisons.

/// The kinds of coordinates.
pub const KINDS: usize = 7;

/// A small generator with a fixed seed, so that each run sees the same jobs.
pub struct Random(pub u64);

impl Random {
    pub fn next(&mut self) -> u64 {
        self.0 ^= self.0 << 13;
        self.0 ^= self.0 >> 7;
        self.0 ^= self.0 << 17;
        self.0
    }

    pub fn below(&mut self, n: usize) -> usize {
        (self.next() % n as u64) as usize
    }

    fn unit(&mut self) -> f64 {
        (self.next() >> 11) as f64 / (1u64 << 53) as f64
    }

    /// A coordinate: smooth, on a lattice, one of the values at the edges of the format, subnormal, of any size, so small that each squared
    /// distance is zero, or so large that it is infinite.
    pub fn coordinate(&mut self, kind: usize) -> f64 {
        match kind {
            0 => self.unit() * 2000.0 - 1000.0,
            1 => self.below(5) as f64,
            2 => [0.0, -0.0, 1.0, 5e-324, -5e-324, 1e308, -1e308, 2.2250738585072014e-308][self.below(8)],
            3 => self.unit() * 1e-310,
            5 => (self.below(9) as f64 - 4.0) * 1e-170,
            6 => (self.below(9) as f64 - 4.0) * 1e200,
            _ => (self.unit() - 0.5) * 10f64.powi(self.below(40) as i32 - 20),
        }
    }
}
