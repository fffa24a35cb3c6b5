//! Numbers in a fixed order that a seed gives.

pub struct Numbers(u64);

impl Numbers {
    pub fn new(seed: u64) -> Self {
        // The odd factor keeps near seeds apart, and no seed in use gives 0, at which the order would stand still.
        Self(seed.wrapping_add(1).wrapping_mul(0x9e37_79b9_7f4a_7c15))
    }

    pub fn bits(&mut self) -> u64 {
        self.0 ^= self.0 << 13;
        self.0 ^= self.0 >> 7;
        self.0 ^= self.0 << 17;
        self.0
    }

    /// One of 0 to n - 1.
    pub fn below(&mut self, n: usize) -> usize {
        ((self.bits() >> 16) % n as u64) as usize
    }

    pub fn one_in(&mut self, n: usize) -> bool {
        self.below(n) == 0
    }

    pub fn one_of<T: Copy>(&mut self, of: &[T]) -> T {
        of[self.below(of.len())]
    }

    /// From 0 to 1.
    pub fn unit(&mut self) -> f64 {
        (self.bits() >> 11) as f64 / (1u64 << 53) as f64
    }

    /// From -size to size.
    pub fn within(&mut self, size: f64) -> f64 {
        size * (2.0 * self.unit() - 1.0)
    }

    /// Any finite number, each exponent as likely as another: subnormal and huge ones too.
    pub fn finite(&mut self) -> f64 {
        f64::from_bits(self.bits() & !(0x7ff << 52) | (self.bits() >> 8) % 2047 << 52)
    }

    /// Mostly of ordinary size; zeros of both signs; any exponent; where `damaged`, infinities and not-a-numbers too.
    pub fn number(&mut self, damaged: bool) -> f64 {
        match self.below(64) {
            0..=5 => 0.0,
            6..=9 => -0.0,
            10..=13 => self.finite(),
            14 if damaged => f64::INFINITY,
            15 if damaged => f64::NEG_INFINITY,
            16 if damaged => f64::NAN,
            _ => self.within(1.0),
        }
    }

    pub fn array<const N: usize>(&mut self, damaged: bool) -> [f64; N] {
        core::array::from_fn(|_| self.number(damaged))
    }

    pub fn withins<const N: usize>(&mut self, size: f64) -> [f64; N] {
        core::array::from_fn(|_| self.within(size))
    }
}

/// A positive number, moved by so many places among the numbers.
pub fn beside(x: f64, places: i64) -> f64 {
    f64::from_bits(x.to_bits().wrapping_add_signed(places))
}
