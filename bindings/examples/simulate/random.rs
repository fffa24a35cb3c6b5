//! Random numbers from a seed.
use crate::vector::Vector;
use std::array::from_fn;

pub struct Random(u64);

impl Random {
    pub fn new(seed: u64) -> Random {
        let mut random = Random(seed.wrapping_mul(0x9E37_79B9_7F4A_7C15));
        for _ in 0..16 {
            random.uniform();
        }
        random
    }

    /// From 0 up to 1 (xorshift64*).
    fn uniform(&mut self) -> f64 {
        self.0 ^= self.0 >> 12;
        self.0 ^= self.0 << 25;
        self.0 ^= self.0 >> 27;
        (self.0.wrapping_mul(0x2545_F491_4F6C_DD1D) >> 11) as f64 / (1u64 << 53) as f64
    }

    /// Nearly normal, of mean 0 and deviation 1: twelve uniform numbers have the variance 1.
    fn normal(&mut self) -> f64 {
        (0..12).map(|_| self.uniform()).sum::<f64>() - 6.0
    }

    /// Three of a standard deviation.
    pub fn vector(&mut self, deviation: f64) -> Vector {
        from_fn(|_| deviation * self.normal())
    }
}
