//! The values that are written and read.

use std::fmt::Write;

/// The same numbers at each run (xorshift).
pub struct Numbers(pub u64);

impl Numbers {
    pub fn next(&mut self) -> u64 {
        self.0 ^= self.0 << 13;
        self.0 ^= self.0 >> 7;
        self.0 ^= self.0 << 17;
        self.0
    }

    /// A half small and a half wide, in an order by chance.
    pub fn ints(&mut self, count: usize) -> Vec<i32> {
        let mut ints: Vec<i32> = Vec::new();
        for at in 0..count {
            let n = self.next();
            ints.push(if at % 2 == 0 { n as i8 as i32 } else { (n >> 17) as i8 as i32 ^ 0x1234_5600 });
            ints.swap(at, (n >> 32) as usize % (at + 1));
        }
        ints
    }

    /// Zero, a byte, or wide by chance, a third each.
    pub fn long(&mut self) -> u64 {
        let n = self.next();
        match n % 3 {
            0 => 0,
            1 => 1 + (n >> 8) % 255,
            _ => 256 + (n >> 8),
        }
    }

    pub fn text(&mut self, len: usize) -> String {
        let mut text = String::new();
        while text.len() < len {
            write!(text, "{:016x}", self.next()).unwrap();
        }
        text.truncate(len);
        text
    }
}
