//! The hash that the Rattle side computes, so that both sides do the same work.
use std::hash::Hasher;

const MULTIPLIER: u64 = 0x9e37_79b9_7f4a_7c15;

pub struct Fold(u64);

impl Default for Fold {
    fn default() -> Self {
        Fold(0x243f_6a88_85a3_08d3)
    }
}

#[inline]
fn folded(a: u64, b: u64) -> u64 {
    let product = u128::from(a) * u128::from(b);
    product as u64 ^ (product >> 64) as u64
}

#[inline]
fn four(bytes: &[u8], at: usize) -> u64 {
    u64::from(u32::from_le_bytes(bytes[at..at + 4].try_into().unwrap()))
}

#[inline]
fn eight(bytes: &[u8], at: usize) -> u64 {
    u64::from_le_bytes(bytes[at..at + 8].try_into().unwrap())
}

/// At most eight bytes as one number.
#[inline]
fn short(bytes: &[u8]) -> u64 {
    let len = bytes.len();
    if len >= 4 {
        four(bytes, 0) | four(bytes, len - 4) << 32
    } else if len > 0 {
        u64::from(bytes[0]) | u64::from(bytes[len / 2]) << 8 | u64::from(bytes[len - 1]) << 16
    } else {
        0
    }
}

impl Hasher for Fold {
    #[inline]
    fn finish(&self) -> u64 {
        self.0
    }

    #[inline]
    fn write(&mut self, bytes: &[u8]) {
        let len = bytes.len();
        if len <= 8 {
            self.0 = folded(self.0 ^ short(bytes), MULTIPLIER ^ (2 * len as u64));
            return;
        }
        let mut state = self.0.wrapping_add(len as u64);
        let mut at = 0;
        while len - at > 16 {
            state = folded(eight(bytes, at) ^ state, eight(bytes, at + 8) ^ MULTIPLIER);
            at += 16;
        }
        let front = eight(bytes, len.saturating_sub(16)) ^ state;
        self.0 = folded(front, eight(bytes, len - 8) ^ MULTIPLIER);
    }
}
