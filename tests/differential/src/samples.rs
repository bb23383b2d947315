//! Samples, rows and buffers of every kind, and their bytes as the entries take them.
use crate::random::Random;

pub const SIZES: [usize; 4] = [4, 8, 16, 32];
pub const DEPTHS: [u32; 3] = [8, 10, 12];
/// Sides and depths of which some are none.
pub const SIDES: [usize; 10] = [4, 8, 16, 32, 0, 5, 64, 260, (1 << 32) + 4, usize::MAX];
pub const BITS: [u32; 6] = [8, 10, 12, 9, 264, 0];

/// The largest sample of a depth, as the Rust's own method has it.
pub fn largest(bits: u32) -> u16 {
    crate::oracle::fmt::BitDepth::from_bits(bits as u8).max_val()
}

/// How many kinds of samples there are.
pub const KINDS: u64 = 9;

/// One sample of a kind: 0, the largest, mostly 0, either end, of 8 bits, of 12 bits, on an edge, or any.
fn sample(kind: u64, random: &mut Random) -> u16 {
    let any = (random.word() >> 7) as u16;
    match kind {
        0 => 0,
        1 => u16::MAX,
        2 => random.pick(&[0, 0, 0, any]),
        3 => random.pick(&[0, u16::MAX]),
        4 => any & 255,
        5 => any & 4095,
        6 => random.pick(&[0, 1, 254, 255, 256, 1023, 1024, 4095, 4096, u16::MAX - 1, u16::MAX]),
        _ => any,
    }
}

/// Samples of a kind; of kind 7 all but one are 0.
pub fn samples(kind: u64, count: usize, random: &mut Random) -> Vec<u16> {
    let mut all: Vec<u16> = (0..count).map(|_| sample(kind, random)).collect();
    if kind == 7 && count > 0 {
        let at = random.below(count as u64) as usize;
        let value = all[at] | 1;
        all.fill(0);
        all[at] = value;
    }
    all
}

/// Samples of any kind.
pub fn any(count: usize, random: &mut Random) -> Vec<u16> {
    let kind = random.below(KINDS);
    samples(kind, count, random)
}

/// What a buffer holds before a call: never the same, seldom 0.
pub fn dirt(count: usize, random: &mut Random) -> Vec<u16> {
    (0..count).map(|_| random.word() as u16 | 1).collect()
}

pub fn dirt_32(count: usize, random: &mut Random) -> Vec<u32> {
    (0..count).map(|_| random.word() as u32 | 1).collect()
}

/// A length of at least so much, now and then more.
pub fn at_least(least: usize, random: &mut Random) -> usize {
    least + random.pick(&[0, 0, 1, 3, 7, 100])
}

pub fn bytes(samples: &[u16]) -> Vec<u8> {
    samples.iter().flat_map(|s| s.to_le_bytes()).collect()
}

pub fn bytes_32(words: &[u32]) -> Vec<u8> {
    words.iter().flat_map(|w| w.to_le_bytes()).collect()
}

pub fn bytes_signed(words: &[i32]) -> Vec<u8> {
    words.iter().flat_map(|w| w.to_le_bytes()).collect()
}
