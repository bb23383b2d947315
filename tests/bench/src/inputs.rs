//! The inputs: some hundred different ones to a run, so that no branch is trained on one of them.
use crate::random::Random;

pub const SIDES: [usize; 4] = [4, 8, 16, 32];

/// A block's references at a depth.
pub struct Rows {
    pub bits: u32,
    pub corner: u16,
    pub above: [u16; 65],
    pub left: [u16; 65],
}

impl Rows {
    pub fn largest(&self) -> u16 {
        ((1u32 << self.bits) - 1) as u16
    }
}

/// A sample of any value that the depth has.
pub fn sample(random: &mut Random, bits: u32) -> u16 {
    random.below(1 << bits) as u16
}

pub fn depth(random: &mut Random) -> u32 {
    random.pick(&[8, 10, 12])
}

pub fn rows(seed: u64) -> Vec<Rows> {
    let mut random = Random::new(seed);
    let row = |bits, random: &mut Random| std::array::from_fn(|_| sample(random, bits));
    let mut one = || {
        let bits = depth(&mut random);
        Rows { bits, corner: sample(&mut random, bits), above: row(bits, &mut random), left: row(bits, &mut random) }
    };
    (0..128).map(|_| one()).collect()
}

/// Rows that nearly lie on a line from the corner to entry 63, as the strong form of smoothing asks.
pub fn straight_rows(seed: u64) -> Vec<Rows> {
    let mut random = Random::new(seed);
    let mut all = rows(seed + 1);
    for r in &mut all {
        let largest = r.largest() as u32;
        let corner = r.corner as u32;
        for row in [&mut r.above, &mut r.left] {
            let end = random.below(largest as u64 + 1) as u32;
            for (x, entry) in row[..64].iter_mut().enumerate() {
                let x = x as u32 + 1;
                *entry = ((corner * (64 - x) + end * x + 32) / 64) as u16;
            }
        }
    }
    all
}

/// Two blocks of samples, and the difference that leads from the second to the first or somewhat beside it.
pub struct Blocks {
    pub bits: u32,
    pub original: Vec<u16>,
    pub predicted: Vec<u16>,
    pub residual: Vec<i32>,
}

pub fn blocks(seed: u64, n: usize) -> Vec<Blocks> {
    let mut random = Random::new(seed);
    let mut one = || {
        let bits = depth(&mut random);
        let original: Vec<u16> = (0..n * n).map(|_| sample(&mut random, bits)).collect();
        let predicted: Vec<u16> = (0..n * n).map(|_| sample(&mut random, bits)).collect();
        let aside = 1i32 << (bits - 4);
        let beside = |p: (&u16, &u16)| *p.0 as i32 - *p.1 as i32 + random.below(2 * aside as u64) as i32 - aside;
        let residual = original.iter().zip(&predicted).map(beside).collect();
        Blocks { bits, original, predicted, residual }
    };
    (0..32).map(|_| one()).collect()
}

/// The picture of the gathers, and how many blocks of it are gathered for.
pub const WIDTH: usize = 1280;
pub const HEIGHT: usize = 960;
pub const PLACES: usize = 256;

pub fn plane(random: &mut Random, len: usize, bits: u32) -> Vec<u16> {
    (0..len).map(|_| sample(random, bits)).collect()
}

/// The place of a block of side n anywhere in a plane.
pub fn place(random: &mut Random, height: usize, width: usize, n: usize) -> (usize, usize) {
    let mut at = |side: usize| random.below((side / n) as u64) as usize * n;
    (at(height), at(width))
}
