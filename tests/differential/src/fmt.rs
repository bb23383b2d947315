//! Depth, format and places against the Rust's BitDepth and ChromaFormat.
use crate::oracle::fmt::{BitDepth, ChromaFormat};
use crate::random::Random;
use crate::table;
use crate::tally::{Tally, Want};

const FORMATS: [ChromaFormat; 4] = [ChromaFormat::Monochrome, ChromaFormat::Yuv420, ChromaFormat::Yuv422, ChromaFormat::Yuv444];

/// Numbers 0 to 300 and the ends of u32, among them each legal number plus 256 and 65536.
fn around() -> impl Iterator<Item = u32> {
    let high = [65544, 65546, 65548, 1 << 31, u32::MAX - 1, u32::MAX];
    (0..=300).chain(high)
}

/// The answer for a number of bits.
pub fn depth_answer(bits: u32) -> [u32; 4] {
    if !table::depth(bits) {
        return [1, 0, 0, 0];
    }
    let depth = BitDepth::from_bits(bits as u8);
    [0, depth.bits() as u32, depth.max_val() as u32, depth.neutral() as u32]
}

pub fn depth(t: &mut Tally) {
    for bits in around() {
        t.numbers("salvrunde_probe_depth", &[bits as u64], Want::fields(&depth_answer(bits)));
    }
}

/// The format that a chroma_format_idc names, by the Rust's own idc().
pub fn format_of(idc: u32) -> Option<ChromaFormat> {
    FORMATS.into_iter().find(|f| f.idc() == idc)
}

/// The answer for a chroma_format_idc: whether it is known, and the subsampling of width and height.
pub fn format_answer(idc: u32) -> [u32; 3] {
    match format_of(idc) {
        Some(f) => [1, f.sub_w() as u32, f.sub_h() as u32],
        None => [0, 1, 1],
    }
}

pub fn format(t: &mut Tally) {
    for idc in around() {
        t.numbers("salvrunde_probe_format", &[idc as u64], Want::fields(&format_answer(idc)));
    }
}

/// A luma place of a chroma place is held at the largest u32, which is outside every picture.
fn held(v: u64) -> u32 {
    v.min(u32::MAX as u64) as u32
}

pub fn places(t: &mut Tally) {
    let mut random = Random::new(1);
    let mut some: Vec<u32> = (0..40).chain([4095, 4096, (1 << 31) - 1, 1 << 31, (1 << 31) + 1, u32::MAX - 1, u32::MAX]).collect();
    some.extend((0..100).map(|_| random.word() as u32));
    for idc in [0, 1, 2, 3, 4, 5, 257, u32::MAX] {
        for &row in &some {
            for &col in &some {
                let (luma, chroma) = match format_of(idc) {
                    Some(f) => {
                        let (w, h) = (f.sub_w() as u64, f.sub_h() as u64);
                        ([1, held(row as u64 * h), held(col as u64 * w)], [1, row / h as u32, col / w as u32])
                    }
                    None => ([0; 3], [0; 3]),
                };
                let numbers = [idc as u64, row as u64, col as u64];
                t.numbers("salvrunde_probe_on_luma", &numbers, Want::fields(&luma));
                t.numbers("salvrunde_probe_on_chroma", &numbers, Want::fields(&chroma));
            }
        }
    }
}
