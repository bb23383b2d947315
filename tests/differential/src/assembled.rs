//! Walk and replay of a still, put together from the Rust's functions: gather, rule of smoothing, smoothing, prediction with
//! edges filtered, residual, reconstruction, block after block; and the search of a block's mode. The Rust has no such loops; documents
//! 01 and 02 say what they do.
use crate::frame::{Block, Frame};
use crate::oracle::fmt::BitDepth;
use crate::oracle::intra::{self, AngularScratch, LumaRefGeometry};
use std::ops::Range;

/// A luma block's references: corner, row above, row on the left.
pub type References<'a> = (u16, &'a [u16], &'a [u16]);

fn predict_from(
    mode: u8,
    largest: u16,
    (corner, above, left): References,
    n: usize,
    pred: &mut [u16],
    scratch: &mut AngularScratch,
) {
    match mode {
        0 => intra::predict_planar_into(above, left, n, pred),
        1 => intra::predict_dc_into(above, left, n, true, pred),
        _ => intra::predict_angular_into(corner, above, left, n, mode, true, largest as i32, pred, scratch),
    }
}

/// A luma block's prediction, as H.265 8.4.4.2.1 has it.
pub fn predict(mode: u8, bits: u32, refs: References, n: usize, pred: &mut [u16], scratch: &mut AngularScratch) {
    let largest = BitDepth::from_bits(bits as u8).max_val();
    if intra::should_filter_refs(mode, n) {
        let (corner, above, left) = intra::filter_luma_refs(refs.0, refs.1, refs.2, n, bits);
        predict_from(mode, largest, (corner, &above, &left), n, pred, scratch);
    } else {
        predict_from(mode, largest, refs, n, pred, scratch);
    }
}

/// The first of the 35 modes whose block has the least sum of absolute differences to a source block, and that sum.
pub fn choose(
    bits: u32,
    refs: References,
    source: &[u16],
    n: usize,
    pred: &mut [u16],
    scratch: &mut AngularScratch,
) -> (u8, u32) {
    let mut best = (0, u32::MAX);
    for mode in 0..=34 {
        predict(mode, bits, refs, n, pred, scratch);
        let sum = source[..n * n].iter().zip(&pred[..n * n]).map(|(s, p)| s.abs_diff(*p) as u32).sum();
        if sum < best.1 {
            best = (mode, sum);
        }
    }
    best
}

/// A still and its plan, which are good, and the blocks of the plan that are done.
pub struct Job<'a> {
    pub bits: u32,
    pub frame: Frame,
    pub plan: &'a [Block],
    pub blocks: Range<usize>,
}

impl Job<'_> {
    /// A block's references out of a plane.
    pub fn gather(&self, [row, col, side, _]: Block, plane: &[u16]) -> (u16, [u16; 65], [u16; 65]) {
        let Frame { width, height, ctu } = self.frame;
        let geometry = LumaRefGeometry {
            stride: width as usize,
            block_row: row as usize,
            block_col: col as usize,
            height: height as usize,
            n: side as usize,
            ctu: ctu as usize,
            ctus_x: width.div_ceil(ctu) as usize,
            min_pu: 4,
            neutral: BitDepth::from_bits(self.bits as u8).neutral(),
        };
        intra::get_reference_samples(plane, geometry)
    }

    /// A block's prediction from a plane.
    fn predict_at(&self, block: Block, plane: &[u16], pred: &mut [u16], scratch: &mut AngularScratch) {
        let (corner, above, left) = self.gather(block, plane);
        predict(block[3] as u8, self.bits, (corner, &above, &left), block[2] as usize, pred, scratch);
    }

    /// Where a block's rows lie in a plane.
    pub fn rows(&self, [row, col, side, _]: Block) -> impl Iterator<Item = Range<usize>> {
        let width = self.frame.width as usize;
        (row as usize..(row + side) as usize).map(move |r| r * width + col as usize..r * width + (col + side) as usize)
    }

    /// The blocks to do, and where the residuals of each lie: they follow those of all blocks before it in the plan.
    fn each(&self) -> impl Iterator<Item = (Block, Range<usize>)> {
        let area = |b: &Block| (b[2] * b[2]) as usize;
        let mut at: usize = self.plan[..self.blocks.start].iter().map(area).sum();
        self.plan[self.blocks.clone()].iter().map(move |b| {
            at += area(b);
            (*b, at - area(b)..at)
        })
    }

    /// Puts a block's prediction plus residuals into the plane.
    fn rebuild(&self, block: Block, pred: &[u16], residuals: &[i32], plane: &mut [u16]) {
        let (mut back, n) = ([0; 1024], block[2] as usize);
        intra::reconstruct_into(pred, residuals, n, BitDepth::from_bits(self.bits as u8).max_val(), &mut back);
        for (row, range) in back.chunks_exact(n).zip(self.rows(block)) {
            plane[range].copy_from_slice(row);
        }
    }

    pub fn walk(&self, source: &[u16], work: &mut [u16], residuals: &mut [i32]) {
        let (mut scratch, mut pred, mut original) = (AngularScratch::new(), [0; 1024], [0; 1024]);
        for (block, at) in self.each() {
            let n = block[2] as usize;
            self.predict_at(block, work, &mut pred, &mut scratch);
            for (row, range) in original.chunks_exact_mut(n).zip(self.rows(block)) {
                row.copy_from_slice(&source[range]);
            }
            intra::compute_residual_i32_into(&original, &pred, n, &mut residuals[at.clone()]);
            self.rebuild(block, &pred, &residuals[at], work);
        }
    }

    pub fn replay(&self, residuals: &[i32], plane: &mut [u16]) {
        let (mut scratch, mut pred) = (AngularScratch::new(), [0; 1024]);
        for (block, at) in self.each() {
            self.predict_at(block, plane, &mut pred, &mut scratch);
            self.rebuild(block, &pred, &residuals[at], plane);
        }
    }
}
