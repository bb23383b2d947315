//! Residual and reconstruction.
use crate::entries::{salvrunde_probe_compute_residual_i32_into, salvrunde_probe_reconstruct_into};
use crate::inputs::{Blocks, SIDES, blocks};
use crate::oracle::intra;
use crate::race::race;
use crate::table::Table;
use std::hint::black_box;

/// The Rust's functions, called as they stand.
type RustResidual = fn(&[u16], &[u16], usize, &mut [i32]);
type RustReconstruct = fn(&[u16], &[i32], usize, u16, &mut [u16]);

#[inline(always)]
fn residual_proved(b: &Blocks, n: usize, out: &mut [i32]) -> u32 {
    let (o, p) = (b.original.as_ptr(), b.predicted.as_ptr());
    let (ol, pl, len) = (b.original.len(), b.predicted.len(), out.len());
    // the lengths are those of the three slices
    unsafe { salvrunde_probe_compute_residual_i32_into(o, ol, p, pl, n, out.as_mut_ptr(), len) }
}

#[inline(always)]
fn reconstruct_proved(b: &Blocks, n: usize, out: &mut [u16]) -> u32 {
    let (p, r) = (b.predicted.as_ptr(), b.residual.as_ptr());
    let (pl, rl, len) = (b.predicted.len(), b.residual.len(), out.len());
    // the lengths are those of the three slices
    unsafe { salvrunde_probe_reconstruct_into(p, pl, r, rl, n, b.bits, out.as_mut_ptr(), len) }
}

pub fn time(table: &mut Table) {
    let residual: RustResidual = black_box(intra::compute_residual_i32_into);
    let residual_rust = |b: &Blocks, n: usize, out: &mut [i32]| residual(&b.original, &b.predicted, n, out);
    let reconstruct: RustReconstruct = black_box(intra::reconstruct_into);
    let reconstruct_rust =
        |b: &Blocks, n: usize, out: &mut [u16]| reconstruct(&b.predicted, &b.residual, n, ((1u32 << b.bits) - 1) as u16, out);
    let (mut p, mut q) = ([0i32; 1024], [0i32; 1024]);
    for n in SIDES {
        let blocks = blocks(5, n);
        for b in &blocks {
            residual_rust(b, n, &mut p);
            assert_eq!((residual_proved(b, n, &mut q), q), (0, p));
        }
        let times = race(
            &blocks,
            |b| residual_rust(b, black_box(n), black_box(&mut p)),
            |b| {
                black_box(residual_proved(b, black_box(n), black_box(&mut q)));
            },
        );
        table.line("residual", n, times, 1.0);
    }
    let (mut p, mut q) = ([0u16; 1024], [0u16; 1024]);
    for n in SIDES {
        let blocks = blocks(6, n);
        for b in &blocks {
            reconstruct_rust(b, n, &mut p);
            assert_eq!((reconstruct_proved(b, n, &mut q), q), (0, p));
        }
        let times = race(
            &blocks,
            |b| reconstruct_rust(b, black_box(n), black_box(&mut p)),
            |b| {
                black_box(reconstruct_proved(b, black_box(n), black_box(&mut q)));
            },
        );
        table.line("reconstruction", n, times, 1.0);
    }
}
