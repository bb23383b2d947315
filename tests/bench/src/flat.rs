//! Planar and DC.
use crate::entries::{salvrunde_probe_predict_dc_into, salvrunde_probe_predict_planar_into};
use crate::inlined;
use crate::inputs::{Rows, SIDES, rows};
use crate::oracle::intra;
use crate::race::race;
use crate::table::Table;
use std::hint::black_box;

/// The Rust's functions, called as they stand.
type RustPlanar = fn(&[u16], &[u16], usize, &mut [u16]);
type RustDc = fn(&[u16], &[u16], usize, bool, &mut [u16]);

/// The same, built into functions that know the rows' lengths.
#[inline(never)]
fn planar_inlined(r: &Rows, n: usize, pred: &mut [u16]) {
    inlined::intra::predict_planar_into(&r.above, &r.left, n, pred)
}

#[inline(never)]
fn dc_inlined(r: &Rows, n: usize, edge: bool, pred: &mut [u16]) {
    inlined::intra::predict_dc_into(&r.above, &r.left, n, edge, pred)
}

#[inline(always)]
fn planar_proved(r: &Rows, n: usize, pred: &mut [u16]) -> u32 {
    let (a, l, p) = (r.above.as_ptr(), r.left.as_ptr(), pred.as_mut_ptr());
    // the lengths are those of the three slices
    unsafe { salvrunde_probe_predict_planar_into(a, r.above.len(), l, r.left.len(), n, p, pred.len()) }
}

#[inline(always)]
fn dc_proved(r: &Rows, n: usize, edge: bool, pred: &mut [u16]) -> u32 {
    let (a, l, p) = (r.above.as_ptr(), r.left.as_ptr(), pred.as_mut_ptr());
    // the lengths are those of the three slices
    unsafe { salvrunde_probe_predict_dc_into(a, r.above.len(), l, r.left.len(), n, edge, p, pred.len()) }
}

pub fn time(table: &mut Table) {
    let planar: RustPlanar = black_box(intra::predict_planar_into);
    let planar_rust = |r: &Rows, n: usize, pred: &mut [u16]| planar(&r.above, &r.left, n, pred);
    let dc: RustDc = black_box(intra::predict_dc_into);
    let dc_rust = |r: &Rows, n: usize, edge: bool, pred: &mut [u16]| dc(&r.above, &r.left, n, edge, pred);
    let rows = rows(1);
    let (mut p, mut q) = ([0u16; 1024], [0u16; 1024]);
    for n in SIDES {
        for r in &rows {
            planar_rust(r, n, &mut p);
            assert_eq!((planar_proved(r, n, &mut q), q), (0, p));
        }
        let proved = |r: &Rows, q: &mut [u16]| black_box(planar_proved(r, black_box(n), black_box(q)));
        let times = race(&rows, |r| planar_rust(r, black_box(n), black_box(&mut p)), |r| _ = proved(r, &mut q));
        let inlined = race(&rows, |r| planar_inlined(r, black_box(n), black_box(&mut p)), |r| _ = proved(r, &mut q));
        table.line("planar", n, times.inlined(inlined), 1.0);
    }
    for (what, edge) in [("DC", false), ("DC, edge on", true)] {
        for n in SIDES {
            for r in &rows {
                dc_rust(r, n, edge, &mut p);
                assert_eq!((dc_proved(r, n, edge, &mut q), q), (0, p));
            }
            let proved = |r: &Rows, q: &mut [u16]| black_box(dc_proved(r, black_box(n), black_box(edge), black_box(q)));
            let times = race(&rows, |r| dc_rust(r, black_box(n), black_box(edge), black_box(&mut p)), |r| _ = proved(r, &mut q));
            let inlined =
                race(&rows, |r| dc_inlined(r, black_box(n), black_box(edge), black_box(&mut p)), |r| _ = proved(r, &mut q));
            table.line(what, n, times.inlined(inlined), 1.0);
        }
    }
}
