//! Smoothing: the weak form at every side, by either function, and the strong one at side 32.
use crate::entries::{PlaneRows, References, TwoRows, salvrunde_probe_filter_luma_refs, salvrunde_probe_filter_references};
use crate::inlined;
use crate::inputs::{Rows, SIDES, rows, straight_rows};
use crate::oracle::intra;
use crate::race::race;
use crate::table::Table;
use std::hint::black_box;

/// The Rust's functions, called as they stand.
type RustReferences = fn(u16, &[u16], &[u16], usize) -> ([u16; 65], [u16; 65]);
type RustLuma = fn(u16, &[u16], &[u16], usize, u32) -> (u16, [u16; 65], [u16; 65]);

/// The same, built into functions that know the rows' lengths.
#[inline(never)]
fn references_inlined(r: &Rows, n: usize) -> ([u16; 65], [u16; 65]) {
    inlined::intra::filter_references(r.corner, &r.above, &r.left, n)
}

#[inline(never)]
fn luma_inlined(r: &Rows, n: usize) -> (u16, [u16; 65], [u16; 65]) {
    inlined::intra::filter_luma_refs(r.corner, &r.above, &r.left, n, r.bits)
}

#[inline(always)]
fn references_proved(r: &Rows, n: usize, out: &mut TwoRows) {
    let (a, l) = (r.above.as_ptr(), r.left.as_ptr());
    // the lengths are those of the two rows
    unsafe { salvrunde_probe_filter_references(out, r.corner, a, r.above.len(), l, r.left.len(), n) };
}

#[inline(always)]
fn luma_proved(r: &Rows, n: usize, out: &mut References) {
    let (a, l) = (r.above.as_ptr(), r.left.as_ptr());
    // the lengths are those of the two rows
    unsafe { salvrunde_probe_filter_luma_refs(out, r.corner, a, r.above.len(), l, r.left.len(), n, r.bits) };
}

/// Whether the strong form is due.
fn strong(r: &Rows) -> bool {
    let bend = |row: &[u16; 65]| (r.corner as i32 + row[63] as i32 - 2 * row[31] as i32).abs();
    bend(&r.above) < 1 << (r.bits - 5) && bend(&r.left) < 1 << (r.bits - 5)
}

fn time_luma(table: &mut Table, what: &str, rows: &[Rows], n: usize) {
    let luma: RustLuma = black_box(intra::filter_luma_refs);
    let luma_rust = |r: &Rows, n: usize| luma(r.corner, &r.above, &r.left, n, r.bits);
    let mut got = References { no: 1, rows: PlaneRows::ZERO };
    for r in rows {
        luma_proved(r, n, &mut got);
        assert_eq!((got.no, got.rows.tuple()), (0, luma_rust(r, n)));
    }
    let mut proved = |r: &Rows| luma_proved(r, black_box(n), black_box(&mut got));
    let times = race(rows, |r| _ = black_box(&luma_rust(r, black_box(n))), &mut proved);
    let times = times.inlined(race(rows, |r| _ = black_box(&luma_inlined(r, black_box(n))), &mut proved));
    table.line(what, n, times, 1.0);
}

pub fn time(table: &mut Table) {
    let mut weak = rows(3);
    weak.retain(|r| !strong(r));
    let references: RustReferences = black_box(intra::filter_references);
    let references_rust = |r: &Rows, n: usize| references(r.corner, &r.above, &r.left, n);
    let mut got = TwoRows { no: 1, above: [0; 65], left: [0; 65] };
    for n in SIDES {
        for r in &weak {
            references_proved(r, n, &mut got);
            assert_eq!((got.no, (got.above, got.left)), (0, references_rust(r, n)));
        }
        let mut proved = |r: &Rows| references_proved(r, black_box(n), black_box(&mut got));
        let times = race(&weak, |r| _ = black_box(&references_rust(r, black_box(n))), &mut proved);
        let times = times.inlined(race(&weak, |r| _ = black_box(&references_inlined(r, black_box(n))), &mut proved));
        table.line("filter_references", n, times, 1.0);
    }
    for n in SIDES {
        time_luma(table, "filter_luma_refs, weak form", &weak, n);
    }
    let straight = straight_rows(4);
    assert!(straight.iter().all(strong));
    time_luma(table, "filter_luma_refs, strong form", &straight, 32);
}
