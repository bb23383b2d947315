//! The 33 angular modes, edge on.
use crate::entries::salvrunde_probe_predict_angular_slices;
use crate::inlined::intra;
use crate::inputs::{Rows, SIDES, rows};
use crate::oracle::intra::{AngularScratch, predict_angular_into};
use crate::race::{Times, race};
use crate::table::{Table, mean};
use std::hint::black_box;

/// The scratch that the proved code is lent.
struct Scratch {
    refs: [u16; 193],
    indices: [u32; 32],
    fractions: [u32; 32],
}

/// The Rust's function, called as it stands.
type Rust = fn(u16, &[u16], &[u16], usize, u8, bool, i32, &mut [u16], &mut AngularScratch);

/// The same, built into a function that knows the rows' lengths.
#[inline(never)]
fn inlined(r: &Rows, n: usize, mode: u8, pred: &mut [u16], scratch: &mut intra::AngularScratch) {
    intra::predict_angular_into(r.corner, &r.above, &r.left, n, mode, true, r.largest() as i32, pred, scratch)
}

#[inline(always)]
fn proved(r: &Rows, n: usize, mode: u8, pred: &mut [u16], s: &mut Scratch) -> u32 {
    // the lengths are those of the six slices
    unsafe {
        salvrunde_probe_predict_angular_slices(
            r.corner,
            r.above.as_ptr(),
            r.above.len(),
            r.left.as_ptr(),
            r.left.len(),
            n,
            mode,
            true,
            r.bits,
            pred.as_mut_ptr(),
            pred.len(),
            s.refs.as_mut_ptr(),
            s.refs.len(),
            s.indices.as_mut_ptr(),
            s.indices.len(),
            s.fractions.as_mut_ptr(),
            s.fractions.len(),
        )
    }
}

pub fn time(table: &mut Table) {
    let call: Rust = black_box(predict_angular_into);
    let rust = |r: &Rows, n: usize, mode: u8, pred: &mut [u16], scratch: &mut AngularScratch| {
        call(r.corner, &r.above, &r.left, n, mode, true, r.largest() as i32, pred, scratch)
    };
    let rows = rows(2);
    let (mut p, mut q) = ([0u16; 1024], [0u16; 1024]);
    let mut rust_scratch = AngularScratch::new();
    let mut inlined_scratch = intra::AngularScratch::new();
    let mut scratch = Scratch { refs: [0; 193], indices: [0; 32], fractions: [0; 32] };
    let (mut all, mut all_called, mut worst) = (Vec::new(), Vec::new(), (0.0, 0.0, 0, 0));
    for n in SIDES {
        let mut sum = Times { rust: 0.0, inlined: 0.0, rattle: 0.0 };
        let (mut ratios, mut called) = (Vec::new(), Vec::new());
        for mode in 2..=34 {
            for r in &rows {
                rust(r, n, mode, &mut p, &mut rust_scratch);
                assert_eq!((proved(r, n, mode, &mut q, &mut scratch), q), (0, p), "mode {mode}");
            }
            let mut proved = |r: &Rows| {
                black_box(proved(r, black_box(n), black_box(mode), black_box(&mut q), &mut scratch));
            };
            let times =
                race(&rows, |r| rust(r, black_box(n), black_box(mode), black_box(&mut p), &mut rust_scratch), &mut proved);
            let times = times.inlined(race(
                &rows,
                |r| inlined(r, black_box(n), black_box(mode), black_box(&mut p), &mut inlined_scratch),
                &mut proved,
            ));
            if table.modes {
                table.show(&format!("angular, mode {mode}"), n, times);
            }
            sum.rust += times.rust;
            sum.inlined += times.inlined;
            sum.rattle += times.rattle;
            ratios.push(times.ratio());
            called.push(times.to_called());
            if times.ratio() > worst.0 {
                worst = (times.ratio(), times.to_called(), mode, n);
            }
        }
        let each = Times { rust: sum.rust / 33.0, inlined: sum.inlined / 33.0, rattle: sum.rattle / 33.0 };
        table.show("angular, mean time of 33 modes", n, each);
        table.ratio("angular, geometric mean of 33 ratios", n, mean(&called), mean(&ratios), 1.0);
        all.extend(ratios);
        all_called.extend(called);
    }
    table.ratio("angular, geometric mean of 132 ratios", 0, mean(&all_called), mean(&all), 0.8);
    table.ratio(&format!("angular, greatest ratio (mode {}, side {})", worst.2, worst.3), 0, worst.1, worst.0, 1.5);
}
