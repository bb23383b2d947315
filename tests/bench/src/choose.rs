//! The choice of a luma mode, in full and early, beside the same search put together from the Rust's functions, which smooths for each
//! mode that asks for it. The sources are a mode's own prediction with some noise, so that modes differ.
use crate::assembled;
use crate::entries::{Choice, salvrunde_probe_choose_early, salvrunde_probe_choose_mode};
use crate::inputs::{Rows, SIDES, rows};
use crate::oracle::intra::AngularScratch;
use crate::race::race;
use crate::random::Random;
use crate::table::Table;
use std::hint::black_box;

struct Search {
    rows: Rows,
    source: Vec<u16>,
}

/// The scratch that the proved code is lent.
struct Scratch {
    pred: [u16; 1024],
    refs: [u16; 193],
    indices: [u32; 32],
    fractions: [u32; 32],
}

/// The Rust's search.
type Rust = fn(u32, assembled::References, &[u16], usize, &mut [u16], &mut AngularScratch) -> (u8, u32);

/// The full search, or the one that drops modes early.
#[rustfmt::skip]
type Proved = unsafe extern "C" fn(
    u16, *const u16, usize, *const u16, usize, *const u16, usize, usize, u32,
    *mut u16, usize, *mut u16, usize, *mut u32, usize, *mut u32, usize,
) -> Choice;

fn proved(entry: Proved, s: &Search, n: usize, scratch: &mut Scratch) -> Choice {
    // the lengths are those of the seven slices
    unsafe {
        entry(
            s.rows.corner,
            s.rows.above.as_ptr(),
            s.rows.above.len(),
            s.rows.left.as_ptr(),
            s.rows.left.len(),
            s.source.as_ptr(),
            s.source.len(),
            n,
            s.rows.bits,
            scratch.pred.as_mut_ptr(),
            scratch.pred.len(),
            scratch.refs.as_mut_ptr(),
            scratch.refs.len(),
            scratch.indices.as_mut_ptr(),
            scratch.indices.len(),
            scratch.fractions.as_mut_ptr(),
            scratch.fractions.len(),
        )
    }
}

fn searches(n: usize, random: &mut Random) -> Vec<Search> {
    let one = |rows: Rows| {
        let mut source = vec![0; n * n];
        let refs = (rows.corner, &rows.above[..], &rows.left[..]);
        assembled::predict(random.below(35) as u8, rows.bits, refs, n, &mut source, &mut AngularScratch::new());
        for v in &mut source {
            *v = (*v + random.below(9) as u16).min(rows.largest());
        }
        Search { rows, source }
    };
    rows(40 + n as u64).into_iter().map(one).collect()
}

pub fn time(table: &mut Table) {
    let call: Rust = black_box(assembled::choose);
    let mut random = Random::new(40);
    let (mut pred, mut rust_scratch) = ([0u16; 1024], AngularScratch::new());
    let mut scratch = Scratch { pred: [0; 1024], refs: [0; 193], indices: [0; 32], fractions: [0; 32] };
    for n in SIDES {
        let searches = searches(n, &mut random);
        let mut rust = |s: &Search| {
            call(s.rows.bits, (s.rows.corner, &s.rows.above, &s.rows.left), &s.source, n, &mut pred, &mut rust_scratch)
        };
        let doors: [(&str, Proved); 2] =
            [("choice of a mode", salvrunde_probe_choose_mode), ("early choice of a mode", salvrunde_probe_choose_early)];
        for (name, entry) in doors {
            for s in &searches {
                let (mode, sum) = rust(s);
                assert_eq!(proved(entry, s, n, &mut scratch), Choice { no: 0, mode: mode as u32, sum });
            }
            let times = race(
                &searches,
                |s| {
                    black_box(rust(s));
                },
                |s| {
                    black_box(proved(entry, s, n, &mut scratch));
                },
            );
            table.line(name, n, times, 0.6);
        }
    }
}
