//! The error report beside plain loops over the same pair and plan. The entry has the record, the planes and the plan as bytes, and checks all
//! of them first; its time has these checks in it. The loops check nothing: one reads the planes as the entry has them, as bytes, the
//! other as samples, which the entry never has.
use crate::entries::salvrunde_count_errors;
use crate::inputs::sample;
use crate::race::race;
use crate::random::Random;
use crate::table::Table;
use crate::walk::{BITS, Still};
use std::hint::black_box;
use std::ops::Range;

/// By mode blocks, samples and squares.
type Figures = [[u64; 35]; 3];

/// What `squares` gives for the rows of each block, under its mode.
#[inline(always)]
fn by_mode(width: usize, plan: &[[u32; 4]], squares: impl Fn(Range<usize>) -> u64) -> Figures {
    let mut figures = [[0; 35]; 3];
    for block in plan {
        let [row, col, side, mode] = block.map(|v| v as usize);
        let sum = (row..row + side).map(|y| squares(y * width + col..y * width + col + side)).sum();
        for (list, more) in figures.iter_mut().zip([1, (side * side) as u64, sum]) {
            list[mode] += more;
        }
    }
    figures
}

fn square(x: u16, y: u16) -> u64 {
    let d = x as i32 - y as i32;
    (d * d) as u64
}

fn of_samples(a: &[u16], b: &[u16], width: usize, plan: &[[u32; 4]]) -> Figures {
    by_mode(width, plan, |row| a[row.clone()].iter().zip(&b[row]).map(|(&x, &y)| square(x, y)).sum())
}

fn of_bytes(a: &[u8], b: &[u8], width: usize, plan: &[[u32; 4]]) -> Figures {
    let read = |v: &[u8]| u16::from_le_bytes([v[0], v[1]]);
    by_mode(width, plan, |row| {
        let row = 2 * row.start..2 * row.end;
        a[row.clone()].chunks_exact(2).zip(b[row].chunks_exact(2)).map(|(x, y)| square(read(x), read(y))).sum()
    })
}

fn bytes(plane: &[u16]) -> Vec<u8> {
    plane.iter().flat_map(|v| v.to_le_bytes()).collect()
}

/// A report as bytes.
fn spelled(still: &Still, pairs: u32, figures: &Figures) -> Vec<u8> {
    let settings = [BITS, still.frame.width, still.frame.height, still.frame.ctu, pairs, 0];
    let words = settings.into_iter().flat_map(u32::to_le_bytes);
    words.chain(figures.as_flattened().iter().flat_map(|v| v.to_le_bytes())).collect()
}

pub fn time(table: &mut Table) {
    let on_bytes: fn(&[u8], &[u8], usize, &[[u32; 4]]) -> Figures = black_box(of_bytes);
    let on_samples: fn(&[u16], &[u16], usize, &[[u32; 4]]) -> Figures = black_box(of_samples);
    let mut random = Random::new(22);
    for (width, height) in [(640, 480), (1280, 960)] {
        let still = Still::new(width, height);
        let other: Vec<u16> = (0..width * height).map(|_| sample(&mut random, BITS)).collect();
        let (a, b) = (bytes(&still.source), bytes(&other));
        let record = |b: &[u32; 4]| [b[0] as u8, (b[0] >> 8) as u8, b[1] as u8, (b[1] >> 8) as u8, b[2] as u8, b[3] as u8];
        let plan: Vec<u8> = still.plan.iter().flat_map(record).collect();
        let fresh = spelled(&still, 0, &[[0; 35]; 3]);
        let mut report = fresh.clone();
        let mut count = || {
            report.copy_from_slice(&fresh);
            let (p, to) = (plan.as_ptr(), report.as_mut_ptr());
            // the lengths are those of the slices
            unsafe { salvrunde_count_errors(a.as_ptr(), a.len(), b.as_ptr(), b.len(), p, plan.len(), to, report.len()) }
        };
        assert_eq!(count(), 0);
        let beside_bytes =
            race(&[()], |_| _ = black_box(on_bytes(black_box(&a), &b, width, &still.plan)), |_| _ = black_box(count()));
        let beside_samples = race(
            &[()],
            |_| _ = black_box(on_samples(black_box(&still.source), &other, width, &still.plan)),
            |_| _ = black_box(count()),
        );
        let figures = on_samples(&still.source, &other, width, &still.plan);
        assert_eq!(figures, on_bytes(&a, &b, width, &still.plan));
        assert_eq!(report, spelled(&still, 1, &figures));
        table.line("error report of a still so wide, beside a plain loop", width, beside_bytes, 1.0);
        table.show("the same, beside a plain loop over samples", width, beside_samples);
    }
}
