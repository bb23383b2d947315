//! The luma gather: places spread over a picture of 1280 × 960.
use crate::entries::{PlaneRows, References, salvrunde_probe_get_reference_samples};
use crate::inputs::{HEIGHT, PLACES, SIDES, WIDTH, place, plane};
use crate::oracle::intra::{LumaRefGeometry, get_reference_samples};
use crate::race::race;
use crate::random::Random;
use crate::table::Table;
use std::hint::black_box;

pub const BITS: u32 = 10;

/// A block: side, CTU, least unit, and its place.
pub struct Block {
    pub n: usize,
    pub ctu: usize,
    pub unit: usize,
    pub row: usize,
    pub col: usize,
}

/// Blocks anywhere in the picture.
pub fn blocks(random: &mut Random, n: usize, ctu: usize, unit: usize) -> Vec<Block> {
    let mut block = || {
        let (row, col) = place(random, HEIGHT, WIDTH, n);
        Block { n, ctu, unit, row, col }
    };
    (0..PLACES).map(|_| block()).collect()
}

/// The Rust's function, called as it stands.
type Rust = fn(&[u16], LumaRefGeometry) -> (u16, [u16; 65], [u16; 65]);

fn geometry(b: &Block) -> LumaRefGeometry {
    LumaRefGeometry {
        stride: WIDTH,
        block_row: b.row,
        block_col: b.col,
        height: HEIGHT,
        n: b.n,
        ctu: b.ctu,
        ctus_x: WIDTH.div_ceil(b.ctu),
        min_pu: b.unit,
        neutral: 1 << (BITS - 1),
    }
}

#[inline(always)]
fn proved(plane: &[u16], b: &Block, out: &mut References) {
    let [width, height, ctu, unit] = [WIDTH, HEIGHT, b.ctu, b.unit].map(|v| v as u32);
    let (row, col) = (b.row as u32, b.col as u32);
    // the length is that of the plane
    unsafe {
        salvrunde_probe_get_reference_samples(out, plane.as_ptr(), plane.len(), BITS, width, height, ctu, unit, row, col, b.n)
    };
}

pub fn time(table: &mut Table) {
    let call: Rust = black_box(get_reference_samples);
    let rust = |plane: &[u16], b: &Block| call(plane, geometry(b));
    let mut random = Random::new(7);
    let plane = plane(&mut random, WIDTH * HEIGHT, BITS);
    let mut got = References { no: 1, rows: PlaneRows::ZERO };
    for ctu in [64, 16] {
        for unit in [8, 4] {
            // a unit above the side, or a side above the CTU, is refused
            for n in SIDES.into_iter().filter(|&n| unit <= n && n <= ctu) {
                let blocks = blocks(&mut random, n, ctu, unit);
                for b in &blocks {
                    proved(&plane, b, &mut got);
                    assert_eq!((got.no, got.rows.tuple()), (0, rust(&plane, b)));
                }
                let times = race(
                    &blocks,
                    |b| {
                        black_box(&rust(black_box(&plane), b));
                    },
                    |b| proved(black_box(&plane), b, black_box(&mut got)),
                );
                table.line(&format!("luma gather, CTU {ctu}, unit {unit}"), n, times, 0.15);
            }
        }
    }
}
