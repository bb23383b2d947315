//! The chroma pair gather: places spread over the planes of a picture of 1280 × 960 luma samples.
use crate::entries::{PlaneRows, ReferencePair, salvrunde_probe_get_reference_samples_chroma_pair};
use crate::inputs::{HEIGHT, PLACES, SIDES, WIDTH, place, plane};
use crate::oracle::intra::{ChromaRefGeometry, get_reference_samples_chroma_pair};
use crate::race::race;
use crate::random::Random;
use crate::table::Table;
use std::hint::black_box;

pub const BITS: u32 = 10;
/// The CTU that the Rust counts in.
pub const CTU: u32 = 64;

/// A chroma format: its chroma_format_idc, and how many luma samples a sample stands for.
#[derive(Clone, Copy)]
pub struct Format {
    pub what: &'static str,
    pub idc: u32,
    pub sub_w: usize,
    pub sub_h: usize,
}

impl Format {
    /// A plane's width and height.
    pub fn plane(self) -> (usize, usize) {
        (WIDTH / self.sub_w, HEIGHT / self.sub_h)
    }
}

pub const FORMATS: [Format; 3] = [
    Format { what: "4:2:0", idc: 1, sub_w: 2, sub_h: 2 },
    Format { what: "4:2:2", idc: 2, sub_w: 2, sub_h: 1 },
    Format { what: "4:4:4", idc: 3, sub_w: 1, sub_h: 1 },
];

/// A block: its format, side, least luma unit, place, and the luma place of its coding unit.
pub struct Block {
    pub format: Format,
    pub n: usize,
    pub unit: usize,
    pub row: usize,
    pub col: usize,
    pub luma_row: usize,
    pub luma_col: usize,
}

/// Blocks anywhere in a plane. The coding unit is as wide as the block; in 4:2:2 two blocks stand in it, one below the other.
pub fn blocks(random: &mut Random, format: Format, n: usize) -> Vec<Block> {
    let ((width, height), side) = (format.plane(), n * format.sub_w);
    let mut block = || {
        let (row, col) = place(random, height, width, n);
        let (luma_row, luma_col) = (row * format.sub_h / side * side, col * format.sub_w);
        Block { format, n, unit: side.min(8), row, col, luma_row, luma_col }
    };
    (0..PLACES).map(|_| block()).collect()
}

type RustRows = (u16, [u16; 65], [u16; 65]);

/// The Rust's function, called as it stands.
type Rust = fn(&[u16], &[u16], ChromaRefGeometry) -> (RustRows, RustRows);

fn geometry(b: &Block) -> ChromaRefGeometry {
    ChromaRefGeometry {
        stride: WIDTH / b.format.sub_w,
        block_row: b.row,
        block_col: b.col,
        chroma_h: HEIGHT / b.format.sub_h,
        n: b.n,
        sub_w: b.format.sub_w,
        sub_h: b.format.sub_h,
        luma_w: WIDTH,
        luma_h: HEIGHT,
        luma_ctus_x: WIDTH.div_ceil(CTU as usize),
        min_luma_pu: b.unit,
        cur_luma_row: b.luma_row,
        cur_luma_col: b.luma_col,
        neutral: 1 << (BITS - 1),
    }
}

#[inline(always)]
fn proved(cb: &[u16], cr: &[u16], b: &Block, out: &mut ReferencePair) {
    // the lengths are those of the two planes
    unsafe {
        salvrunde_probe_get_reference_samples_chroma_pair(
            out,
            cb.as_ptr(),
            cb.len(),
            cr.as_ptr(),
            cr.len(),
            BITS,
            b.format.idc,
            WIDTH as u32,
            HEIGHT as u32,
            CTU,
            b.unit as u32,
            b.row as u32,
            b.col as u32,
            b.n,
            b.luma_row as u32,
            b.luma_col as u32,
        )
    };
}

pub fn time(table: &mut Table) {
    let call: Rust = black_box(get_reference_samples_chroma_pair);
    let rust = |cb: &[u16], cr: &[u16], b: &Block| call(cb, cr, geometry(b));
    let mut random = Random::new(8);
    let mut got = ReferencePair { no: 1, planes: [PlaneRows::ZERO; 2] };
    for format in FORMATS {
        let (width, height) = format.plane();
        let (cb, cr) = (plane(&mut random, width * height, BITS), plane(&mut random, width * height, BITS));
        for n in SIDES {
            let blocks = blocks(&mut random, format, n);
            for b in &blocks {
                proved(&cb, &cr, b, &mut got);
                let [x, y] = &got.planes;
                assert_eq!((got.no, (x.tuple(), y.tuple())), (0, rust(&cb, &cr, b)));
            }
            let times = race(
                &blocks,
                |b| {
                    black_box(&rust(black_box(&cb), black_box(&cr), b));
                },
                |b| proved(black_box(&cb), black_box(&cr), b, black_box(&mut got)),
            );
            table.line(&format!("chroma pair gather, {}", format.what), n, times, 0.25);
        }
    }
}
