//! The entries on bytes, those of crate camera, beside the doors that they stand for: the same values, both called through a pointer.
use crate::entries::*;
use crate::gather;
use crate::gather_chroma;
use crate::inputs::{HEIGHT, Rows, SIDES, WIDTH, plane, rows};
use crate::race::{Times, race};
use crate::random::Random;
use crate::table::{Table, mean};
use crate::walk;
use std::hint::black_box;

/// The most that a gather or the replay may take of its door's time.
const MOST: f64 = 1.15;

/// The most that prediction may take: it reads rows into arrays, calls the door and stores the block, which weighs most in the smallest.
fn most_of_prediction(n: usize) -> f64 {
    if n == 4 { 1.6 } else { 1.3 }
}

/// Samples or residuals as bytes, the lowest first.
fn bytes_of<const N: usize>(bytes: impl Iterator<Item = [u8; N]>) -> Vec<u8> {
    bytes.flatten().collect()
}

fn samples(list: &[u16]) -> Vec<u8> {
    bytes_of(list.iter().map(|v| v.to_le_bytes()))
}

/// A row, which starts at a line of the cache in either form.
#[repr(C, align(64))]
struct Line<T>(T);

/// A block's references in both forms.
struct Both {
    rows: Rows,
    samples: [Line<[u16; 65]>; 2],
    bytes: [Line<[u8; 130]>; 2],
}

/// What both sides are lent. The door's block and the entry's lie alike, as their rows do: a load or store that crosses a line of the cache takes longer, whoever makes it.
#[repr(C, align(64))]
struct Lent {
    pred: [u16; 1024],
    out: [u8; 2048],
    refs: [u16; 193],
    indices: [u32; 32],
    fractions: [u32; 32],
}

/// A predictor in both forms: the lengths are those of the slices.
struct Pair<D: Fn(&Both, usize, u32, &mut Lent) -> u32, E: Fn(&Both, usize, u32, &mut Lent) -> u32> {
    what: &'static str,
    modes: std::ops::RangeInclusive<u32>,
    door: D,
    entry: E,
}

impl<D: Fn(&Both, usize, u32, &mut Lent) -> u32, E: Fn(&Both, usize, u32, &mut Lent) -> u32> Pair<D, E> {
    fn time(&self, table: &mut Table, inputs: &[Both], lent: &mut [Lent; 2]) {
        let [a, b] = lent;
        for n in SIDES {
            let (mut sum, mut ratios) = (Times { rust: 0.0, inlined: f64::NAN, rattle: 0.0 }, Vec::new());
            for mode in self.modes.clone() {
                for r in inputs {
                    assert_eq!(((self.door)(r, n, mode, a), (self.entry)(r, n, mode, b)), (0, 0));
                    assert_eq!(samples(&a.pred[..n * n]), b.out[..2 * n * n], "{} {n} {mode}", self.what);
                }
                let times = race(
                    inputs,
                    |r| _ = black_box((self.door)(r, black_box(n), black_box(mode), black_box(a))),
                    |r| _ = black_box((self.entry)(r, black_box(n), black_box(mode), black_box(b))),
                );
                sum.rust += times.rust;
                sum.rattle += times.rattle;
                ratios.push(times.to_called());
            }
            let each = ratios.len() as f64;
            table.entry(self.what, n, sum.rust / each, sum.rattle / each, mean(&ratios), most_of_prediction(n));
        }
    }
}

fn time_prediction(table: &mut Table) {
    let both = |rows: Rows| {
        let bytes = [&rows.above, &rows.left].map(|row| Line(samples(row).try_into().unwrap()));
        Both { samples: [Line(rows.above), Line(rows.left)], bytes, rows }
    };
    let inputs: Vec<Both> = rows(9).into_iter().map(both).collect();
    let lent = || Lent { pred: [0; 1024], out: [0; 2048], refs: [0; 193], indices: [0; 32], fractions: [0; 32] };
    let mut lent = [lent(), lent()];
    let door: PlanarDoor = black_box(salvrunde_probe_predict_planar_into);
    let entry: PlanarEntry = black_box(salvrunde_planar);
    let planar = Pair {
        what: "planar",
        modes: 0..=0,
        door: |r, n, _, l| unsafe {
            door(r.samples[0].0.as_ptr(), 65, r.samples[1].0.as_ptr(), 65, n, l.pred.as_mut_ptr(), 1024)
        },
        entry: |r, n, _, l| unsafe {
            entry(n as u32, r.bytes[0].0.as_ptr(), 130, r.bytes[1].0.as_ptr(), 130, l.out.as_mut_ptr(), 2048)
        },
    };
    planar.time(table, &inputs, &mut lent);
    let door: DcDoor = black_box(salvrunde_probe_predict_dc_into);
    let entry: DcEntry = black_box(salvrunde_dc);
    for (what, edge) in [("DC", false), ("DC, edge on", true)] {
        let dc = Pair {
            what,
            modes: 1..=1,
            door: |r, n, _, l| unsafe {
                door(r.samples[0].0.as_ptr(), 65, r.samples[1].0.as_ptr(), 65, n, edge, l.pred.as_mut_ptr(), 1024)
            },
            entry: |r, n, _, l| unsafe {
                entry(n as u32, edge as u32, r.bytes[0].0.as_ptr(), 130, r.bytes[1].0.as_ptr(), 130, l.out.as_mut_ptr(), 2048)
            },
        };
        dc.time(table, &inputs, &mut lent);
    }
    let door: AngularDoor = black_box(salvrunde_probe_predict_angular_slices);
    let entry: AngularEntry = black_box(salvrunde_angular);
    let angular = Pair {
        what: "angular, edge on, 33 modes",
        modes: 2..=34,
        door: |r, n, mode, l| {
            let (refs, indices, fractions) = (l.refs.as_mut_ptr(), l.indices.as_mut_ptr(), l.fractions.as_mut_ptr());
            let (a, b, r, p) = (r.samples[0].0.as_ptr(), r.samples[1].0.as_ptr(), &r.rows, l.pred.as_mut_ptr());
            unsafe { door(r.corner, a, 65, b, 65, n, mode as u8, true, r.bits, p, 1024, refs, 193, indices, 32, fractions, 32) }
        },
        entry: |r, n, mode, l| {
            let (a, b, r, out) = (r.bytes[0].0.as_ptr(), r.bytes[1].0.as_ptr(), &r.rows, l.out.as_mut_ptr());
            unsafe { entry(r.bits, n as u32, mode, 1, r.corner, a, 130, b, 130, out, 2048) }
        },
    };
    angular.time(table, &inputs, &mut lent);
    let door: ChromaDoor = black_box(salvrunde_probe_predict_chroma_tb_slices);
    let entry: ChromaEntry = black_box(salvrunde_chroma_block);
    let chroma = Pair {
        what: "chroma block, 35 modes",
        modes: 0..=34,
        door: |r, n, mode, l| {
            let (refs, indices, fractions) = (l.refs.as_mut_ptr(), l.indices.as_mut_ptr(), l.fractions.as_mut_ptr());
            let (a, b, r, p) = (r.samples[0].0.as_ptr(), r.samples[1].0.as_ptr(), &r.rows, l.pred.as_mut_ptr());
            unsafe { door(mode as u8, r.corner, a, 65, b, 65, n, r.bits, p, 1024, refs, 193, indices, 32, fractions, 32) }
        },
        entry: |r, n, mode, l| {
            let (a, b, r, out) = (r.bytes[0].0.as_ptr(), r.bytes[1].0.as_ptr(), &r.rows, l.out.as_mut_ptr());
            unsafe { entry(r.bits, n as u32, mode, r.corner, a, 130, b, 130, out, 2048) }
        },
    };
    chroma.time(table, &inputs, &mut lent);
}

/// Rows as the gathers' entries write them.
fn in_line(r: &PlaneRows) -> Vec<u8> {
    [samples(&[r.corner]), samples(&r.above), samples(&r.left)].concat()
}

fn time_luma_refs(table: &mut Table) {
    let door: LumaRefsDoor = black_box(salvrunde_probe_get_reference_samples);
    let entry: LumaRefsEntry = black_box(salvrunde_luma_refs);
    let mut random = Random::new(10);
    let plane = plane(&mut random, WIDTH * HEIGHT, gather::BITS);
    let bytes = samples(&plane);
    let mut got = References { no: 1, rows: PlaneRows::ZERO };
    let mut out = [0u8; 262];
    let (w, h) = (WIDTH as u32, HEIGHT as u32);
    for n in SIDES {
        let blocks = gather::blocks(&mut random, n, 64, n.min(8));
        let of = |b: &gather::Block, out: &mut References| unsafe {
            let (row, col) = (b.row as u32, b.col as u32);
            door(out, plane.as_ptr(), plane.len(), gather::BITS, w, h, b.ctu as u32, b.unit as u32, row, col, b.n);
        };
        let on = |b: &gather::Block, out: &mut [u8]| unsafe {
            let (row, col, n) = (b.row as u32, b.col as u32, b.n as u32);
            let (ctu, unit, to) = (b.ctu as u32, b.unit as u32, out.as_mut_ptr());
            entry(gather::BITS, w, h, ctu, unit, row, col, n, bytes.as_ptr(), bytes.len(), to, out.len())
        };
        for b in &blocks {
            of(b, &mut got);
            assert_eq!((got.no, on(b, &mut out), &in_line(&got.rows)[..]), (0, 0, &out[..]));
        }
        let times = race(&blocks, |b| of(b, black_box(&mut got)), |b| _ = black_box(on(b, black_box(&mut out))));
        table.entry("luma gather", n, times.rust, times.rattle, times.to_called(), MOST);
    }
}

fn time_chroma_refs(table: &mut Table) {
    let door: ChromaRefsDoor = black_box(salvrunde_probe_get_reference_samples_chroma_pair);
    let entry: ChromaRefsEntry = black_box(salvrunde_chroma_refs_ctu);
    let mut random = Random::new(11);
    let format = gather_chroma::FORMATS[0];
    let (width, height) = format.plane();
    let [cb, cr] = [0; 2].map(|_| plane(&mut random, width * height, gather_chroma::BITS));
    let (bytes_cb, bytes_cr) = (samples(&cb), samples(&cr));
    let mut got = ReferencePair { no: 1, planes: [PlaneRows::ZERO; 2] };
    let mut out = [0u8; 524];
    let (bits, w, h, ctu) = (gather_chroma::BITS, WIDTH as u32, HEIGHT as u32, gather_chroma::CTU);
    for n in SIDES {
        let blocks = gather_chroma::blocks(&mut random, format, n);
        let of = |b: &gather_chroma::Block, out: &mut ReferencePair| unsafe {
            let (row, col, unit, at) = (b.row as u32, b.col as u32, b.unit as u32, (b.luma_row as u32, b.luma_col as u32));
            let (cb, cr, len) = (cb.as_ptr(), cr.as_ptr(), cb.len());
            door(out, cb, len, cr, len, bits, b.format.idc, w, h, ctu, unit, row, col, b.n, at.0, at.1);
        };
        let on = |b: &gather_chroma::Block, out: &mut [u8]| unsafe {
            let (row, col, unit, at) = (b.row as u32, b.col as u32, b.unit as u32, (b.luma_row as u32, b.luma_col as u32));
            let (cb, cr, len) = (bytes_cb.as_ptr(), bytes_cr.as_ptr(), bytes_cb.len());
            let (n, to) = (b.n as u32, out.as_mut_ptr());
            entry(bits, b.format.idc, w, h, ctu, unit, row, col, n, at.0, at.1, cb, len, cr, len, to, out.len())
        };
        for b in &blocks {
            of(b, &mut got);
            let both = [in_line(&got.planes[0]), in_line(&got.planes[1])].concat();
            assert_eq!((got.no, on(b, &mut out), &both[..]), (0, 0, &out[..]));
        }
        let times = race(&blocks, |b| of(b, black_box(&mut got)), |b| _ = black_box(on(b, black_box(&mut out))));
        table.entry("chroma gather, 4:2:0", n, times.rust, times.rattle, times.to_called(), MOST);
    }
}

/// The still of walk and replay, its plan, residuals and plane as bytes.
fn time_replay(table: &mut Table) {
    let entry: ReplayEntry = black_box(salvrunde_replay);
    let mut still = walk::Still::new(WIDTH, HEIGHT);
    still.walk(u32::MAX);
    let record = |b: &[u32; 4]| [b[0] as u8, (b[0] >> 8) as u8, b[1] as u8, (b[1] >> 8) as u8, b[2] as u8, b[3] as u8];
    let plan = bytes_of(still.plan.iter().map(record));
    let residuals = bytes_of(still.residuals.iter().map(|v| v.to_le_bytes()));
    let (mut plane, mut result) = (vec![1u8; 2 * still.source.len()], [0u8; 8]);
    let (w, h, ctu) = (still.frame.width, still.frame.height, still.frame.ctu);
    let mut on = |plane: &mut [u8]| unsafe {
        let (p, r, to) = (plan.as_ptr(), residuals.as_ptr(), result.as_mut_ptr());
        entry(0, walk::BITS, w, h, ctu, u32::MAX, p, plan.len(), r, residuals.len(), plane.as_mut_ptr(), plane.len(), to, 8)
    };
    still.work.fill(1);
    assert_eq!((still.replay(u32::MAX).no, on(&mut plane)), (0, 0));
    assert!(still.work == still.source && plane == samples(&still.work));
    let times = race(&[()], |_| _ = black_box(still.replay(black_box(u32::MAX))), |_| _ = black_box(on(black_box(&mut plane))));
    table.entry("replay of 1280 × 960, mixed", 0, times.rust, times.rattle, times.to_called(), MOST);
}

pub fn time(table: &mut Table) {
    table.entries();
    time_prediction(table);
    time_luma_refs(table);
    time_chroma_refs(table);
    time_replay(table);
}
