//! This code beside that of another commit: each entry that both have, on the same inputs, called through a pointer by the same loop.
//! The answers of both are compared before they are timed. build.rs says which entries both have, and which have other arguments there.
use crate::entries::*;
use crate::frame::{Block, Frame};
use crate::gather;
use crate::gather_chroma;
use crate::inputs::{HEIGHT, Rows, SIDES, WIDTH, blocks, plane, rows, straight_rows};
use crate::race::race;
use crate::random::Random;
use crate::table::mean;
use crate::walk::{BITS, mixed_plan};
use std::fmt::Debug;
use std::hint::black_box;

/// The two archives' entries: `BOTH` and `APART`.
mod sides {
    include!(concat!(env!("OUT_DIR"), "/sides.rs"));
}

/// The most that an entry may take of its time before.
const MOST: f64 = 1.05;

/// An entry of one of the two, and whether it takes a plan as four slices or as a list of blocks.
#[derive(Clone, Copy)]
pub struct Side {
    call: unsafe extern "C" fn(),
    slices: bool,
}

impl Side {
    /// As what it is: build.rs has compared the arguments of both, and the driver's types are those of this commit's entries.
    fn of<F: Copy>(self) -> F {
        assert_eq!(size_of::<F>(), size_of_val(&self.call));
        unsafe { std::mem::transmute_copy(&self.call) }
    }
}

/// What an entry writes to. The tables are scratch, and what they hold afterwards is nobody's matter.
#[repr(C, align(64))]
struct Lent {
    pred: [u16; 1024],
    out: [u8; 2048],
    residual: [i32; 1024],
    two: TwoRows,
    rows: References,
    pair: ReferencePair,
    refs: [u16; 193],
    indices: [u32; 32],
    fractions: [u32; 32],
}

impl Lent {
    const ZERO: Lent = Lent {
        pred: [0; 1024],
        out: [0; 2048],
        residual: [0; 1024],
        two: TwoRows { no: 1, above: [0; 65], left: [0; 65] },
        rows: References { no: 1, rows: PlaneRows::ZERO },
        pair: ReferencePair { no: 1, planes: [PlaneRows::ZERO; 2] },
        refs: [0; 193],
        indices: [0; 32],
        fractions: [0; 32],
    };

    fn same(&self, other: &Lent) -> bool {
        (self.pred, self.out, self.residual) == (other.pred, other.out, other.residual)
            && (&self.two, &self.rows, &self.pair) == (&other.two, &other.rows, &other.pair)
    }
}

/// The lines as they are printed, and what they come to.
struct Ratios {
    all: Vec<f64>,
    slower: Vec<String>,
    timed: Vec<&'static str>,
}

impl Ratios {
    /// One entry, on these inputs: `call` makes the call for one of them.
    fn pit<I, L, R: PartialEq + Debug>(
        &mut self,
        name: &'static str,
        what: &str,
        inputs: &[I],
        lent: impl Fn() -> L,
        same: impl Fn(&L, &L) -> bool,
        call: impl Fn(Side, &I, &mut L) -> R,
    ) {
        let Some((_, [here, there])) = sides::BOTH.iter().find(|(entry, _)| *entry == name) else { return };
        let [here, there] = [here, there].map(|&(call, slices)| Side { call: black_box(call), slices });
        let (mut a, mut b) = (lent(), lent());
        for input in inputs {
            assert_eq!(call(here, input, &mut a), call(there, input, &mut b), "{what}: the answers differ");
            assert!(same(&a, &b), "{what}: what was written differs");
        }
        let times = race(
            inputs,
            |i| _ = black_box(call(there, i, black_box(&mut b))),
            |i| _ = black_box(call(here, i, black_box(&mut a))),
        );
        let ratio = times.to_called();
        let shown = if (ratio * 100.0).round() > MOST * 100.0 {
            self.slower.push(what.to_string());
            format!("**{ratio:.2}**")
        } else {
            format!("{ratio:.2}")
        };
        println!("| {what} | {:.1} | {:.1} | {shown} |", times.rust, times.rattle);
        self.all.push(ratio);
        self.timed.push(name);
    }

    /// An entry that is lent buffers and tables of the usual lengths.
    fn block<I, R: PartialEq + Debug>(
        &mut self,
        name: &'static str,
        what: &str,
        inputs: &[I],
        call: impl Fn(Side, &I, &mut Lent) -> R,
    ) {
        self.pit(name, what, inputs, || Box::new(Lent::ZERO), |a, b| a.same(b), |s, i, l| call(s, i, l));
    }
}

type Shared<T> = (*const T, usize);

fn shared<T>(list: &[T]) -> Shared<T> {
    (list.as_ptr(), list.len())
}

/// Rows as samples and as bytes.
struct Both {
    rows: Rows,
    bytes: [Vec<u8>; 2],
}

fn bytes_of(list: &[u16]) -> Vec<u8> {
    list.iter().flat_map(|v| v.to_le_bytes()).collect()
}

fn both(rows: Rows) -> Both {
    Both { bytes: [bytes_of(&rows.above), bytes_of(&rows.left)], rows }
}

/// Every input with each of the modes in turn, so that a run has all modes.
fn with_modes(inputs: &[Both], modes: std::ops::RangeInclusive<u8>) -> Vec<(&Both, u8)> {
    modes.flat_map(|mode| inputs.iter().skip(mode as usize % 16).step_by(16).map(move |r| (r, mode))).collect()
}

fn time_prediction(t: &mut Ratios, inputs: &[Both]) {
    for n in SIDES {
        t.block("salvrunde_probe_predict_planar_into", &format!("planar, {n}"), inputs, |s, r, l| unsafe {
            let (a, b, p) = (r.rows.above.as_ptr(), r.rows.left.as_ptr(), l.pred.as_mut_ptr());
            s.of::<PlanarDoor>()(a, 65, b, 65, n, p, 1024)
        });
    }
    for (edge, on) in [(false, ""), (true, ", edge on")] {
        for n in SIDES {
            t.block("salvrunde_probe_predict_dc_into", &format!("DC{on}, {n}"), inputs, |s, r, l| unsafe {
                let (a, b, p) = (r.rows.above.as_ptr(), r.rows.left.as_ptr(), l.pred.as_mut_ptr());
                s.of::<DcDoor>()(a, 65, b, 65, n, edge, p, 1024)
            });
        }
    }
    let angular = with_modes(inputs, 2..=34);
    for n in SIDES {
        t.block("salvrunde_probe_predict_angular_slices", &format!("angular, 33 modes, {n}"), &angular, |s, (r, m), l| unsafe {
            let (a, b, r, p) = (r.rows.above.as_ptr(), r.rows.left.as_ptr(), &r.rows, l.pred.as_mut_ptr());
            let (x, y, z) = (l.refs.as_mut_ptr(), l.indices.as_mut_ptr(), l.fractions.as_mut_ptr());
            s.of::<AngularDoor>()(r.corner, a, 65, b, 65, n, *m, true, r.bits, p, 1024, x, 193, y, 32, z, 32)
        });
    }
    let any = with_modes(inputs, 0..=34);
    for n in SIDES {
        t.block(
            "salvrunde_probe_predict_chroma_tb_slices",
            &format!("chroma block, 35 modes, {n}"),
            &any,
            |s, (r, m), l| unsafe {
                let (a, b, r, p) = (r.rows.above.as_ptr(), r.rows.left.as_ptr(), &r.rows, l.pred.as_mut_ptr());
                let (x, y, z) = (l.refs.as_mut_ptr(), l.indices.as_mut_ptr(), l.fractions.as_mut_ptr());
                s.of::<ChromaDoor>()(*m, r.corner, a, 65, b, 65, n, r.bits, p, 1024, x, 193, y, 32, z, 32)
            },
        );
    }
    type LumaDoor = unsafe extern "C" fn(
        u8,
        u16,
        *const u16,
        *const u16,
        usize,
        u32,
        *mut u16,
        usize,
        *mut u16,
        usize,
        *mut u32,
        usize,
        *mut u32,
        usize,
    ) -> u32;
    for n in SIDES {
        t.block("salvrunde_probe_predict_luma_tb_slices", &format!("luma block, 35 modes, {n}"), &any, |s, (r, m), l| unsafe {
            let (a, b, r, p) = (r.rows.above.as_ptr(), r.rows.left.as_ptr(), &r.rows, l.pred.as_mut_ptr());
            let (x, y, z) = (l.refs.as_mut_ptr(), l.indices.as_mut_ptr(), l.fractions.as_mut_ptr());
            s.of::<LumaDoor>()(*m, r.corner, a, b, n, r.bits, p, 1024, x, 193, y, 32, z, 32)
        });
    }
    time_scratch(t, &angular, &any);
}

/// The same three with a scratch that they make themselves.
fn time_scratch(t: &mut Ratios, angular: &[(&Both, u8)], any: &[(&Both, u8)]) {
    type Angular = unsafe extern "C" fn(u16, *const u16, usize, *const u16, usize, usize, u8, bool, u32, *mut u16, usize) -> u32;
    type Chroma = unsafe extern "C" fn(u8, u16, *const u16, usize, *const u16, usize, usize, u32, *mut u16, usize) -> u32;
    type Luma = unsafe extern "C" fn(u8, u16, *const u16, *const u16, usize, u32, *mut u16, usize) -> u32;
    for n in SIDES {
        t.block(
            "salvrunde_probe_predict_angular_scratch",
            &format!("angular, own scratch, {n}"),
            angular,
            |s, (r, m), l| unsafe {
                let (a, b, r, p) = (r.rows.above.as_ptr(), r.rows.left.as_ptr(), &r.rows, l.pred.as_mut_ptr());
                s.of::<Angular>()(r.corner, a, 65, b, 65, n, *m, true, r.bits, p, 1024)
            },
        );
        t.block(
            "salvrunde_probe_predict_chroma_tb_scratch",
            &format!("chroma block, own scratch, {n}"),
            any,
            |s, (r, m), l| unsafe {
                let (a, b, r, p) = (r.rows.above.as_ptr(), r.rows.left.as_ptr(), &r.rows, l.pred.as_mut_ptr());
                s.of::<Chroma>()(*m, r.corner, a, 65, b, 65, n, r.bits, p, 1024)
            },
        );
        t.block(
            "salvrunde_probe_predict_luma_tb_scratch",
            &format!("luma block, own scratch, {n}"),
            any,
            |s, (r, m), l| unsafe {
                let (a, b, r, p) = (r.rows.above.as_ptr(), r.rows.left.as_ptr(), &r.rows, l.pred.as_mut_ptr());
                s.of::<Luma>()(*m, r.corner, a, b, n, r.bits, p, 1024)
            },
        );
    }
}

fn time_bytes(t: &mut Ratios, inputs: &[Both]) {
    for n in SIDES {
        t.block("salvrunde_planar", &format!("on bytes: planar, {n}"), inputs, |s, r, l| unsafe {
            let (a, b, out) = (r.bytes[0].as_ptr(), r.bytes[1].as_ptr(), l.out.as_mut_ptr());
            s.of::<PlanarEntry>()(n as u32, a, 130, b, 130, out, 2048)
        });
        t.block("salvrunde_dc", &format!("on bytes: DC, edge on, {n}"), inputs, |s, r, l| unsafe {
            let (a, b, out) = (r.bytes[0].as_ptr(), r.bytes[1].as_ptr(), l.out.as_mut_ptr());
            s.of::<DcEntry>()(n as u32, 1, a, 130, b, 130, out, 2048)
        });
        t.block(
            "salvrunde_angular",
            &format!("on bytes: angular, 33 modes, {n}"),
            &with_modes(inputs, 2..=34),
            |s, (r, m), l| unsafe {
                let (a, b, r, out) = (r.bytes[0].as_ptr(), r.bytes[1].as_ptr(), &r.rows, l.out.as_mut_ptr());
                s.of::<AngularEntry>()(r.bits, n as u32, *m as u32, 1, r.corner, a, 130, b, 130, out, 2048)
            },
        );
        let any = with_modes(inputs, 0..=34);
        t.block("salvrunde_chroma_block", &format!("on bytes: chroma block, 35 modes, {n}"), &any, |s, (r, m), l| unsafe {
            let (a, b, r, out) = (r.bytes[0].as_ptr(), r.bytes[1].as_ptr(), &r.rows, l.out.as_mut_ptr());
            s.of::<ChromaEntry>()(r.bits, n as u32, *m as u32, r.corner, a, 130, b, 130, out, 2048)
        });
    }
}

fn time_smoothing(t: &mut Ratios) {
    type TwoDoor = unsafe extern "C" fn(*mut TwoRows, u16, *const u16, usize, *const u16, usize, usize) -> *mut TwoRows;
    type Door = unsafe extern "C" fn(*mut References, u16, *const u16, usize, *const u16, usize, usize, u32) -> *mut References;
    type Rule = unsafe extern "C" fn(u8, usize) -> Answer;
    let (weak, strong) = (rows(3), straight_rows(4));
    let cases: Vec<(u8, usize)> = (0..=34).flat_map(|mode| SIDES.map(|n| (mode, n))).collect();
    t.block("salvrunde_probe_should_filter_refs", "smoothing rule", &cases, |s, &(mode, n), _| unsafe {
        s.of::<Rule>()(mode, n)
    });
    for n in SIDES {
        t.block("salvrunde_probe_filter_references", &format!("filter_references, {n}"), &weak, |s, r, l| unsafe {
            let (a, b) = (r.above.as_ptr(), r.left.as_ptr());
            s.of::<TwoDoor>()(&mut l.two, r.corner, a, 65, b, 65, n);
        });
        t.block("salvrunde_probe_filter_luma_refs", &format!("filter_luma_refs, {n}"), &weak, |s, r, l| unsafe {
            let (a, b) = (r.above.as_ptr(), r.left.as_ptr());
            s.of::<Door>()(&mut l.rows, r.corner, a, 65, b, 65, n, r.bits);
        });
    }
    t.block("salvrunde_probe_filter_luma_refs", "filter_luma_refs, strong form, 32", &strong, |s, r, l| unsafe {
        let (a, b) = (r.above.as_ptr(), r.left.as_ptr());
        s.of::<Door>()(&mut l.rows, r.corner, a, 65, b, 65, 32, r.bits);
    });
}

fn time_order(t: &mut Ratios) {
    type Order = unsafe extern "C" fn(u32, u32, u32, u32, u32, u32) -> Answer;
    type Available = unsafe extern "C" fn(i64, i64, u32, u32, u32, u32, u32, u32) -> Answer;
    let mut random = Random::new(21);
    let mut place = || [random.below(HEIGHT as u64) as u32, random.below(WIDTH as u64) as u32];
    let places: Vec<[u32; 4]> = (0..256).map(|_| [place(), place()].concat().try_into().unwrap()).collect();
    let (w, h) = (WIDTH as u32, HEIGHT as u32);
    t.block("salvrunde_probe_decode_order", "decode order", &places, |s, p, _| unsafe {
        s.of::<Order>()(p[0], p[1], w, h, 64, 4)
    });
    t.block("salvrunde_probe_is_available", "availability", &places, |s, p, _| unsafe {
        s.of::<Available>()(p[2] as i64, p[3] as i64, p[0], p[1], w, h, 64, 4)
    });
}

fn time_substitution(t: &mut Ratios) {
    type Door = unsafe extern "C" fn(
        *mut References,
        u16,
        *const u16,
        *const u16,
        bool,
        *const [bool; 65],
        *const [bool; 65],
        usize,
        u32,
    ) -> *mut References;
    let mut random = Random::new(22);
    let mut flags = || -> [bool; 65] {
        let there = random.below(66) as usize;
        std::array::from_fn(|i| i < there)
    };
    let inputs: Vec<(Rows, [bool; 65], [bool; 65])> = rows(23).into_iter().map(|r| (r, flags(), flags())).collect();
    for n in SIDES {
        t.block("salvrunde_probe_substitute_refs", &format!("substitution, {n}"), &inputs, |s, (r, a, b), l| unsafe {
            let (above, left) = (r.above.as_ptr(), r.left.as_ptr());
            s.of::<Door>()(&mut l.rows, r.corner, above, left, a[0], a, b, n, r.bits);
        });
    }
}

fn time_luma_refs(t: &mut Ratios) {
    let mut random = Random::new(7);
    let plane = plane(&mut random, WIDTH * HEIGHT, gather::BITS);
    let bytes = bytes_of(&plane);
    let (w, h) = (WIDTH as u32, HEIGHT as u32);
    for n in SIDES {
        for unit in [4, 8].into_iter().filter(|&unit| unit <= n) {
            let blocks = gather::blocks(&mut random, n, 64, unit);
            t.block(
                "salvrunde_probe_get_reference_samples",
                &format!("luma gather, unit {unit}, {n}"),
                &blocks,
                |s, b, l| unsafe {
                    let (p, len) = shared(&plane);
                    let (row, col, unit) = (b.row as u32, b.col as u32, b.unit as u32);
                    s.of::<LumaRefsDoor>()(&mut l.rows, p, len, gather::BITS, w, h, 64, unit, row, col, b.n);
                },
            );
            t.block("salvrunde_luma_refs", &format!("on bytes: luma gather, unit {unit}, {n}"), &blocks, |s, b, l| unsafe {
                let (p, len) = shared(&bytes);
                let (row, col, unit, n) = (b.row as u32, b.col as u32, b.unit as u32, b.n as u32);
                s.of::<LumaRefsEntry>()(gather::BITS, w, h, 64, unit, row, col, n, p, len, l.out.as_mut_ptr(), 262)
            });
        }
    }
}

fn time_chroma_refs(t: &mut Ratios) {
    let mut random = Random::new(8);
    let (bits, w, h, ctu) = (gather_chroma::BITS, WIDTH as u32, HEIGHT as u32, gather_chroma::CTU);
    for format in gather_chroma::FORMATS {
        let (width, height) = format.plane();
        let [cb, cr] = [0; 2].map(|_| plane(&mut random, width * height, bits));
        let [cb_bytes, cr_bytes] = [&cb, &cr].map(|p| bytes_of(p));
        for n in SIDES {
            let blocks = gather_chroma::blocks(&mut random, format, n);
            let name = format!("chroma gather, {}, {n}", format.what);
            t.block("salvrunde_probe_get_reference_samples_chroma_pair", &name, &blocks, |s, b, l| unsafe {
                let ((x, x_len), (y, y_len)) = (shared(&cb), shared(&cr));
                let (row, col, unit) = (b.row as u32, b.col as u32, b.unit as u32);
                let (at, across) = (b.luma_row as u32, b.luma_col as u32);
                s.of::<ChromaRefsDoor>()(
                    &mut l.pair,
                    x,
                    x_len,
                    y,
                    y_len,
                    bits,
                    b.format.idc,
                    w,
                    h,
                    ctu,
                    unit,
                    row,
                    col,
                    b.n,
                    at,
                    across,
                );
            });
            t.block("salvrunde_chroma_refs_ctu", &format!("on bytes: {name}"), &blocks, |s, b, l| unsafe {
                let ((x, x_len), (y, y_len)) = (shared(&cb_bytes), shared(&cr_bytes));
                let (row, col, unit, n, idc) = (b.row as u32, b.col as u32, b.unit as u32, b.n as u32, b.format.idc);
                let (at, across, out) = (b.luma_row as u32, b.luma_col as u32, l.out.as_mut_ptr());
                s.of::<ChromaRefsEntry>()(bits, idc, w, h, ctu, unit, row, col, n, at, across, x, x_len, y, y_len, out, 524)
            });
        }
    }
}

fn time_residual(t: &mut Ratios) {
    type Residual = unsafe extern "C" fn(*const u16, usize, *const u16, usize, usize, *mut i32, usize) -> u32;
    type Reconstruct = unsafe extern "C" fn(*const u16, usize, *const i32, usize, usize, u32, *mut u16, usize) -> u32;
    for n in SIDES {
        let blocks = blocks(5, n);
        t.block("salvrunde_probe_compute_residual_i32_into", &format!("residual, {n}"), &blocks, |s, b, l| unsafe {
            let ((o, o_len), (p, p_len)) = (shared(&b.original), shared(&b.predicted));
            s.of::<Residual>()(o, o_len, p, p_len, n, l.residual.as_mut_ptr(), 1024)
        });
        t.block("salvrunde_probe_reconstruct_into", &format!("reconstruction, {n}"), &blocks, |s, b, l| unsafe {
            let ((p, p_len), (r, r_len)) = (shared(&b.predicted), shared(&b.residual));
            s.of::<Reconstruct>()(p, p_len, r, r_len, n, b.bits, l.pred.as_mut_ptr(), 1024)
        });
    }
}

/// A still and its plan, in every form that an entry takes a plan in.
struct Still {
    frame: Frame,
    plan: Vec<Block>,
    /// Rows, columns, sides, modes.
    columns: [Vec<u32>; 4],
    /// Records of six bytes.
    records: Vec<u8>,
    source: Vec<u16>,
    residuals: Vec<i32>,
}

impl Still {
    fn new() -> Still {
        let frame = Frame { width: WIDTH as u32, height: HEIGHT as u32, ctu: 64 };
        let (plan, mut random) = (mixed_plan(frame), Random::new(31));
        let columns = std::array::from_fn(|k| plan.iter().map(|b| b[k]).collect());
        let record = |b: &Block| [b[0] as u8, (b[0] >> 8) as u8, b[1] as u8, (b[1] >> 8) as u8, b[2] as u8, b[3] as u8];
        let records = plan.iter().flat_map(record).collect();
        let source = plane(&mut random, WIDTH * HEIGHT, BITS);
        // those of a walk would need one; any in range will do, since the clamp is part of the work
        let residuals = (0..source.len()).map(|_| random.below(64) as i32 - 32).collect();
        Still { frame, plan, columns, records, source, residuals }
    }
}

/// What walk and replay write to.
struct Planes {
    work: Vec<u16>,
    bytes: Vec<u8>,
    residuals: Vec<i32>,
    result: [u8; 8],
    refs: [u16; 193],
    indices: [u32; 32],
    fractions: [u32; 32],
}

impl Planes {
    fn new() -> Planes {
        let many = WIDTH * HEIGHT;
        let tables = ([0; 193], [0; 32], [0; 32]);
        let (work, bytes, residuals) = (vec![1; many], vec![1; 2 * many], vec![0; many]);
        Planes { work, bytes, residuals, result: [0; 8], refs: tables.0, indices: tables.1, fractions: tables.2 }
    }

    fn same(&self, other: &Planes) -> bool {
        (&self.work, &self.bytes, &self.residuals, self.result) == (&other.work, &other.bytes, &other.residuals, other.result)
    }
}

/// Calls an entry that takes a plan of numbers, in the form that its side takes it in: `$first`, the plan, `$last`.
macro_rules! planned {
    ($side:expr, $still:expr, ($($first:ty),*) = ($($a:expr),*), ($($last:ty),*) = ($($b:expr),*), $answer:ty) => {{
        let (first, [rows, cols, sides, modes]) = (shared(&$still.plan), &$still.columns);
        if $side.slices {
            type Call = unsafe extern "C" fn(
                $($first,)* *const u32, usize, *const u32, usize, *const u32, usize, *const u32, usize $(, $last)*
            ) -> $answer;
            let [r, c, s, m] = [rows, cols, sides, modes].map(|list| shared(list));
            unsafe { $side.of::<Call>()($($a,)* r.0, r.1, c.0, c.1, s.0, s.1, m.0, m.1 $(, $b)*) }
        } else {
            type Call = unsafe extern "C" fn($($first,)* *const Block, usize $(, $last)*) -> $answer;
            unsafe { $side.of::<Call>()($($a,)* first.0, first.1 $(, $b)*) }
        }
    }};
}

/// Whole stills in one call, and their checks alone: the same call with a grant of 0.
fn time_stills(t: &mut Ratios) {
    let still = Still::new();
    let Frame { width: w, height: h, ctu } = still.frame;
    let many = still.source.len();
    let inputs = [&still];
    t.pit(
        "salvrunde_probe_check_plan",
        "plan check, 1280 × 960",
        &inputs,
        || (),
        |_, _| true,
        |side, s, _| planned!(side, s, (u32, u32, u32) = (w, h, ctu), () = (), PlanAnswer),
    );
    for (grant, which) in [(u32::MAX, ""), (0, ", checks alone")] {
        t.pit("salvrunde_probe_walk", &format!("walk, 1280 × 960{which}"), &inputs, Planes::new, Planes::same, |side, s, p| {
            planned!(
                side,
                s,
                (u32, u32, u32, u32, u32) = (0, BITS, w, h, ctu),
                (*const u16, usize, *mut u16, usize, *mut i32, usize, *mut u16, usize, *mut u32, usize, *mut u32, usize, u32) = (
                    s.source.as_ptr(),
                    many,
                    p.work.as_mut_ptr(),
                    many,
                    p.residuals.as_mut_ptr(),
                    many,
                    p.refs.as_mut_ptr(),
                    193,
                    p.indices.as_mut_ptr(),
                    32,
                    p.fractions.as_mut_ptr(),
                    32,
                    grant
                ),
                Step
            )
        });
        t.pit(
            "salvrunde_probe_replay",
            &format!("replay, 1280 × 960{which}"),
            &inputs,
            Planes::new,
            Planes::same,
            |side, s, p| {
                planned!(
                    side,
                    s,
                    (u32, u32, u32, u32, u32) = (0, BITS, w, h, ctu),
                    (*const i32, usize, *mut u16, usize, *mut u16, usize, *mut u32, usize, *mut u32, usize, u32) = (
                        s.residuals.as_ptr(),
                        many,
                        p.work.as_mut_ptr(),
                        many,
                        p.refs.as_mut_ptr(),
                        193,
                        p.indices.as_mut_ptr(),
                        32,
                        p.fractions.as_mut_ptr(),
                        32,
                        grant
                    ),
                    Step
                )
            },
        );
        t.pit(
            "salvrunde_replay",
            &format!("on bytes: replay, 1280 × 960{which}"),
            &inputs,
            Planes::new,
            Planes::same,
            |side, s, p| {
                let ((plan, long), residuals) = (shared(&s.records), s.residuals.as_ptr().cast::<u8>());
                let (out, to) = (p.bytes.as_mut_ptr(), p.result.as_mut_ptr());
                // the residuals are the driver's own i32s: lowest byte first on every processor that the archive is compiled for
                unsafe {
                    side.of::<ReplayEntry>()(0, BITS, w, h, ctu, grant, plan, long, residuals, 4 * many, out, 2 * many, to, 8)
                }
            },
        );
    }
    time_records(t, &inputs);
}

/// The scratch's tables as the record that the entries over block records take.
#[repr(C)]
struct Scratch {
    refs: [u16; 193],
    indices: [u32; 32],
    fractions: [u32; 32],
}

fn time_records(t: &mut Ratios, inputs: &[&Still]) {
    type Walk = unsafe extern "C" fn(
        u32,
        u32,
        u32,
        u32,
        u32,
        *const Block,
        usize,
        *const u16,
        usize,
        *mut u16,
        usize,
        *mut i32,
        usize,
        *mut Scratch,
        u32,
    ) -> Step;
    type Replay = unsafe extern "C" fn(
        u32,
        u32,
        u32,
        u32,
        u32,
        *const Block,
        usize,
        *const i32,
        usize,
        *mut u16,
        usize,
        *mut Scratch,
        u32,
    ) -> Step;
    let many = WIDTH * HEIGHT;
    let scratch = || Scratch { refs: [0; 193], indices: [0; 32], fractions: [0; 32] };
    t.pit("salvrunde_probe_walk_records", "walk over records, 1280 × 960", inputs, Planes::new, Planes::same, |side, s, p| {
        let (Frame { width: w, height: h, ctu }, (plan, blocks)) = (s.frame, shared(&s.plan));
        let (x, y, z, mut tables) = (s.source.as_ptr(), p.work.as_mut_ptr(), p.residuals.as_mut_ptr(), scratch());
        unsafe { side.of::<Walk>()(0, BITS, w, h, ctu, plan, blocks, x, many, y, many, z, many, &mut tables, u32::MAX) }
    });
    t.pit(
        "salvrunde_probe_replay_records",
        "replay over records, 1280 × 960",
        inputs,
        Planes::new,
        Planes::same,
        |side, s, p| {
            let (Frame { width: w, height: h, ctu }, (plan, blocks)) = (s.frame, shared(&s.plan));
            let (x, y, mut tables) = (s.residuals.as_ptr(), p.work.as_mut_ptr(), scratch());
            unsafe { side.of::<Replay>()(0, BITS, w, h, ctu, plan, blocks, x, many, y, many, &mut tables, u32::MAX) }
        },
    );
}

pub fn time() {
    println!("| Call | There, ns | Here, ns | Ratio |");
    println!("|---|--:|--:|--:|");
    let mut t = Ratios { all: Vec::new(), slower: Vec::new(), timed: Vec::new() };
    let inputs: Vec<Both> = rows(9).into_iter().map(both).collect();
    time_prediction(&mut t, &inputs);
    time_smoothing(&mut t);
    time_order(&mut t);
    time_substitution(&mut t);
    time_luma_refs(&mut t);
    time_chroma_refs(&mut t);
    time_residual(&mut t);
    time_bytes(&mut t, &inputs);
    time_stills(&mut t);
    println!("\nGeometric mean of {} ratios: {:.3}. Above {MOST}: {}.", t.all.len(), mean(&t.all), or_none(&t.slower));
    for (name, why) in sides::APART {
        println!("Left out: {name}, which {why}.");
    }
    let untimed: Vec<String> =
        sides::BOTH.iter().map(|(name, _)| name.to_string()).filter(|name| !t.timed.contains(&name.as_str())).collect();
    println!("Not timed: {}.", or_none(&untimed));
}

fn or_none(list: &[String]) -> String {
    if list.is_empty() { "none".into() } else { list.join("; ") }
}
