//! Walk and replay of whole stills in one call, all checks included, beside the Rust's functions in a loop of the driver's.
use crate::assembled::Job;
use crate::entries::{Step, salvrunde_probe_replay, salvrunde_probe_walk};
use crate::frame::{Block, Frame, quarters};
use crate::inputs::{HEIGHT, WIDTH, plane};
use crate::race::{Times, alone, race};
use crate::random::Random;
use crate::table::Table;
use std::hint::black_box;

pub const BITS: u32 = 10;
/// Sides of the pictures that show how the cost grows.
const GROWING: [usize; 4] = [64, 256, 1024, 4096];

/// A plan with as many samples in blocks of each side as of any other: a quarter of each CTU has blocks of one side, which changes
/// from CTU to CTU. The blocks of a side have all modes in turn.
pub fn mixed_plan(frame: Frame) -> Vec<Block> {
    let (mut plan, mut sides, mut turn) = (Vec::new(), [32, 16, 8, 4], [0; 4]);
    for (row, col) in frame.ctus() {
        for ((r, c), side) in quarters(row, col, frame.ctu).into_iter().zip(sides) {
            let mut squares = Vec::new();
            frame.add_squares(r, c, frame.ctu / 2, side, &mut squares);
            let next = &mut turn[side.ilog2() as usize - 2];
            for (r, c) in squares {
                plan.push([r, c, side, *next % 35]);
                *next += 1;
            }
        }
        sides.rotate_left(1);
    }
    plan
}

/// A still with such a plan, and what the doors are lent.
pub struct Still {
    pub frame: Frame,
    pub plan: Vec<Block>,
    /// The plan as rows, columns, sides and modes.
    lists: [Vec<u32>; 4],
    pub source: Vec<u16>,
    pub work: Vec<u16>,
    pub residuals: Vec<i32>,
    refs: [u16; 193],
    indices: [u32; 32],
    fractions: [u32; 32],
}

impl Still {
    pub fn new(width: usize, height: usize) -> Still {
        let mut random = Random::new(31);
        let frame = Frame { width: width as u32, height: height as u32, ctu: 64 };
        let (plan, source) = (mixed_plan(frame), plane(&mut random, width * height, BITS));
        let (work, residuals) = (vec![0; source.len()], vec![0; source.len()]);
        let lists = [0, 1, 2, 3].map(|field| plan.iter().map(|b| b[field]).collect());
        Still { frame, plan, lists, source, work, residuals, refs: [0; 193], indices: [0; 32], fractions: [0; 32] }
    }

    fn job(&self) -> Job<'_> {
        Job { bits: BITS, frame: self.frame, plan: &self.plan, blocks: 0..self.plan.len() }
    }

    /// A fresh walk of so many blocks. The lengths are those of the slices.
    pub fn walk(&mut self, grant: u32) -> Step {
        let Frame { width, height, ctu } = self.frame;
        unsafe {
            salvrunde_probe_walk(
                0,
                BITS,
                width,
                height,
                ctu,
                self.lists[0].as_ptr(),
                self.lists[0].len(),
                self.lists[1].as_ptr(),
                self.lists[1].len(),
                self.lists[2].as_ptr(),
                self.lists[2].len(),
                self.lists[3].as_ptr(),
                self.lists[3].len(),
                self.source.as_ptr(),
                self.source.len(),
                self.work.as_mut_ptr(),
                self.work.len(),
                self.residuals.as_mut_ptr(),
                self.residuals.len(),
                self.refs.as_mut_ptr(),
                self.refs.len(),
                self.indices.as_mut_ptr(),
                self.indices.len(),
                self.fractions.as_mut_ptr(),
                self.fractions.len(),
                grant,
            )
        }
    }

    /// A fresh replay of so many blocks. The lengths are those of the slices.
    pub fn replay(&mut self, grant: u32) -> Step {
        let Frame { width, height, ctu } = self.frame;
        unsafe {
            salvrunde_probe_replay(
                0,
                BITS,
                width,
                height,
                ctu,
                self.lists[0].as_ptr(),
                self.lists[0].len(),
                self.lists[1].as_ptr(),
                self.lists[1].len(),
                self.lists[2].as_ptr(),
                self.lists[2].len(),
                self.lists[3].as_ptr(),
                self.lists[3].len(),
                self.residuals.as_ptr(),
                self.residuals.len(),
                self.work.as_mut_ptr(),
                self.work.len(),
                self.refs.as_mut_ptr(),
                self.refs.len(),
                self.indices.as_mut_ptr(),
                self.indices.len(),
                self.fractions.as_mut_ptr(),
                self.fractions.len(),
                grant,
            )
        }
    }

    /// Both sides give the same residuals, and a replay of them the source.
    fn agree(&mut self) {
        let (mut work, mut residuals) = (self.work.clone(), self.residuals.clone());
        self.job().walk(&self.source, &mut work, &mut residuals);
        let (count, step) = (self.plan.len() as u32, self.walk(u32::MAX));
        assert!((step.no, step.did) == (0, count) && self.work == work && self.residuals == residuals);
        self.work.fill(1);
        let step = self.replay(u32::MAX);
        assert!((step.no, step.did) == (0, count) && self.work == self.source);
    }
}

type Proved = fn(&mut Still, u32) -> Step;
type Rust = fn(&Still, &mut [u16], &mut [i32]);

const CALLS: [(&str, Proved, Rust); 2] = [
    ("walk", Still::walk, |s, work, rs| s.job().walk(&s.source, work, rs)),
    ("replay", Still::replay, |s, work, rs| s.job().replay(rs, work)),
];

/// The proved call, and the share of its checks: the same call with a grant of 0.
fn proved(still: &mut Still, call: Proved) -> (f64, f64) {
    let mut timed = |grant| alone(|| _ = black_box(call(black_box(&mut *still), black_box(grant))));
    (timed(u32::MAX), timed(0))
}

pub fn time(table: &mut Table) {
    let mut still = Still::new(WIDTH, HEIGHT);
    still.agree();
    table.stills();
    for (what, call, rust) in CALLS {
        let (mut work, mut residuals) = (still.work.clone(), still.residuals.clone());
        let other = Still::new(WIDTH, HEIGHT);
        let times = race(
            &[()],
            |_| rust(black_box(&other), black_box(&mut work), black_box(&mut residuals)),
            |_| _ = black_box(call(black_box(&mut still), black_box(u32::MAX))),
        );
        let checks = proved(&mut still, call).1;
        table.still(what, (WIDTH, HEIGHT), times, checks, Some(0.4));
    }
    for side in GROWING {
        let mut still = Still::new(side, side);
        still.agree();
        for (what, call, _) in CALLS {
            let (whole, checks) = proved(&mut still, call);
            table.still(what, (side, side), Times { rust: f64::NAN, inlined: f64::NAN, rattle: whole }, checks, None);
        }
    }
}
