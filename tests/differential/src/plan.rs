//! The plan check against a plain simulation of document 01's words: the picture's 4×4 cells in decode order, and which of
//! them are covered. The Rust has no plans.
use crate::frame::{Block, CELL, Frame, quarters};
use crate::host::Arg::{Number, Read};
use crate::random::Random;
use crate::samples::bytes_32;
use crate::table::{self, Picture};
use crate::tally::{Tally, Want};

impl Frame {
    /// Number 6 of a block whose side is one.
    fn places(self, [row, col, side, _]: Block) -> bool {
        let fits = |at: u32, most: u32| at.is_multiple_of(side) && at as u64 + side as u64 <= most as u64;
        fits(row, self.height) && fits(col, self.width) && side <= self.ctu
    }

    /// The verdict: its number, and the block's list number with 2, 3, 6 and 9.
    pub fn verdict(self, plan: &[Block]) -> [u32; 2] {
        if !Picture::new(self.width, self.height, self.ctu, 4).sides_and_ctu() {
            return [4, 0];
        }
        let (cells, mut first) = (self.squares(CELL), 0);
        let mut covered = vec![false; (self.width * self.height / 16) as usize];
        let at = |row: u32, col: u32| (row / CELL * (self.width / CELL) + col / CELL) as usize;
        for (i, &block) in plan.iter().enumerate() {
            let [row, col, side, mode] = block;
            // the next uncovered cell: what is covered stays so
            while cells.get(first).is_some_and(|&(r, c)| covered[at(r, c)]) {
                first += 1;
            }
            let next = cells.get(first);
            let size = table::size(side as usize);
            let starts = next == Some(&(row, col));
            let no = table::first(&[(2, size), (3, mode <= 34), (6, size && self.places(block)), (9, starts)]);
            if no != 0 {
                return [no, i as u32];
            }
            for r in (row..row + side).step_by(4) {
                for c in (col..col + side).step_by(4) {
                    covered[at(r, c)] = true;
                }
            }
        }
        if covered.iter().all(|&c| c) { [0, 0] } else { [10, 0] }
    }
}

/// A plan as four slices of numbers: rows, columns, sides, modes.
pub fn lists(plan: &[Block]) -> [Vec<u32>; 4] {
    [0, 1, 2, 3].map(|field| plan.iter().map(|b| b[field]).collect())
}

/// The call with these slices, which are those of a plan or of other lengths.
fn ask_lists(t: &mut Tally, f: Frame, lists: &[Vec<u32>; 4], want: [u32; 2]) -> u32 {
    let lent = lists.each_ref().map(|list| bytes_32(list));
    let numbers = [f.width, f.height, f.ctu].map(|v| Number(v as u64));
    let slices = [0, 1, 2, 3].map(|k| [Read(&lent[k]), Number(lists[k].len() as u64)]);
    t.call("salvrunde_probe_check_plan", &[&numbers[..], slices.as_flattened()].concat(), Want::fields(&want));
    want[0]
}

fn ask(t: &mut Tally, f: Frame, plan: &[Block]) -> u32 {
    ask_lists(t, f, &lists(plan), f.verdict(plan))
}

/// Each slice in turn has an entry less, has one more, or has none: number 5, unless the picture is refused.
fn ask_ragged(t: &mut Tally, f: Frame, plan: &[Block]) -> u32 {
    let want = if Picture::new(f.width, f.height, f.ctu, 4).sides_and_ctu() { [5, 0] } else { [4, 0] };
    for (k, len) in (0..4).flat_map(|k| [plan.len() - 1, plan.len() + 1, 0].map(|len| (k, len))) {
        let mut lists = lists(plan);
        lists[k].resize(len, 8);
        ask_lists(t, f, &lists, want);
    }
    want[0]
}

/// One change to a plan. Some leave it good.
pub fn change(f: Frame, plan: &mut Vec<Block>, random: &mut Random) {
    if plan.is_empty() {
        return plan.push([0, 0, 8, 1]);
    }
    let count = plan.len();
    let i = random.below(count as u64) as usize;
    let j = random.below(count as u64) as usize;
    let field = random.below(4) as usize;
    match random.below(20) {
        0 => plan.swap(i, j),
        1 => plan.swap(i, (i + 1) % count),
        2 => drop(plan.remove(i)),
        3 => drop(plan.pop()),
        4 => plan.truncate(i),
        5 => plan.insert(j, plan[i]),
        6 => plan.push(plan[i]),
        7 => plan.push([f.height, 0, 4, 0]),
        8 => plan[i][2] = random.pick(&[4, 8, 16, 32]),
        9 => plan[i][2] = random.pick(&[0, 1, 2, 5, 12, 64, 260, 1 << 31, u32::MAX]),
        10 => plan[i][3] = random.pick(&[34, 35, 36, 255, 256, 257, u32::MAX]),
        11 => plan[i][field] ^= 4,
        12 => plan[i][field] = plan[i][field].wrapping_add(random.pick(&[1, 2, 4, 8, 16, 32])),
        13 => plan[i][field] = plan[i][field].wrapping_sub(random.pick(&[1, 4, 8, 32])),
        14 => plan[i][field] = random.pick(&[u32::MAX, u32::MAX - 3, u32::MAX - 31, 1 << 31, 1 << 16, 4096]),
        15 | 16 => split(plan, i, [0, 1, 2, 3]),
        17 => split(plan, i, random.pick(&[[0, 2, 1, 3], [1, 0, 2, 3], [0, 1, 3, 2], [3, 2, 1, 0]])),
        18 => plan.reverse(),
        _ => plan[i] = [random.below(80) as u32, random.below(80) as u32, random.below(40) as u32, random.below(40) as u32],
    }
}

/// Puts a block's quarters in its place, in an order of them.
fn split(plan: &mut Vec<Block>, i: usize, order: [usize; 4]) {
    let [row, col, side, mode] = plan[i];
    if side.is_multiple_of(8) && row <= 4096 && col <= 4096 && side <= 64 {
        let four = quarters(row, col, side);
        plan.splice(i..=i, order.map(|k| [four[k].0, four[k].1, side / 2, mode]));
    }
}

pub fn check(t: &mut Tally) {
    let mut random = Random::new(16);
    let mut seen = [0u64; 16];
    // every plan of up to five of these blocks in a picture of 8×8
    let some = [[0, 0, 8, 0], [0, 0, 4, 1], [0, 4, 4, 2], [4, 0, 4, 33], [4, 4, 4, 34], [0, 4, 8, 0], [0, 0, 4, 35]];
    let f = Frame { width: 8, height: 8, ctu: 16 };
    let mut plans: Vec<Vec<Block>> = vec![Vec::new()];
    for _ in 0..5 {
        plans.iter().for_each(|plan| seen[ask(t, f, plan) as usize] += 1);
        plans = plans.iter().flat_map(|plan| some.map(|b| [&plan[..], &[b]].concat())).collect();
    }
    // good plans, and copies with one, two or three changes
    let sides = [(8, 8), (16, 8), (8, 24), (16, 24), (40, 24), (64, 40), (72, 40), (64, 64), (136, 72), (24, 136)];
    for (width, height) in sides {
        for ctu in [16, 32, 64] {
            let f = Frame { width, height, ctu };
            for _ in 0..40 {
                let plan = f.good_plan(&mut random);
                assert_eq!(f.verdict(&plan), [0, 0], "the driver's own plans are good");
                seen[ask(t, f, &plan) as usize] += 1;
                seen[ask_ragged(t, f, &plan) as usize] += 1;
                // the same plan, in a picture of another CTU or of exchanged sides
                for other in [16, 32, 64] {
                    seen[ask(t, Frame { ctu: other, ..f }, &plan) as usize] += 1;
                }
                seen[ask(t, Frame { width: height, height: width, ctu }, &plan) as usize] += 1;
                for changes in [1, 1, 1, 1, 1, 1, 1, 1, 1, 1, 1, 1, 1, 1, 1, 1, 2, 2, 2, 2, 2, 2, 3, 3] {
                    let mut damaged = plan.clone();
                    (0..changes).for_each(|_| change(f, &mut damaged, &mut random));
                    seen[ask(t, f, &damaged) as usize] += 1;
                }
            }
        }
    }
    // pictures that are none, with a good plan, a bad one and none
    for width in [0, 8, 12, 4096, 4104, u32::MAX] {
        for height in [0, 8, 20, 4096, 4104, u32::MAX - 7] {
            for ctu in [0, 8, 16, 24, 64, 128, 272] {
                let f = Frame { width, height, ctu };
                for plan in [&[][..], &[[0, 0, 8, 0]], &[[0, 0, 5, 40]]] {
                    seen[ask(t, f, plan) as usize] += 1;
                }
                seen[ask_ragged(t, f, &[[0, 0, 5, 40]]) as usize] += 1;
            }
        }
    }
    // a picture of the largest width, whole and with its last block missing
    let f = Frame { width: 4096, height: 64, ctu: 64 };
    let plan = f.good_plan(&mut random);
    seen[ask(t, f, &plan) as usize] += 1;
    seen[ask(t, f, &plan[..plan.len() - 1]) as usize] += 1;
    for no in [0, 2, 3, 4, 6, 9, 10] {
        assert!(seen[no] > 100, "number {no} is met often: {seen:?}");
    }
}
