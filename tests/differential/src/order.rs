//! Decode order and luma availability against the Rust's decode_order and is_available.
//! Outside document 01's domain the Rust is not asked: what is wanted there is the table's number and 0.
use crate::oracle::intra::reach;
use crate::random::Random;
use crate::table::Picture;
use crate::tally::{Tally, Want};

const CTUS: [u32; 3] = [16, 32, 64];
const UNITS: [u32; 2] = [4, 8];
/// Sides on the edges of the domain, in it and out of it.
const SIDES: [u32; 16] = [0, 1, 7, 8, 9, 12, 16, 24, 4088, 4095, 4096, 4097, 4104, 1 << 31, u32::MAX - 7, u32::MAX];
/// CTUs and units, legal or not.
const CTU_NUMBERS: [u32; 12] = [0, 1, 4, 8, 15, 16, 17, 32, 64, 128, 272, u32::MAX];
const UNIT_NUMBERS: [u32; 10] = [0, 1, 2, 4, 6, 8, 16, 260, 264, u32::MAX];

/// What the order door answers: the number, and the Rust's order where it is 0.
pub fn order_answer(p: Picture, row: u32, col: u32) -> [u32; 2] {
    match p.order_number(row, col) {
        0 => {
            let order = reach::decode_order(row as usize, col as usize, p.unit as usize, p.ctu as usize, p.ctus_x());
            [0, u32::try_from(order).unwrap()]
        }
        no => [no, 0],
    }
}

/// What the availability door answers: the number, and the Rust's flag where it is 0.
pub fn available_answer(p: Picture, row: u32, col: u32, nr: i64, nc: i64) -> [u32; 2] {
    match p.order_number(row, col) {
        0 => {
            let (w, h) = (p.width as usize, p.height as usize);
            let (unit, ctu) = (p.unit as usize, p.ctu as usize);
            [0, reach::is_available(nr, nc, row as usize, col as usize, unit, ctu, p.ctus_x(), w, h) as u32]
        }
        no => [no, 0],
    }
}

fn ask_order(t: &mut Tally, p: Picture, row: u32, col: u32) {
    let numbers = [row, col, p.width, p.height, p.ctu, p.unit].map(u64::from);
    t.numbers("salvrunde_probe_decode_order", &numbers, Want::fields(&order_answer(p, row, col)));
}

fn ask_available(t: &mut Tally, p: Picture, row: u32, col: u32, nr: i64, nc: i64) {
    ask_available_wanting(t, p, row, col, nr, nc, available_answer(p, row, col, nr, nc));
}

fn ask_available_wanting(t: &mut Tally, p: Picture, row: u32, col: u32, nr: i64, nc: i64, want: [u32; 2]) {
    let [row, col, w, h, ctu, unit] = [row, col, p.width, p.height, p.ctu, p.unit].map(u64::from);
    t.numbers("salvrunde_probe_is_available", &[nr as u64, nc as u64, row, col, w, h, ctu, unit], Want::fields(&want));
}

/// Every legal CTU and unit with the sides.
fn kinds(width: u32, height: u32) -> impl Iterator<Item = Picture> {
    CTUS.into_iter().flat_map(move |ctu| UNITS.into_iter().map(move |unit| Picture::new(width, height, ctu, unit)))
}

/// A legal picture.
pub fn any_picture(random: &mut Random) -> Picture {
    let side = |random: &mut Random| 8 + 8 * random.below(512) as u32;
    Picture::new(side(random), side(random), random.pick(&CTUS), random.pick(&UNITS))
}

/// A place on or about the edges of a side, or anywhere in u32.
fn about(side: u32, random: &mut Random) -> u32 {
    match random.below(8) {
        0 => side.wrapping_sub(1),
        1 => side,
        2 => side.wrapping_add(1),
        3 => random.word() as u32,
        _ => random.below(side.max(1) as u64) as u32,
    }
}

/// What the order is for, of the Rust's numbers, to which every call holds the port's: it grows along rows and columns of cells, no two cells
/// share a number, and an aligned block is a run of consecutive ones.
fn laws(p: Picture) {
    let number = |row: u32, col: u32| order_answer(p, row, col)[1];
    let cells = |side: u32| (0..side).step_by(p.unit as usize);
    let mut all: Vec<u32> = cells(p.height).flat_map(|r| cells(p.width).map(move |c| number(r, c))).collect();
    for row in cells(p.height) {
        assert!(cells(p.width).map(|col| number(row, col)).is_sorted_by(|a, b| a < b), "along a row: {p:?}");
    }
    for col in cells(p.width) {
        assert!(cells(p.height).map(|row| number(row, col)).is_sorted_by(|a, b| a < b), "down a column: {p:?}");
    }
    let count = all.len();
    all.sort();
    all.dedup();
    assert_eq!(all.len(), count, "no two cells share a number: {p:?}");
    for n in [4, 8, 16, 32, 64].into_iter().filter(|n| (p.unit..=p.ctu).contains(n)) {
        for (row, col) in (0..p.height / n).flat_map(|r| (0..p.width / n).map(move |c| (r * n, c * n))) {
            let mut block: Vec<u32> = cells(n).flat_map(|r| cells(n).map(move |c| number(row + r, col + c))).collect();
            block.sort();
            assert!(block.iter().copied().eq((number(row, col)..).take(block.len())), "a block is a run: {p:?} {n} {row} {col}");
        }
    }
}

/// Of the Rust's flags about a place: what lies above or left of an available sample is available.
fn closed(p: Picture, row: u32, col: u32) {
    let there = |nr: u32, nc: u32| available_answer(p, row, col, nr as i64, nc as i64)[1] == 1;
    for (nr, nc) in (0..p.height).flat_map(|r| (0..p.width).map(move |c| (r, c))).filter(|&(r, c)| there(r, c)) {
        assert!((nr == 0 || there(nr - 1, nc)) && (nc == 0 || there(nr, nc - 1)), "closed: {p:?} {row} {col} {nr} {nc}");
    }
}

pub fn order(t: &mut Tally) {
    // every sample, and two rows and columns past the picture
    for (width, height) in [(8, 8), (16, 24), (64, 40), (72, 40), (136, 136), (8, 4096), (4096, 8)] {
        for p in kinds(width, height) {
            laws(p);
            for row in 0..height + 2 {
                for col in 0..width + 2 {
                    ask_order(t, p, row, col);
                }
            }
        }
    }
    // every pair of edge sides, every CTU and unit, places at the edges
    for width in SIDES {
        for height in SIDES {
            for ctu in CTU_NUMBERS {
                for unit in UNIT_NUMBERS {
                    let p = Picture::new(width, height, ctu, unit);
                    for (row, col) in [
                        (0, 0),
                        (7, 7),
                        (height.wrapping_sub(1), width.wrapping_sub(1)),
                        (height, 0),
                        (0, width),
                        (u32::MAX, u32::MAX),
                    ] {
                        ask_order(t, p, row, col);
                    }
                }
            }
        }
    }
    let mut random = Random::new(2);
    for _ in 0..1_000_000 {
        let p = any_picture(&mut random);
        let (row, col) = (about(p.height, &mut random), about(p.width, &mut random));
        ask_order(t, p, row, col);
    }
}

/// A neighbour near a place, at the edges of the picture, or anywhere in i64.
pub fn neighbour(place: u32, side: u32, random: &mut Random) -> i64 {
    match random.below(12) {
        0 => -1,
        1 => random.pick(&[i64::MIN, i64::MIN + 1, i64::MAX, i64::MAX - 1, 1 << 32, (1 << 32) - 1, -(1 << 32)]),
        2 => random.word() as i64,
        3 => side as i64 - 1 + random.below(3) as i64,
        4 | 5 => random.below(side.max(1) as u64) as i64,
        _ => place as i64 + random.below(133) as i64 - 66,
    }
}

pub fn availability(t: &mut Tally) {
    // every neighbour of every block place, two samples past the picture on each side
    for (width, height, step) in [(8, 8, 1), (16, 24, 1), (64, 40, 4), (72, 40, 4)] {
        for p in kinds(width, height) {
            for row in (0..height).step_by(step) {
                for col in (0..width).step_by(step) {
                    closed(p, row, col);
                    for nr in -2..height as i64 + 2 {
                        for nc in -2..width as i64 + 2 {
                            ask_available(t, p, row, col, nr, nc);
                        }
                    }
                }
            }
        }
    }
    // the edges of every number
    for width in SIDES {
        for height in [8, 4096, 4104] {
            for ctu in CTU_NUMBERS {
                for unit in UNIT_NUMBERS {
                    let p = Picture::new(width, height, ctu, unit);
                    for (row, col) in [(0, 0), (height - 1, width.wrapping_sub(1)), (height, 0), (0, width)] {
                        for (nr, nc) in [
                            (0, 0),
                            (-1, 0),
                            (0, -1),
                            (i64::MIN, i64::MAX),
                            (i64::MAX, i64::MIN),
                            (height as i64, 0),
                            (0, width as i64),
                        ] {
                            ask_available(t, p, row, col, nr, nc);
                        }
                    }
                }
            }
        }
    }
    let mut random = Random::new(3);
    for _ in 0..2_000_000 {
        let p = any_picture(&mut random);
        let (row, col) = (about(p.height, &mut random), about(p.width, &mut random));
        let (nr, nc) = (neighbour(row, p.height, &mut random), neighbour(col, p.width, &mut random));
        ask_available(t, p, row, col, nr, nc);
    }
}

/// H.265 6.4.1 with "greater": a neighbour in the picture is available unless its address is above the current one's.
fn standard_available(p: Picture, row: u32, col: u32, nr: i64, nc: i64) -> bool {
    let inside = (0..p.height as i64).contains(&nr) && (0..p.width as i64).contains(&nc);
    let order = |r: usize, c: usize| reach::decode_order(r, c, p.unit as usize, p.ctu as usize, p.ctus_x());
    inside && order(nr as usize, nc as usize) <= order(row as usize, col as usize)
}

/// The smallest inputs of docs/DIFFERENCES.md for these doors, each with what the standard, the Rust and the port say.
pub fn differences(t: &mut Tally) {
    // a neighbour in the block's own cell: available by the standard, not by document 01 and the Rust
    let p = Picture::new(8, 8, 16, 8);
    assert!(standard_available(p, 0, 4, 0, 3));
    assert_eq!(available_answer(p, 0, 4, 0, 3), [0, 0]);
    ask_available_wanting(t, p, 0, 4, 0, 3, [0, 0]);
    // it needs a unit above the block's alignment: with blocks at multiples of the unit the two agree everywhere
    for (width, height) in [(16, 24), (72, 40)] {
        for p in kinds(width, height) {
            for row in (0..height).step_by(p.unit as usize) {
                for col in (0..width).step_by(p.unit as usize) {
                    let beside =
                        (-1..height as i64).map(|r| (r, col as i64 - 1)).chain((-1..width as i64).map(|c| (row as i64 - 1, c)));
                    for (nr, nc) in beside {
                        let want = [0, standard_available(p, row, col, nr, nc) as u32];
                        ask_available_wanting(t, p, row, col, nr, nc, want);
                    }
                }
            }
        }
    }
    // CTUs in a row: the Rust takes any count, so two cells of a picture two CTUs wide can get one number
    assert_eq!(reach::decode_order(0, 16, 8, 16, 1), reach::decode_order(16, 0, 8, 16, 1));
    let p = Picture::new(24, 24, 16, 8);
    assert_eq!([order_answer(p, 0, 16), order_answer(p, 16, 0)], [[0, 4], [0, 8]]);
    ask_order(t, p, 0, 16);
    ask_order(t, p, 16, 0);
    // where the Rust panics the port gives a number: a depth that is none, a unit of 0
    assert!(panics(|| {
        crate::oracle::fmt::BitDepth::from_bits(9);
    }));
    t.numbers("salvrunde_probe_depth", &[9], Want::fields(&[1, 0, 0, 0]));
    assert!(panics(|| {
        reach::decode_order(0, 0, std::hint::black_box(0), 16, 1);
    }));
    ask_order(t, Picture::new(8, 8, 16, 0), 0, 0);
}

/// Whether the Rust panics, which it says nothing about here.
pub fn panics(call: impl FnOnce()) -> bool {
    let hook = std::panic::take_hook();
    std::panic::set_hook(Box::new(|_| ()));
    let ended = std::panic::catch_unwind(std::panic::AssertUnwindSafe(call));
    std::panic::set_hook(hook);
    ended.is_err()
}
