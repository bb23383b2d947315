//! The fixed list of the Rust's answers, crates/replay_order/stdin, which a proved program replays with no Rust at hand.
//! crates/replay_order/src/main.rt says how a line is read.
use crate::fmt::{depth_answer, format_answer};
use crate::order::{any_picture, available_answer, neighbour, order_answer};
use crate::random::Random;
use crate::table::Picture;

/// Words in a line.
const WORDS: usize = 11;

/// A line: the kind of the call, what it is given and what it is to answer, then zeros.
fn line(kind: u32, given: &[u32], answer: &[u32]) -> String {
    line_of(&[&[kind], given, answer].concat(), WORDS)
}

/// Words of eight hex digits, as many as a line has.
pub fn line_of(words: &[u32], count: usize) -> String {
    let mut words: Vec<String> = words.iter().map(|w| format!("{w:08x}")).collect();
    words.resize(count, "00000000".to_string());
    words.join(" ") + "\n"
}

fn comment(text: &str) -> String {
    comment_of(text, WORDS)
}

/// A comment as long as a line of so many words.
pub fn comment_of(text: &str, count: usize) -> String {
    format!("{:1$}\n", format!("#        {text}"), 9 * count - 1)
}

/// Pictures and places: document 01's figure P6, then the edges of every number, then some at random, one in eight refused.
fn calls(random: &mut Random, count: usize) -> Vec<(Picture, u32, u32)> {
    let figure = Picture::new(32, 24, 16, 8);
    let mut calls: Vec<(Picture, u32, u32)> = [(0, 8), (8, 0), (0, 16), (16, 0)].map(|(r, c)| (figure, r, c)).into();
    calls.push((Picture::new(64, 64, 64, 4), 4, 8));
    let most = u32::MAX;
    for (width, height, ctu, unit, row, col) in [
        (8, 8, 16, 4, 7, 7),
        (8, 8, 16, 4, 8, 0),
        (8, 8, 16, 4, 0, 8),
        (4096, 4096, 16, 4, 4095, 4095),
        (4096, 4096, 64, 8, 4095, 4095),
        (4104, 8, 16, 4, 0, 0),
        (8, 4104, 16, 4, 0, 0),
        (0, 8, 16, 4, 0, 0),
        (12, 8, 16, 4, 0, 0),
        (8, 8, 8, 4, 0, 0),
        (8, 8, 128, 4, 0, 0),
        (8, 8, 16, 2, 0, 0),
        (8, 8, 16, 16, 0, 0),
        (7, 8, 16, 5, 9, 9),
        (8, 8, 16, 4, most, most),
        (most, most, most, most, most, most),
    ] {
        calls.push((Picture::new(width, height, ctu, unit), row, col));
    }
    while calls.len() < count {
        let p = any_picture(random);
        let outside = random.below(8) == 0;
        let place = |side: u32, random: &mut Random| {
            if outside { side + random.below(9) as u32 } else { random.below(side as u64) as u32 }
        };
        calls.push((p, place(p.height, random), place(p.width, random)));
    }
    calls
}

/// A neighbour's coordinate as the list has it: 2^31 more.
fn coordinate(v: i64) -> u32 {
    (v + (1 << 31)) as u32
}

pub fn write() {
    let mut random = Random::new(4);
    let mut list = comment("The Rust's answers to a fixed list of calls; number 1, 4 or 6 where document 01 refuses.");
    list += &comment("Made by `tests/differential/run list`; replayed by this crate's program.");

    list += &comment("1: bits; number, bits, largest sample, neutral");
    for bits in (0..=17).chain([255, 256, 264, 266, 268, 65544, u32::MAX]) {
        list += &line(1, &[bits], &depth_answer(bits));
    }
    list += &comment("2: chroma_format_idc; 1 where it is known, subsampling of width and of height");
    for idc in (0..=8).chain([255, 256, 257, 65537, u32::MAX]) {
        list += &line(2, &[idc], &format_answer(idc));
    }
    list += &comment("3: row, column, width, height, CTU, unit; number, order");
    for (p, row, col) in calls(&mut random, 200) {
        list += &line(3, &[row, col, p.width, p.height, p.ctu, p.unit], &order_answer(p, row, col));
    }
    list += &comment("4: neighbour's row and column, block's, width, height, CTU, unit; number, available");
    let mut pairs: Vec<(Picture, u32, u32, i64, i64)> = calls(&mut random, 240)
        .into_iter()
        .map(|(p, row, col)| (p, row, col, neighbour(row, p.height, &mut random), neighbour(col, p.width, &mut random)))
        .collect();
    // the neighbour in the block's own cell
    pairs.push((Picture::new(8, 8, 16, 8), 0, 4, 0, 3));
    for (p, row, col, nr, nc) in pairs {
        let [nr, nc] = [nr, nc].map(|v| v.clamp(-(1 << 31), (1 << 31) - 1));
        let given = [coordinate(nr), coordinate(nc), row, col, p.width, p.height, p.ctu, p.unit];
        list += &line(4, &given, &available_answer(p, row, col, nr, nc));
    }
    let file = concat!(env!("CARGO_MANIFEST_DIR"), "/../../crates/replay_order/stdin");
    std::fs::write(file, list).expect("the list is written");
}
