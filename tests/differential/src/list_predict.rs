//! The fixed list of the Rust's answers to smoothing, prediction, residuals and whole blocks, crates/replay_predict/stdin, which a proved
//! program replays with no Rust at hand. crates/replay_predict/src/main.rt says how a line is read and what a seed gives.
use crate::block::Block;
use crate::list::{comment_of, line_of};
use crate::oracle::intra::{AngularScratch, reach};
use crate::predict::{Angular, Flat};
use crate::random::Random;
use crate::residual::{rebuilt_answer, residual_answer};
use crate::smooth::{filter_answer, luma_answer, rule_answer};

/// Words in a line, and entries of what was written among them.
const WORDS: usize = 43;
const WINDOW: usize = 32;
/// What a buffer holds before the call.
const DIRT: u16 = 4660;
/// The largest samples; 1 stands for either end.
const TOPS: [u32; 5] = [0, 1, 255, 4095, 65535];

pub fn next(x: u32) -> u32 {
    (x % 65537 * 75 + 74) % 65537
}

pub fn other(x: u32) -> u32 {
    (x % 65537 * 171 + 11213) % 65537
}

pub fn sample(x: u32, top: u32) -> u16 {
    if top == 1 { (x % 2 * 65535) as u16 } else { (x % (top + 1)) as u16 }
}

pub fn follow(seed: u32, top: u32, count: usize) -> Vec<u16> {
    let mut x = seed;
    let mut one = || {
        x = next(x);
        sample(x, top)
    };
    (0..count).map(|_| one()).collect()
}

/// A call as a line gives it.
#[derive(Clone, Copy)]
struct Call {
    kind: u32,
    n: u32,
    mode: u32,
    edge: bool,
    bits: u32,
    seed: u32,
    top: u32,
    /// Entries of the row on the left.
    entries: u32,
}

impl Call {
    fn corner(self) -> u16 {
        sample(self.seed, self.top)
    }

    fn rows(self) -> Flat {
        let (above, left) = (follow(self.seed, self.top, 65), follow(other(self.seed), self.top, self.entries as usize));
        Flat { above, left, n: self.n as usize, pred: vec![DIRT; 1024] }
    }

    /// The number, the value, and what was written; a residual is 65536 times what is above 0 and what is below.
    fn answer(self) -> (u32, u32, Vec<u32>) {
        let rows = self.rows();
        let wide = |samples: &[u16]| samples.iter().map(|&s| s as u32).collect::<Vec<u32>>();
        let pick = |above: [u16; 65], left: [u16; 65]| wide(if self.edge { &left } else { &above });
        let blocks = || (follow(self.seed, self.top, 1024), follow(other(self.seed), self.top, 1024));
        match self.kind {
            1 => {
                let [no, yes] = rule_answer(self.mode as u8, rows.n);
                (no, yes, vec![0; WINDOW])
            }
            2 => {
                let (no, above, left) = filter_answer(self.corner(), &rows.above, &rows.left, rows.n);
                (no, 0, pick(above, left))
            }
            3 => {
                let (no, corner, above, left) = luma_answer(self.corner(), &rows.above, &rows.left, rows.n, self.bits);
                (no, corner as u32, pick(above, left))
            }
            4 => {
                let (no, after) = rows.planar();
                (no, 0, wide(&after))
            }
            5 => {
                let (no, after) = rows.dc(self.edge);
                (no, 0, wide(&after))
            }
            6 => {
                let call = Angular::new(self.corner(), rows, self.mode as u8, self.edge, self.bits);
                let (no, after) = call.answer(&mut AngularScratch::new());
                (no, 0, wide(&after))
            }
            7 => {
                let (pred, orig) = blocks();
                let (no, after) = residual_answer(&orig, &pred, rows.n, &[DIRT as i32; 1024]);
                (no, 0, after.iter().map(|&r| 65536 * r.max(0) as u32 + (-r).max(0) as u32).collect())
            }
            8 => {
                let (pred, orig) = blocks();
                let (first, residual) = residual_answer(&orig, &pred, rows.n, &[0; 1024]);
                let (no, after) = rebuilt_answer(&pred, &residual, rows.n, self.bits, &[DIRT; 1024]);
                (no, first, wide(&after))
            }
            11 => {
                let scratch = AngularScratch::new();
                let table = reach::tables(&scratch)[self.mode as usize];
                let mut entries: Vec<u32> = table.iter().map(|&v| v as u32).collect();
                entries.resize(table.len().next_multiple_of(WINDOW), 0);
                (0, table.len() as u32, entries)
            }
            _ => {
                let (no, after) = self.block(rows).answer(true, &mut AngularScratch::new());
                (no, 0, wide(&after))
            }
        }
    }

    /// A chroma block, or a luma block, whose rows are whole.
    fn block(self, rows: Flat) -> Block {
        Block {
            luma: self.kind == 10,
            mode: self.mode as u8,
            bits: self.bits,
            corner: self.corner(),
            above: rows.above,
            left: rows.left,
            n: rows.n,
            pred: rows.pred,
            refs: 193,
            indices: 32,
            fractions: 32,
        }
    }

    /// Whether the Rust takes the strong form: its rows are not those of the other.
    fn is_strong(self) -> bool {
        let rows = self.rows();
        let (_, above, left) = filter_answer(self.corner(), &rows.above, &rows.left, rows.n);
        let (_, _, strong_above, strong_left) = luma_answer(self.corner(), &rows.above, &rows.left, rows.n, self.bits);
        (above, left) != (strong_above, strong_left)
    }

    /// A line for each place from which entries are compared.
    fn lines(self, places: &[usize]) -> String {
        let (no, value, written) = self.answer();
        let line = |&place: &usize| {
            let mut words = vec![self.kind, self.n, self.mode, self.edge as u32, self.bits, self.seed, self.top];
            words.extend([self.entries, place as u32, no, value]);
            words.extend(&written[place..place + WINDOW]);
            line_of(&words, WORDS)
        };
        places.iter().map(line).collect()
    }
}

/// The whole of a block of up to 8×8 with what follows it; the first, a middle and the last entries of a larger one.
fn places(n: u32) -> &'static [usize] {
    match n {
        4 => &[0],
        8 => &[0, 32, 64],
        16 => &[0, 112, 240],
        32 => &[0, 480, 992],
        _ => &[0],
    }
}

pub fn write() {
    let mut random = Random::new(11);
    let mut seed = || random.below(65537) as u32;
    let comment = |text: &str| comment_of(text, WORDS);
    let mut list = comment("The Rust's answers to a fixed list of calls; number 1, 2, 3 or 5 where document 01 refuses.");
    list += &comment("Made by `tests/differential/run list`; replayed by this crate's program.");
    list += &comment(
        "kind, side, mode, edge, depth, seed, largest, entries on the left, place; number, value, 32 entries from the place on",
    );

    list += &comment("1: the smoothing rule; its value is the flag");
    for n in [4, 8, 16, 32, 5] {
        for mode in [0, 1, 2, 3, 8, 9, 10, 11, 18, 25, 26, 27, 34, 35] {
            list += &Call { kind: 1, n, mode, edge: false, bits: 0, seed: 0, top: 0, entries: 65 }.lines(&[0]);
        }
    }
    list += &comment("2: the two rows in the [1 2 1] form; edge 0 is the row above, 1 that on the left");
    list += &comment("3: the corner and the two rows in either form; its value is the corner");
    for (kind, depths) in [(2, &[0][..]), (3, &[8, 10, 12, 9])] {
        for &bits in depths {
            for n in [4, 8, 16, 32, 0] {
                for top in TOPS {
                    for edge in [false, true] {
                        let call = Call { kind, n, mode: 0, edge, bits, seed: seed(), top, entries: 65 };
                        list += &call.lines(if n == 32 { &[0, 33] } else { &[0] });
                    }
                }
            }
        }
    }
    for bits in [8, 10, 12] {
        let call = Call { kind: 3, n: 32, mode: 0, edge: false, bits, seed: 0, top: 255, entries: 65 };
        let strong = (0..65537).map(|seed| Call { seed, ..call }).find(|c| c.is_strong()).expect("some seed's rows are straight");
        list += &strong.lines(&[0, 33]);
        list += &Call { edge: true, ..strong }.lines(&[0, 33]);
    }
    list += &comment("4: planar");
    list += &comment("5: DC, its edge smoothed and not");
    for n in [4, 8, 16, 32, 5, 64] {
        for top in TOPS {
            list += &Call { kind: 4, n, mode: 0, edge: false, bits: 0, seed: seed(), top, entries: 65 }.lines(places(n));
            for edge in [false, true] {
                list += &Call { kind: 5, n, mode: 0, edge, bits: 0, seed: seed(), top, entries: 65 }.lines(places(n));
            }
        }
    }
    list += &comment("6: angular, every mode");
    for n in [4, 8] {
        for mode in 0..=35 {
            let edge = mode == 10 || mode == 26;
            list += &Call { kind: 6, n, mode, edge, bits: 8, seed: seed(), top: 65535, entries: 65 }.lines(places(n));
        }
    }
    for n in [16, 32, 5] {
        for mode in [2, 6, 10, 11, 14, 18, 22, 25, 26, 30, 34] {
            list += &Call { kind: 6, n, mode, edge: true, bits: 12, seed: seed(), top: 4095, entries: 65 }.lines(places(n));
        }
    }
    for bits in [8, 10, 12, 9] {
        for mode in [10, 26] {
            for top in TOPS {
                list += &Call { kind: 6, n: 4, mode, edge: true, bits, seed: seed(), top, entries: 65 }.lines(places(4));
            }
        }
    }
    list += &comment("2 to 6: fewer entries on the left, too few for smoothing, alone and with other faults");
    for kind in 2..=6 {
        for (n, mode, bits, entries) in [
            (4, 2, 8, 64),
            (32, 34, 12, 0),
            (4, 2, 8, 9),
            (5, 2, 8, 64),
            (4, 1, 8, 64),
            (4, 35, 8, 64),
            (4, 2, 9, 64),
            (0, 0, 0, 0),
        ] {
            list += &Call { kind, n, mode, edge: true, bits, seed: seed(), top: 65535, entries }.lines(&[0]);
        }
    }
    list += &comment("7: the residual of two blocks");
    for n in [4, 8, 16, 32, 5, 0] {
        for top in TOPS {
            list += &Call { kind: 7, n, mode: 0, edge: false, bits: 0, seed: seed(), top, entries: 65 }.lines(places(n));
        }
    }
    list += &comment("8: the residual of two blocks, and its sum with the first; the value is the first call's number");
    for bits in [8, 10, 12, 9] {
        for n in [4, 8, 16, 32, 5] {
            for top in TOPS {
                list += &Call { kind: 8, n, mode: 0, edge: false, bits, seed: seed(), top, entries: 65 }.lines(places(n));
            }
        }
    }
    list += &comment("9: a chroma block in any mode");
    list += &comment("10: a luma block in any mode, its references smoothed by the rule");
    for kind in [9, 10] {
        for n in [4, 8, 16, 32] {
            for mode in [0, 1, 2, 3, 6, 9, 10, 11, 14, 17, 18, 19, 22, 25, 26, 27, 30, 34] {
                let (bits, top) = [(8, 255), (12, 4095), (10, 65535)][(mode as usize + n as usize / 4) % 3];
                let places = if n == 4 { &[0][..] } else { &[0, n as usize * n as usize - 32] };
                list += &Call { kind, n, mode, edge: false, bits, seed: seed(), top, entries: 65 }.lines(places);
            }
        }
        for (n, mode, bits) in [(5, 0, 8), (4, 35, 8), (8, 255, 10), (4, 2, 9), (64, 35, 0), (5, 35, 12), (32, 26, 16)] {
            list += &Call { kind, n, mode, edge: false, bits, seed: seed(), top: 65535, entries: 65 }.lines(&[0]);
        }
    }
    for (n, mode, bits, entries) in [(4, 0, 8, 64), (32, 34, 12, 0), (4, 1, 8, 9), (5, 2, 8, 64), (4, 35, 8, 64), (4, 2, 9, 64)] {
        list += &Call { kind: 9, n, mode, edge: false, bits, seed: seed(), top: 65535, entries }.lines(&[0]);
    }
    list += &comment("4 to 6 and 9: 2n entries on the left, which are enough, and one fewer; the Rust's row was lengthened");
    for n in [4, 8, 16, 32] {
        for entries in [2 * n, 2 * n - 1] {
            for (kind, modes) in [(4, &[0][..]), (5, &[0]), (6, &[2, 10, 11, 18, 25, 26, 34]), (9, &[0, 1, 3, 11, 25, 33])] {
                for &mode in modes {
                    let call = Call { kind, n, mode, edge: true, bits: 10, seed: seed(), top: 65535, entries };
                    list += &call.lines(places(n));
                }
            }
        }
    }
    let strong = (0..65537)
        .map(|seed| Call { kind: 10, n: 32, mode: 2, edge: false, bits: 12, seed, top: 255, entries: 65 })
        .find(|c| c.is_strong())
        .expect("some seed's rows are straight");
    for mode in [0, 2, 18, 34] {
        list += &Call { mode, ..strong }.lines(&[0, 992]);
    }
    list += &comment(
        "11: a new scratch; mode 0 is its references, 1 its indices, 2 its fractions; the value is how many entries they are",
    );
    for (mode, places) in [(0, &[0, 32, 64, 96, 128, 160, 192][..]), (1, &[0]), (2, &[0])] {
        list += &Call { kind: 11, n: 0, mode, edge: false, bits: 0, seed: 0, top: 0, entries: 65 }.lines(places);
    }
    let lines = list.lines().filter(|l| !l.starts_with('#')).count();
    let folder = concat!(env!("CARGO_MANIFEST_DIR"), "/../../crates/replay_predict");
    std::fs::write(format!("{folder}/stdin"), list).expect("the list is written");
    std::fs::write(format!("{folder}/stdout"), format!("predict: {lines} calls, 0 differ\n")).expect("the list is written");
}
