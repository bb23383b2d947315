//! The choice of a luma mode (document 02, Wishes 1 and 8) against the same search put together from the Rust's functions (assembled.rs),
//! on sources of every kind, and document 02's figures. Every call is made to both doors, the full search and the early one, and to both
//! entries on bytes.
use crate::assembled;
use crate::entries;
use crate::host::Arg::{Lent, Number, Read};
use crate::oracle::intra::AngularScratch;
use crate::random::Random;
use crate::samples::{BITS, DEPTHS, KINDS, SIDES, SIZES, at_least, bytes, bytes_32, dirt, dirt_32, largest, samples};
use crate::table;
use crate::tally::{Tally, Want};

/// What the door is given; of the scratch the lengths.
#[derive(Clone)]
pub struct Search {
    pub bits: u32,
    pub n: usize,
    pub corner: u16,
    pub above: Vec<u16>,
    pub left: Vec<u16>,
    pub source: Vec<u16>,
    pub pred: usize,
    pub refs: usize,
    pub indices: usize,
    pub fractions: usize,
}

impl Search {
    /// With scratch as long as it has to be.
    pub fn new(bits: u32, n: usize, (corner, above, left): assembled::References, source: &[u16]) -> Search {
        let [above, left, source] = [above, left, source].map(<[u16]>::to_vec);
        Search { bits, n, corner, above, left, source, pred: n * n, refs: 193, indices: 32, fractions: 32 }
    }

    /// The number, with scratch that is long enough or not. Only the first n by n samples of the source count.
    fn number(&self, scratch: bool) -> u32 {
        let lent = table::rows(self.above.len(), self.left.len()) && table::block(self.n, self.source.len()) && scratch;
        let known = table::depth(self.bits) && table::size(self.n) && lent;
        let fits = !known || self.source[..self.n * self.n].iter().all(|&v| v <= largest(self.bits));
        table::first(&[(1, table::depth(self.bits)), (2, table::size(self.n)), (5, lent), (7, fits)])
    }

    fn refs(&self) -> assembled::References<'_> {
        (self.corner, &self.above, &self.left)
    }

    /// The number, the mode and its sum.
    fn answer(&self, scratch: bool) -> (u32, u8, u32) {
        let no = self.number(scratch);
        if no != 0 {
            return (no, 0, 0);
        }
        let (mode, sum) =
            assembled::choose(self.bits, self.refs(), &self.source, self.n, &mut [0; 1024], &mut AngularScratch::new());
        (0, mode, sum)
    }

    /// The sum of one mode.
    fn sum_of(&self, mode: u8) -> u32 {
        let mut pred = vec![0; self.n * self.n];
        assembled::predict(mode, self.bits, self.refs(), self.n, &mut pred, &mut AngularScratch::new());
        pred.iter().zip(&self.source).map(|(p, s)| p.abs_diff(*s) as u32).sum()
    }

    /// Asks the door and the entry on bytes; gives mode and sum.
    pub fn ask(&self, t: &mut Tally, random: &mut Random) -> (u8, u32) {
        let tables = table::scratch(self.refs, self.indices, self.fractions) && table::block(self.n, self.pred);
        let (no, mode, sum) = self.answer(tables);
        let [up, side, source] = [&self.above, &self.left, &self.source].map(|samples| bytes(samples));
        let [pred, refs] = [self.pred, self.refs].map(|k| bytes(&dirt(k, random)));
        let [indices, fractions] = [self.indices, self.fractions].map(|k| bytes_32(&dirt_32(k, random)));
        // a call that is served may leave anything in the scratch; a refused one leaves it alone
        let lend = |b| if no == 0 { Read(b) } else { Lent(b) };
        let mut args = vec![Number(self.corner as u64)];
        for (samples, length) in [(&up, self.above.len()), (&side, self.left.len()), (&source, self.source.len())] {
            args.extend([Read(samples), Number(length as u64)]);
        }
        args.extend([Number(self.n as u64), Number(self.bits as u64)]);
        let scratch = [(&pred, self.pred), (&refs, self.refs), (&indices, self.indices), (&fractions, self.fractions)];
        for (buffer, length) in scratch {
            args.extend([lend(buffer), Number(length as u64)]);
        }
        let mut want = Want::fields(&[no, mode as u32, sum]);
        if no != 0 {
            want = scratch.into_iter().fold(want, |want, (buffer, _)| want.then(buffer.clone()));
        }
        for door in ["salvrunde_probe_choose_mode", "salvrunde_probe_choose_early"] {
            t.call(door, &args, want.clone());
        }
        entries::choose(t, self, self.answer(true));
        (mode, sum)
    }
}

/// Rows of a kind, and a corner.
fn rows(kind: u64, random: &mut Random) -> (u16, Vec<u16>, Vec<u16>) {
    let word = random.word() as u16;
    let other = random.below(KINDS);
    let above = samples(kind, at_least(65, random), random);
    let left = samples(other, at_least(65, random), random);
    (random.pick(&[0, u16::MAX, word & 255, word]), above, left)
}

/// How many kinds of sources there are.
const SOURCES: u64 = 6;

/// A source of a kind: one value, noise, near one value, a slope, both ends, or a step.
fn source(kind: u64, bits: u32, n: usize, random: &mut Random) -> Vec<u16> {
    let top = largest(bits) as u64;
    let (level, down, along, at) = (random.below(top + 1), random.below(40), random.below(40), random.below(2 * n as u64));
    let mut one = |row: u64, col: u64| match kind {
        0 => level,
        1 => random.below(top + 1),
        2 => level.min(top - 3) + random.below(4),
        3 => (level + row * down + col * along).min(top),
        4 => random.pick(&[0, top]),
        _ => {
            if row + col < at {
                level
            } else {
                top - level
            }
        }
    };
    (0..n as u64).flat_map(|row| (0..n as u64).map(move |col| (row, col))).map(|(row, col)| one(row, col) as u16).collect()
}

pub fn choose(t: &mut Tally) {
    let mut random = Random::new(30);
    for n in SIZES {
        for bits in DEPTHS {
            for kind in 0..KINDS * SOURCES {
                let (corner, above, left) = rows(kind % KINDS, &mut random);
                let source = source(kind / KINDS, bits, n, &mut random);
                Search::new(bits, n, (corner, &above, &left), &source).ask(t, &mut random);
                past_the_block(t, bits, n, (corner, &above, &left), &source, &mut random);
                of_the_depth(t, bits, n, &source, &mut random);
            }
            exact(t, bits, n, &mut random);
            ties(t, bits, n, &mut random);
            close(t, bits, n, &mut random);
        }
    }
    figures(t, &mut random);
    faults(t, &mut random);
}

/// What stands past the first n by n samples of a source, and past a row's first 2n, changes nothing.
fn past_the_block(t: &mut Tally, bits: u32, n: usize, refs: assembled::References, source: &[u16], random: &mut Random) {
    let mut call = Search::new(bits, n, refs, source);
    let chosen = call.ask(t, random);
    call.source.extend(dirt(at_least(1, random), random));
    for row in [&mut call.above, &mut call.left] {
        let more = dirt(row.len() - 2 * n, random);
        row[2 * n..].copy_from_slice(&more);
    }
    assert_eq!(call.ask(t, random), chosen);
}

/// Rows of samples of the depth, near the source.
fn of_the_depth(t: &mut Tally, bits: u32, n: usize, source: &[u16], random: &mut Random) {
    let mut near = |count| (0..count).map(|_| random.pick(source)).collect::<Vec<u16>>();
    let (above, left) = (near(65), near(65));
    Search::new(bits, n, (source[0], &above, &left), source).ask(t, random);
}

/// The exact block of each mode: nothing does better, and no higher mode is chosen.
fn exact(t: &mut Tally, bits: u32, n: usize, random: &mut Random) {
    for mode in 0..=34 {
        let mut row = || (0..65).map(|_| random.below(largest(bits) as u64 + 1) as u16).collect::<Vec<u16>>();
        let (above, left) = (row(), row());
        let refs = (above[64], &above[..], &left[..]);
        let mut source = vec![0; n * n];
        assembled::predict(mode, bits, refs, n, &mut source, &mut AngularScratch::new());
        let (chosen, sum) = Search::new(bits, n, refs, &source).ask(t, random);
        assert!(sum == 0 && chosen <= mode, "mode {mode} is exact");
    }
}

/// Rows and a source that are their own mirror image: modes m and 36 - m have one sum, and the lower is chosen.
fn ties(t: &mut Tally, bits: u32, n: usize, random: &mut Random) {
    for kind in 0..SOURCES {
        let row: Vec<u16> = samples(random.below(KINDS), 65, random);
        let mut mirrored = source(kind, bits, n, random);
        for y in 0..n {
            for x in 0..y {
                mirrored[y * n + x] = mirrored[x * n + y];
            }
        }
        let call = Search::new(bits, n, (random.word() as u16, &row, &row), &mirrored);
        assert!((2..=34).all(|mode| call.sum_of(mode) == call.sum_of(36 - mode)), "a mirrored block ties");
        assert!(call.ask(t, random).0 <= 18, "the lower of two");
    }
}

/// Sources between the blocks of two modes, where the higher one wins by exactly one, ties with the lower, or loses by one: one step is
/// from the higher mode's block toward the lower one's, and takes one from the one sum and gives it to the other.
fn close(t: &mut Tally, bits: u32, n: usize, random: &mut Random) {
    let block = |mode, refs: assembled::References| {
        let mut samples = vec![0; n * n];
        assembled::predict(mode, bits, refs, n, &mut samples, &mut AngularScratch::new());
        samples
    };
    let (mut by_one, mut tied) = (0, 0);
    for higher in 1..=34 {
        // rows of one slope: modes near each other have blocks near each other
        let step = random.below(6) as u16 + 1;
        let row = |i: usize| 20 + (step * i as u16) % (largest(bits) - 40);
        let (above, left): (Vec<u16>, Vec<u16>) = (0..65).map(|i| (row(i), row(i + 7))).unzip();
        let refs = (row(3), &above[..], &left[..]);
        let (low, high) = (block(higher - 1, refs), block(higher, refs));
        let apart: u32 = low.iter().zip(&high).map(|(a, b)| a.abs_diff(*b) as u32).sum();
        for lead in [1, 0, -1] {
            let mut source = high.clone();
            let mut steps = (apart as i64 - lead) / 2;
            for (sample, goal) in source.iter_mut().zip(&low) {
                let moved = (sample.abs_diff(*goal) as i64).min(steps.max(0));
                steps -= moved;
                *sample = if *goal > *sample { *sample + moved as u16 } else { *sample - moved as u16 };
            }
            let call = Search::new(bits, n, refs, &source);
            let gap = call.sum_of(higher - 1) as i64 - call.sum_of(higher) as i64;
            let (mode, sum) = call.ask(t, random);
            by_one += (gap == 1 && mode == higher && sum == call.sum_of(higher)) as u32;
            tied += (gap == 0 && mode == higher - 1) as u32;
        }
    }
    assert!(by_one > 0 && tied > 0, "blocks that are won by one, and ties: {by_one}, {tied}");
}

/// A row of 65 entries that goes on with its last.
fn row_of(first: &[u16]) -> Vec<u16> {
    (0..65).map(|i| first[i.min(first.len() - 1)]).collect()
}

/// Document 02's figures: corner, above, left, source, and the mode and sum.
fn figures(t: &mut Tally, random: &mut Random) {
    let steps: Vec<u16> = (0..65).collect();
    let tens: Vec<u16> = (1..9).map(|i| 10 * i).collect();
    let slope = |first: u16, step: u16| (0..16).map(|i| first + step * (i / 4 + i % 4)).collect::<Vec<u16>>();
    let small = vec![5, 5, 5, 4, 4, 4, 4, 4, 5, 4, 5, 4, 4, 4, 4, 4];
    let black = |n: usize| vec![0; n * n];
    for (n, corner, above, left, source, best) in [
        (4, 7, &[7][..], &[7][..], vec![9; 16], (0, 32)),
        (4, 0, &steps, &[0], slope(1, 1), (34, 0)),
        (4, 5, &tens, &tens, slope(20, 10), (2, 0)),
        (4, u16::MAX, &[u16::MAX], &[u16::MAX], black(4), (10, 787440)),
        (32, u16::MAX, &[u16::MAX], &[u16::MAX], black(32), (0, 67107840)),
        (4, 5, &[5, 5, 5, 5, 9], &[4, 4, 4, 4, 7], small, (13, 4)),
    ] {
        let (above, left) = (row_of(above), row_of(left));
        assert_eq!(Search::new(8, n, (corner, &above, &left), &source).ask(t, random), best);
    }
}

const FAULTS: &[fn(&mut Search)] = &[
    |_| (),
    |c| c.above.truncate(64),
    |c| c.left.truncate(64),
    |c| c.above.clear(),
    |c| c.left.truncate(2 * c.n.min(32)),
    |c| c.source.truncate(63),
    |c| c.source.clear(),
    |c| c.source[0] = largest(10) + 1,
    |c| c.source[63] = largest(10) + 1,
    |c| c.source[5] = u16::MAX,
    |c| c.source[64] = u16::MAX,
    |c| c.pred = 63,
    |c| c.pred = 0,
    |c| c.refs = 192,
    |c| c.indices = 31,
    |c| c.fractions = 31,
];

/// Every fault with every other, at sides and depths of which some are none.
fn faults(t: &mut Tally, random: &mut Random) {
    for n in SIDES {
        for bits in BITS {
            for one in FAULTS {
                for other in FAULTS {
                    let (above, left) = (samples(4, 66, random), samples(8, 65, random));
                    let mut call = Search::new(bits, 8, (7, &above, &left), &samples(4, 70, random));
                    call.n = n;
                    // a fault of the source's samples comes before one of its length
                    if call.source.len() == 70 {
                        other(&mut call);
                    }
                    if call.source.len() == 70 {
                        one(&mut call);
                    }
                    call.ask(t, random);
                }
            }
        }
    }
}
