//! Rows under 65 entries at the predictors (document 02, Wish 11): every side and mode with rows of exactly 2n entries, either row
//! by itself, and with an entry too few. There the standard alone is the judge (clauses.rs), and a call gives what the same call
//! gives over longer rows. Which of these rows make the Rust panic, and the request's own figures.
use crate::block::{self, Block};
use crate::clauses::Neighbours;
use crate::oracle::intra::{self, AngularScratch};
use crate::order::panics;
use crate::predict::{Angular, Flat, ask_angular, ask_flat, lengthened};
use crate::random::Random;
use crate::samples::{DEPTHS, KINDS, SIZES, dirt, samples};
use crate::tally::Tally;

/// Entries above and on the left, and the number 5 where a row has fewer than 2n.
fn lengths(n: usize) -> Vec<(usize, usize, u32)> {
    let least = 2 * n;
    let served = [(least, least), (least, 65), (65, least), (least, least + 1), (least + 1, least), (64, 64), (least, 200)];
    let short = least - 1;
    let refused =
        [(short, 200), (200, short), (short, least), (least, short), (short, short), (0, 0), (0, 65), (65, 0), (0, least)];
    served.map(|(a, l)| (a, l, 0)).into_iter().chain(refused.map(|(a, l)| (a, l, 5))).collect()
}

/// The three kinds of predictor over rows of these lengths, and over the same rows made longer where they are served.
fn ask(t: &mut Tally, n: usize, (up, side, no): (usize, usize, u32), random: &mut Random, scratch: &mut AngularScratch) {
    let (kinds, exact) = ([random.below(KINDS), random.below(KINDS)], n * n);
    let row = |kind, entries, random: &mut Random| samples(kind, entries, random);
    let flat = Flat { above: row(kinds[0], up, random), left: row(kinds[1], side, random), n, pred: dirt(exact, random) };
    let longer = || Flat { above: lengthened(&flat.above), left: lengthened(&flat.left), n, pred: flat.pred.clone() };
    let calls = if no == 0 { vec![longer()] } else { Vec::new() };
    assert_eq!((flat.planar().0, flat.dc(true).0), (no, no));
    ask_flat(t, &flat);
    for call in &calls {
        assert_eq!((call.planar(), call.dc(true)), (flat.planar(), flat.dc(true)));
        ask_flat(t, call);
    }
    for mode in 2..=34 {
        for edge in [false, true] {
            let (bits, corner) = (random.pick(&DEPTHS), random.word() as u16);
            let with = |rows: &Flat| {
                let rows = Flat { above: rows.above.clone(), left: rows.left.clone(), n, pred: rows.pred.clone() };
                Angular::new(corner, rows, mode, edge, bits)
            };
            let call = with(&flat);
            assert_eq!(call.answer(scratch).0, no);
            ask_angular(t, &call, scratch, random);
            for rows in &calls {
                assert_eq!(with(rows).answer(scratch), call.answer(scratch));
                ask_angular(t, &with(rows), scratch, random);
            }
        }
    }
    for mode in 0..=34 {
        let mut call = Block::any(false, n, mode, random.pick(&DEPTHS), kinds, random);
        (call.above, call.left) = (flat.above.clone(), flat.left.clone());
        assert_eq!(call.answer(true, scratch).0, no);
        block::ask(t, &call, scratch, random);
        for rows in &calls {
            let mut other = call.clone();
            (other.above, other.left) = (rows.above.clone(), rows.left.clone());
            assert_eq!(other.answer(true, scratch), call.answer(true, scratch));
            block::ask(t, &other, scratch, random);
        }
    }
}

/// The Rust over rows of 2n to 64 entries, as it is: it panics at side 4 alone, in mode 11 where the row above has fewer than 16
/// entries, in mode 25 where the row on the left has. Elsewhere it gives the standard's block.
fn rust(random: &mut Random) {
    let mut scratch = AngularScratch::new();
    for n in SIZES {
        for mode in 0..=34u8 {
            for (up, side) in (2 * n..65).flat_map(|k| [(k, k), (k, 65), (65, k)]) {
                let (above, left, corner, edge) =
                    (dirt(up, random), dirt(side, random), random.word() as u16, random.below(2) == 1);
                let mut pred = vec![0; n * n];
                let ended = panics(|| match mode {
                    0 => intra::predict_planar_into(&above, &left, n, &mut pred),
                    1 => intra::predict_dc_into(&above, &left, n, edge, &mut pred),
                    _ => intra::predict_angular_into(corner, &above, &left, n, mode, edge, 255, &mut pred, &mut scratch),
                });
                let fetched = match mode {
                    11 => up,
                    25 => side,
                    _ => 16,
                };
                assert_eq!(ended, n == 4 && fetched < 16, "side {n}, mode {mode}, {up} above, {side} left");
                if !ended {
                    let standard = Neighbours { corner, above: &above, left: &left, n: n as i32 };
                    assert_eq!(pred, standard.block(mode, edge, 8));
                }
            }
        }
    }
}

/// Above 10, 20, .. 80, left 15, 25, .. 85, corner 5, edge off.
fn figures(t: &mut Tally, scratch: &mut AngularScratch, random: &mut Random) {
    let rows = |entries: u16| Flat {
        above: (1..=entries).map(|i| 10 * i).collect(),
        left: (1..=8).map(|i| 10 * i + 5).collect(),
        n: 4,
        pred: vec![9; 16],
    };
    let across = [14, 14, 13, 13, 24, 24, 23, 23, 34, 34, 33, 33, 44, 44, 43, 43];
    let down = [10, 19, 29, 39, 9, 19, 29, 39, 9, 18, 28, 38, 9, 18, 28, 38];
    for (mode, entries, want) in [(11, 8, (0, across)), (25, 8, (0, down)), (11, 7, (5, [9; 16])), (25, 7, (5, [9; 16]))] {
        let call = Angular::new(5, rows(entries), mode, false, 8);
        assert_eq!(call.answer(scratch), (want.0, want.1.to_vec()));
        ask_angular(t, &call, scratch, random);
    }
}

pub fn shorter(t: &mut Tally) {
    let mut random = Random::new(16);
    let mut scratch = AngularScratch::new();
    for n in SIZES {
        for lengths in lengths(n) {
            for _ in 0..6 {
                ask(t, n, lengths, &mut random, &mut scratch);
            }
        }
    }
    figures(t, &mut scratch, &mut random);
    rust(&mut random);
}
