//! A black sample is a sample: the luma gather over planes of 0 and 255, each neighbour of a block black in turn, against the
//! standard's wording of 6.4.1 and 8.4.4.2.2 and against the Rust. docs/ZERO.md says what the quarrel was.
use crate::refs::{CTUS, Luma, UNITS, ask_luma, neutral};
use crate::samples::{DEPTHS, SIZES};
use crate::standard::{gathered, luma_entries, luma_sample, standard_part};
use crate::table::Picture;
use crate::tally::Tally;

const BLACK: u16 = 0;
const WHITE: u16 = 255;

/// The neighbours that a gather looks at and that are in the picture: left[2n] down to left[0], the corner, above[0] to
/// above[2n]; their places in the plane.
fn neighbours(call: &Luma) -> Vec<usize> {
    let (p, last) = (call.picture, 2 * call.n as i64);
    let left = (0..=last).rev().map(|i| (i, -1));
    let above = (0..=last).map(|i| (-1, i));
    left.chain([(-1, -1)])
        .chain(above)
        .map(|(down, along)| (call.row as i64 + down, call.col as i64 + along))
        .filter(|&(row, col)| (0..p.height as i64).contains(&row) && (0..p.width as i64).contains(&col))
        .map(|(row, col)| row as usize * p.width as usize + col as usize)
        .collect()
}

/// Asks for the rows of a call, which are to be the standard's; whether the other reading would have given others, by which a
/// sample of 0 is one that is not there.
fn ask(t: &mut Tally, call: &Luma) -> bool {
    let (no, rows) = call.answer();
    assert_eq!(no, 0);
    let standard = luma_entries(call);
    assert_eq!(standard_part(&rows, call.n), standard);
    ask_luma(t, call);
    gathered(call.n, neutral(call.bits), |dr, dc| luma_sample(call, dr, dc).filter(|&sample| sample != BLACK)) != standard
}

/// One block over planes of two colours; how many of them the other reading would have answered otherwise.
fn block(t: &mut Tally, mut call: Luma) -> usize {
    let mut parted = 0;
    for (one, others) in [(BLACK, WHITE), (WHITE, BLACK)] {
        call.plane.fill(others);
        parted += ask(t, &call) as usize;
        for at in neighbours(&call) {
            call.plane[at] = one;
            parted += ask(t, &call) as usize;
            call.plane[at] = others;
        }
    }
    parted
}

/// Column 7 of rows 0 to 7 black, all else white: the block of side 8 beside it has that column for its only available
/// neighbours. Its rows are black; by the other reading nothing would be there, and they would be neutral.
fn parting(t: &mut Tally) {
    let picture = Picture::new(16, 16, 16, 4);
    let mut call = Luma { bits: 8, picture, row: 0, col: 8, n: 8, plane: vec![WHITE; 256] };
    (0..8).for_each(|row| call.plane[row * 16 + 7] = BLACK);
    assert_eq!(call.answer(), (0, (0, [0; 65], [0; 65])));
    assert!(ask(t, &call));
    // and the other way round: entries 0 to 16 are white, the later ones 0 as always where a neighbour is available
    call.plane.iter_mut().for_each(|sample| *sample = WHITE - *sample);
    let row: [u16; 65] = std::array::from_fn(|i| if i <= 16 { WHITE } else { 0 });
    assert_eq!(call.answer(), (0, (WHITE, row, row)));
    assert!(!ask(t, &call));
}

/// The first block of a side, the second, those on either side of a CTU's border, and the last, which may end at a cell that
/// no whole CTU holds.
fn borders(side: u32, ctu: u32, n: u32) -> Vec<u32> {
    let mut all = vec![0, n, ctu - n, ctu, side - n];
    all.retain(|&at| at + n <= side);
    all.sort();
    all.dedup();
    all
}

pub fn zero(t: &mut Tally) {
    parting(t);
    for ctu in CTUS {
        for unit in UNITS {
            for n in SIZES.map(|n| n as u32).into_iter().filter(|&n| unit <= n && n <= ctu) {
                let side = ctu + n.max(8);
                let mut parted = 0;
                for row in borders(side, ctu, n) {
                    for col in borders(side, ctu, n) {
                        for bits in DEPTHS {
                            let picture = Picture::new(side, side, ctu, unit);
                            let plane = vec![0; (side * side) as usize];
                            parted += block(t, Luma { bits, picture, row, col, n: n as usize, plane });
                        }
                    }
                }
                assert!(parted > 0);
            }
        }
    }
}
