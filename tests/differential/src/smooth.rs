//! The smoothing rule and the two smoothing functions against the Rust's should_filter_refs, filter_references and
//! filter_luma_refs. Outside document 01's domain the Rust is not asked: what is wanted there is the table's number and zeros.
use crate::host::Arg::{Lent, Number, Read};
use crate::oracle::intra;
use crate::random::Random;
use crate::samples::{BITS, DEPTHS, KINDS, SIDES, SIZES, any, at_least, bytes, samples};
use crate::table;
use crate::tally::{Tally, Want};

/// What the rule's door answers.
pub fn rule_answer(mode: u8, n: usize) -> [u32; 2] {
    match table::first(&[(2, table::size(n)), (3, table::mode(mode))]) {
        0 => [0, intra::should_filter_refs(mode, n) as u32],
        no => [no, 0],
    }
}

pub fn rule(t: &mut Tally) {
    for n in (0..=70).chain(SIDES) {
        for mode in 0..=255 {
            t.numbers("salvrunde_probe_should_filter_refs", &[mode as u64, n as u64], Want::fields(&rule_answer(mode, n)));
        }
    }
}

/// The number, and the two rows or zeros.
pub fn filter_answer(corner: u16, above: &[u16], left: &[u16], n: usize) -> (u32, [u16; 65], [u16; 65]) {
    match table::first(&[(2, table::size(n)), (5, table::rows(above.len(), left.len()))]) {
        0 => {
            let (a, l) = intra::filter_references(corner, above, left, n);
            (0, a, l)
        }
        no => (no, [0; 65], [0; 65]),
    }
}

/// The number, and the corner and the two rows or zeros.
pub fn luma_answer(corner: u16, above: &[u16], left: &[u16], n: usize, bits: u32) -> (u32, u16, [u16; 65], [u16; 65]) {
    match table::first(&[(1, table::depth(bits)), (2, table::size(n)), (5, table::rows(above.len(), left.len()))]) {
        0 => {
            let (c, a, l) = intra::filter_luma_refs(corner, above, left, n, bits);
            (0, c, a, l)
        }
        no => (no, 0, [0; 65], [0; 65]),
    }
}

/// Both functions on one set of references. Their results are larger than two words.
pub fn ask(t: &mut Tally, corner: u16, above: &[u16], left: &[u16], n: usize, bits: &[u32]) {
    let (up, side) = (bytes(above), bytes(left));
    let args = [
        Lent(&[0xa5; 264]),
        Number(corner as u64),
        Read(&up),
        Number(above.len() as u64),
        Read(&side),
        Number(left.len() as u64),
        Number(n as u64),
    ];
    let (no, a, l) = filter_answer(corner, above, left, n);
    let want = [&no.to_le_bytes()[..], &bytes(&a), &bytes(&l)].concat();
    t.call("salvrunde_probe_filter_references", &args, Want::word(0, 0).then(want));
    for &bits in bits {
        let mut args = args.to_vec();
        args[0] = Lent(&[0xa5; 266]);
        args.push(Number(bits as u64));
        let (no, c, a, l) = luma_answer(corner, above, left, n, bits);
        let want = [&no.to_le_bytes()[..], &c.to_le_bytes(), &bytes(&a), &bytes(&l)].concat();
        t.call("salvrunde_probe_filter_luma_refs", &args, Want::word(0, 0).then(want));
    }
}

/// A row of n = 32 whose corner, middle and far end are given, the rest of any kind.
fn line(mid: u16, far: u16, random: &mut Random) -> Vec<u16> {
    let mut row = any(at_least(65, random), random);
    (row[31], row[63]) = (mid, far);
    row
}

/// The strong form's limit of document 01: 2^(bits-5).
fn limit(bits: u32) -> i64 {
    1 << (bits - 5)
}

/// A corner and a middle and far end that are so far from straight: corner + far - 2·mid is `off`.
fn bent(off: i64, top: i64, random: &mut Random) -> Option<(u16, u16, u16)> {
    for _ in 0..1000 {
        let (corner, mid) = (random.below(top as u64 + 1) as i64, random.below(top as u64 + 1) as i64);
        let far = off + 2 * mid - corner;
        if (0..=top).contains(&far) {
            return Some((corner as u16, mid as u16, far as u16));
        }
    }
    None
}

/// The middle and far end of another row with the same corner.
fn bent_from(corner: u16, off: i64, top: i64, random: &mut Random) -> Option<(u16, u16)> {
    for _ in 0..1000 {
        let mid = random.below(top as u64 + 1) as i64;
        let far = off + 2 * mid - corner as i64;
        if (0..=top).contains(&far) {
            return Some((mid as u16, far as u16));
        }
    }
    None
}

pub fn smoothing(t: &mut Tally) {
    let mut random = Random::new(5);
    // every size and depth on rows of every kind, rows longer than they need be, entries past 2n that are not 0
    for n in SIZES {
        for up in 0..KINDS {
            for side in 0..KINDS {
                for _ in 0..6 {
                    let above = samples(up, at_least(65, &mut random), &mut random);
                    let left = samples(side, at_least(65, &mut random), &mut random);
                    let word = random.word() as u16;
                    let corner = random.pick(&[0, u16::MAX, 128, word]);
                    ask(t, corner, &above, &left, n, &DEPTHS);
                }
            }
        }
    }
    // the strong form at its limit, one below and one above, either sign, in both rows or one
    for bits in DEPTHS {
        for top in [(1i64 << bits) - 1, u16::MAX as i64] {
            let k = limit(bits);
            let about = [0, 1, -1, k - 1, k, k + 1, 1 - k, -k, -1 - k];
            for off in about {
                for other in about {
                    for _ in 0..4 {
                        let Some((corner, mid, far)) = bent(off, top, &mut random) else { continue };
                        let Some((mid_2, far_2)) = bent_from(corner, other, top, &mut random) else { continue };
                        let (above, left) = (line(mid, far, &mut random), line(mid_2, far_2, &mut random));
                        ask(t, corner, &above, &left, 32, &DEPTHS);
                    }
                }
            }
        }
    }
    // document 01's figures P8 and P10
    for far in [107, 108] {
        let (mut above, mut left) = (vec![0; 65], vec![0; 65]);
        (above[31], above[63], left[31], left[63]) = (100, far, 100, far);
        let want = if far == 107 { 104 } else { luma_answer(100, &above, &left, 32, 8).2[31] };
        assert_eq!(luma_answer(100, &above, &left, 32, 8).2[31], want);
        ask(t, 100, &above, &left, 32, &DEPTHS);
    }
    let mut row = vec![0; 65];
    row[1] = 4;
    assert_eq!(filter_answer(0, &row, &row, 4).1[..2], [1, 2]);
    ask(t, 0, &row, &row, 4, &DEPTHS);
    // every fault, alone and with every other
    for n in SIDES {
        for up in [65, 64, 0, 66] {
            for side in [65, 64, 0, 66] {
                let (above, left) = (any(up, &mut random), any(side, &mut random));
                ask(t, random.word() as u16, &above, &left, n, &BITS);
            }
        }
    }
}
