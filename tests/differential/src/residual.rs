//! Residual and reconstruction against the Rust's compute_residual_i32_into and reconstruct_into.
//! Outside document 01's domain the Rust is not asked: what is wanted there is the table's number and nothing written.
use crate::host::Arg::{Lent, Number, Read};
use crate::oracle::intra;
use crate::random::Random;
use crate::samples::{BITS, DEPTHS, KINDS, SIDES, SIZES, any, at_least, bytes, bytes_signed, dirt, dirt_32, largest, samples};
use crate::table;
use crate::tally::{Tally, Want};

/// Residuals on the limits of the range, in it and out of it.
const EDGES: [i32; 12] = [0, 1, -1, 255, -255, 4095, -4095, 65534, 65535, -65535, -65534, 7];
const OUT: [i32; 6] = [65536, -65536, 65537, i32::MAX, i32::MIN, i32::MIN + 1];

/// The number, and the residuals' buffer afterwards.
pub fn residual_answer(orig: &[u16], pred: &[u16], n: usize, residual: &[i32]) -> (u32, Vec<i32>) {
    let room = [orig.len(), pred.len(), residual.len()].into_iter().all(|k| table::block(n, k));
    let no = table::first(&[(2, table::size(n)), (5, room)]);
    let mut after = residual.to_vec();
    if no == 0 {
        intra::compute_residual_i32_into(orig, pred, n, &mut after);
    }
    (no, after)
}

/// The number, and the block's buffer afterwards.
pub fn rebuilt_answer(pred: &[u16], residual: &[i32], n: usize, bits: u32, out: &[u16]) -> (u32, Vec<u16>) {
    let room = [pred.len(), residual.len(), out.len()].into_iter().all(|k| table::block(n, k));
    let used = &residual[..n.saturating_mul(n).min(residual.len())];
    let range = used.iter().all(|&r| table::residual(r));
    let no = table::first(&[(1, table::depth(bits)), (2, table::size(n)), (5, room), (8, range)]);
    let mut after = out.to_vec();
    if no == 0 {
        intra::reconstruct_into(pred, residual, n, largest(bits), &mut after);
    }
    (no, after)
}

fn ask_residual(t: &mut Tally, orig: &[u16], pred: &[u16], n: usize, residual: &[i32]) {
    let (no, after) = residual_answer(orig, pred, n, residual);
    let (o, p, r) = (bytes(orig), bytes(pred), bytes_signed(residual));
    let args = [
        Read(&o),
        Number(orig.len() as u64),
        Read(&p),
        Number(pred.len() as u64),
        Number(n as u64),
        Lent(&r),
        Number(residual.len() as u64),
    ];
    t.call("salvrunde_probe_compute_residual_i32_into", &args, Want::fields(&[no]).then(bytes_signed(&after)));
}

pub fn ask_rebuilt(t: &mut Tally, pred: &[u16], residual: &[i32], n: usize, bits: u32, out: &[u16]) {
    let (no, after) = rebuilt_answer(pred, residual, n, bits, out);
    let (p, r, o) = (bytes(pred), bytes_signed(residual), bytes(out));
    let args = [
        Read(&p),
        Number(pred.len() as u64),
        Read(&r),
        Number(residual.len() as u64),
        Number(n as u64),
        Number(bits as u64),
        Lent(&o),
        Number(out.len() as u64),
    ];
    t.call("salvrunde_probe_reconstruct_into", &args, Want::fields(&[no]).then(bytes(&after)));
}

fn signed_dirt(count: usize, random: &mut Random) -> Vec<i32> {
    dirt_32(count, random).into_iter().map(|w| w as i32).collect()
}

/// Residuals in range: small, on the edges, or any.
fn residuals(kind: u64, count: usize, random: &mut Random) -> Vec<i32> {
    let mut one = || match kind {
        0 => random.below(513) as i32 - 256,
        1 => random.pick(&EDGES),
        2 => random.below(8193) as i32 - 4096,
        _ => random.below(131071) as i32 - 65535,
    };
    (0..count).map(|_| one()).collect()
}

/// Lengths of a block's buffer: as long as it must be, one short, and longer.
fn lengths(n: usize) -> [usize; 3] {
    let least = if table::size(n) { n * n } else { 64 };
    [least, least - 1, least + 5]
}

pub fn residual(t: &mut Tally) {
    let mut random = Random::new(8);
    for n in SIZES {
        for first in 0..KINDS {
            for second in 0..KINDS {
                for _ in 0..6 {
                    let orig = samples(first, at_least(n * n, &mut random), &mut random);
                    let pred = samples(second, at_least(n * n, &mut random), &mut random);
                    ask_residual(t, &orig, &pred, n, &signed_dirt(at_least(n * n, &mut random), &mut random));
                }
            }
        }
    }
    // every fault, alone and with every other
    for n in SIDES {
        for o in lengths(n) {
            for p in lengths(n) {
                for r in lengths(n) {
                    ask_residual(t, &any(o, &mut random), &any(p, &mut random), n, &signed_dirt(r, &mut random));
                }
            }
        }
    }
}

pub fn reconstruction(t: &mut Tally) {
    let mut random = Random::new(9);
    for n in SIZES {
        let area = n * n;
        for bits in DEPTHS {
            // every kind of prediction and residual: both ends are reached
            for kind in 0..KINDS {
                for with in 0..4 {
                    for _ in 0..6 {
                        let pred = samples(kind, at_least(area, &mut random), &mut random);
                        let mut rs = residuals(with, area, &mut random);
                        // past n×n anything may stand: it is not used
                        rs.extend(signed_dirt(at_least(0, &mut random), &mut random));
                        ask_rebuilt(t, &pred, &rs, n, bits, &dirt(at_least(area, &mut random), &mut random));
                    }
                }
            }
            // one residual out of range, at the first place, the last, one between, and just past the block
            for bad in OUT.into_iter().chain([65535, -65535]) {
                for at in [0, area - 1, random.below(area as u64) as usize, area] {
                    let mut rs = residuals(3, area + 2, &mut random);
                    rs[at] = bad;
                    ask_rebuilt(t, &any(area, &mut random), &rs, n, bits, &dirt(area + 3, &mut random));
                }
            }
        }
        // each place in turn
        for at in 0..area {
            let mut rs = vec![0; area];
            rs[at] = if at % 2 == 0 { 65536 } else { -65536 };
            ask_rebuilt(t, &any(area, &mut random), &rs, n, 8, &dirt(area, &mut random));
        }
    }
    // document 01's figure P9
    let (pred, rs) = ([[250; 8], [5; 8]].concat(), [[10; 8], [-9; 8]].concat());
    assert_eq!(rebuilt_answer(&pred, &rs, 4, 8, &[1; 16]).1, [[255; 8], [0; 8]].concat());
    ask_rebuilt(t, &pred, &rs, 4, 8, &[1; 16]);
    // every fault, alone and with every other
    for bits in BITS {
        for n in SIDES {
            for p in lengths(n) {
                for r in lengths(n) {
                    for o in lengths(n) {
                        for bad in [None, Some(65536), Some(i32::MIN)] {
                            let mut rs = residuals(1, r, &mut random);
                            if let Some(bad) = bad {
                                rs[random.below(r as u64) as usize] = bad;
                            }
                            ask_rebuilt(t, &any(p, &mut random), &rs, n, bits, &dirt(o, &mut random));
                        }
                    }
                }
            }
        }
    }
}
