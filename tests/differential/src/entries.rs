//! The firmware's entries on bytes, with what the Rust gives for the same values. Each is asked beside its door, on every call whose
//! numbers the entry's types can hold; an entry has scratch of its own, and lengths are those of the samples in bytes.
use crate::block;
use crate::choose::Search;
use crate::host::Arg::{self, Lent, Number, Read};
use crate::oracle::intra::AngularScratch;
use crate::predict::{Angular, Flat};
use crate::refs::{Chroma, Luma, Rows};
use crate::samples::{bytes, bytes_signed};
use crate::step::{Call, Step};
use crate::tally::{Tally, Want};

/// What a buffer holds before a call.
const DIRT: u8 = 0xa5;

/// A slice as an entry takes it.
fn read(bytes: &[u8]) -> [Arg<'_>; 2] {
    [Read(bytes), Number(bytes.len() as u64)]
}

fn lent(bytes: &[u8]) -> [Arg<'_>; 2] {
    [Lent(bytes), Number(bytes.len() as u64)]
}

fn numbers(all: &[u32]) -> Vec<Arg<'static>> {
    all.iter().map(|&v| Number(v as u64)).collect()
}

/// An entry that predicts a block: its numbers, its rows, and the block's buffer before and after.
fn predicts(t: &mut Tally, name: &'static str, first: &[u32], call: &Flat, (no, after): (u32, Vec<u16>)) {
    let (up, side, pred) = (bytes(&call.above), bytes(&call.left), bytes(&call.pred));
    let args = [&numbers(first)[..], &read(&up), &read(&side), &lent(&pred)].concat();
    t.call(name, &args, Want::fields(&[no]).then(bytes(&after)));
}

pub fn flat(t: &mut Tally, call: &Flat) {
    let Ok(n) = u32::try_from(call.n) else { return };
    predicts(t, "salvrunde_planar", &[n], call, call.planar());
    for edge in [0, 1, u32::MAX] {
        predicts(t, "salvrunde_dc", &[n, edge], call, call.dc(edge != 0));
    }
}

pub fn angular(t: &mut Tally, call: &Angular, scratch: &mut AngularScratch) {
    let Ok(n) = u32::try_from(call.rows.n) else { return };
    let first = [call.bits, n, call.mode as u32, call.edge as u32, call.corner as u32];
    predicts(t, "salvrunde_angular", &first, &call.rows, call.with_tables(true, scratch));
}

pub fn chroma_block(t: &mut Tally, call: &block::Block, scratch: &mut AngularScratch) {
    let Ok(n) = u32::try_from(call.n) else { return };
    let first = [call.bits, n, call.mode as u32, call.corner as u32];
    let rows = Flat { above: call.above.clone(), left: call.left.clone(), n: call.n, pred: call.pred.clone() };
    predicts(t, "salvrunde_chroma_block", &first, &rows, call.answer(true, scratch));
}

/// A luma block. Its rows have 65 samples by the door's type; the entry is asked with those, with more bytes and with fewer, which is
/// number 5 where no number before it counts.
pub fn luma_block(t: &mut Tally, call: &block::Block, scratch: &mut AngularScratch) {
    let Ok(n) = u32::try_from(call.n) else { return };
    let first = numbers(&[call.bits, n, call.mode as u32, call.corner as u32]);
    let (no, after) = call.answer(true, scratch);
    let [up, side] = [&call.above, &call.left].map(|row| [bytes(row), vec![DIRT; 3]].concat());
    let before = bytes(&call.pred);
    for (above, left) in [(130, 130), (131, 133), (129, 133), (133, 129), (0, 130)] {
        let no = if no == 0 && above.min(left) < 130 { 5 } else { no };
        let after = if no == 0 { bytes(&after) } else { before.clone() };
        let args = [&first[..], &read(&up[..above]), &read(&side[..left]), &lent(&before)].concat();
        t.call("salvrunde_luma_block", &args, Want::fields(&[no]).then(after));
    }
}

/// An entry that gathers: served into the first bytes of its buffer, which is left alone where it refuses. A buffer that is one byte short
/// is refused with 5, which comes before 6 and after 1, 2 and 4.
fn gathers(t: &mut Tally, name: &'static str, first: &[u32], planes: &[Vec<u8>], (no, rows): (u32, &[Rows])) {
    let slices: Vec<Arg> = planes.iter().flat_map(|p| read(p)).collect();
    let whole: Vec<u8> =
        rows.iter().flat_map(|(corner, above, left)| [&[*corner][..], above, left].concat()).flat_map(u16::to_le_bytes).collect();
    for length in [whole.len(), whole.len() + 1, whole.len() - 1] {
        let before = vec![DIRT; length];
        let no = if length < whole.len() && [0, 6].contains(&no) { 5 } else { no };
        let mut after = before.clone();
        if no == 0 {
            after[..whole.len()].copy_from_slice(&whole);
        }
        let args = [&numbers(first)[..], &slices, &lent(&before)].concat();
        t.call(name, &args, Want::fields(&[no]).then(after));
    }
}

pub fn luma(t: &mut Tally, call: &Luma) {
    let Ok(n) = u32::try_from(call.n) else { return };
    let (no, rows) = call.answer();
    let p = call.picture;
    let first = [call.bits, p.width, p.height, p.ctu, p.unit, call.row, call.col, n];
    gathers(t, "salvrunde_luma_refs", &first, &[bytes(&call.plane)], (no, &[rows]));
}

pub fn chroma(t: &mut Tally, call: &Chroma) {
    let Ok(n) = u32::try_from(call.n) else { return };
    let (no, rows) = call.answer();
    let (p, place) = (call.picture, [call.row, call.col, n, call.current.0, call.current.1]);
    let first = [&[call.bits, call.format, p.width, p.height, p.ctu, p.unit][..], &place].concat();
    gathers(t, "salvrunde_chroma_refs_ctu", &first, &call.planes.each_ref().map(|p| bytes(p)), (no, &rows));
}

/// A plan as records of six bytes, where its numbers fit.
fn records(call: &Call) -> Option<Vec<u8>> {
    let mut all = Vec::new();
    for &[row, col, side, mode] in &call.plan {
        all.extend(u16::try_from(row).ok()?.to_le_bytes());
        all.extend(u16::try_from(col).ok()?.to_le_bytes());
        all.extend([u8::try_from(side).ok()?, u8::try_from(mode).ok()?]);
    }
    Some(all)
}

/// A replay, made on both sides: `before` is the call as it was, `after` what the Rust made of it.
pub fn replay(t: &mut Tally, before: &Call, after: &Call, step: &Step) {
    let Some(plan) = records(before) else { return };
    let residuals = bytes_signed(&before.residuals);
    let (plane, result) = (bytes(&before.plane), vec![DIRT; 9]);
    let f = before.frame;
    let first = numbers(&[before.done, before.bits, f.width, f.height, f.ctu, before.grant]);
    let args = [&first[..], &read(&plan), &read(&residuals), &lent(&plane), &lent(&result)].concat();
    let told = [&step.block.to_le_bytes()[..], &step.done.to_le_bytes(), &[DIRT]].concat();
    t.call("salvrunde_replay", &args, Want::fields(&[step.no]).then(bytes(&after.plane)).then(told));
}

/// A checksum: the sum in the first four bytes of its buffer, which is left alone where it refuses. A buffer of three bytes is refused
/// with 5, which comes before 7 and 11 and after 1 and 4.
pub fn checksum(t: &mut Tally, first: &[u32; 6], plane: &[u8], (no, sum): (u32, u32)) {
    for length in [4, 5, 3] {
        let before = vec![DIRT; length];
        let no = if length < 4 && ![1, 4].contains(&no) { 5 } else { no };
        let mut after = before.clone();
        if no == 0 {
            after[..4].copy_from_slice(&sum.to_le_bytes());
        }
        let args = [&numbers(first)[..], &read(plane), &lent(&before)].concat();
        t.call("salvrunde_checksum", &args, Want::fields(&[no]).then(after));
    }
}

/// A choice of a mode: mode and sum in the first eight bytes of its buffer, which is left alone where it refuses. A buffer of seven bytes
/// is refused with 5, which comes before 7 and after 1 and 2.
pub fn choose(t: &mut Tally, call: &Search, (no, mode, sum): (u32, u8, u32)) {
    let Ok(n) = u32::try_from(call.n) else { return };
    let first = numbers(&[call.bits, n, call.corner as u32]);
    let [up, side, source] = [&call.above, &call.left, &call.source].map(|samples| bytes(samples));
    for length in [8, 9, 7] {
        let before = vec![DIRT; length];
        let no = if length < 8 && ![1, 2].contains(&no) { 5 } else { no };
        let mut after = before.clone();
        if no == 0 {
            after[..4].copy_from_slice(&(mode as u32).to_le_bytes());
            after[4..8].copy_from_slice(&sum.to_le_bytes());
        }
        let args = [&first[..], &read(&up), &read(&side), &read(&source), &lent(&before)].concat();
        for entry in ["salvrunde_choose", "salvrunde_choose_early"] {
            t.call(entry, &args, Want::fields(&[no]).then(after.clone()));
        }
    }
}
