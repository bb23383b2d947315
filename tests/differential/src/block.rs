//! A chroma block against the Rust's predict_chroma_tb_into, and a luma block against its parts: should_filter_refs,
//! filter_luma_refs and the three predictors with edges filtered, put together as H.265 8.4.4.2.1 does (assembled.rs).
//! A chroma block is the standard's too (clauses.rs); rows of it under 65 entries are lengthened before the Rust is asked.
//! Outside the domain of documents 01 and 02 it is not asked: what is wanted there is the table's number and nothing written.
use crate::assembled;
use crate::entries;
use crate::host::Arg::{Lent, Number, Read};
use crate::oracle::intra::{self, AngularScratch};
use crate::predict::{is_standard, lengthened};
use crate::random::Random;
use crate::samples::{DEPTHS, KINDS, SIZES, any, at_least, bytes, bytes_32, dirt, dirt_32, largest, samples};
use crate::table;
use crate::tally::{Tally, Want};

/// What either door is given. Luma's rows have 65 entries by their type.
#[derive(Clone)]
pub struct Block {
    pub luma: bool,
    pub mode: u8,
    pub bits: u32,
    pub corner: u16,
    pub above: Vec<u16>,
    pub left: Vec<u16>,
    pub n: usize,
    pub pred: Vec<u16>,
    pub refs: usize,
    pub indices: usize,
    pub fractions: usize,
}

impl Block {
    fn number(&self, tables: bool) -> u32 {
        let rows = table::predictor_rows(self.n, self.above.len(), self.left.len());
        let lent = rows && table::block(self.n, self.pred.len()) && tables;
        table::first(&[(1, table::depth(self.bits)), (2, table::size(self.n)), (3, table::mode(self.mode)), (5, lent)])
    }

    /// The number, and the block's buffer afterwards, with tables that are long enough or not.
    pub fn answer(&self, tables: bool, scratch: &mut AngularScratch) -> (u32, Vec<u16>) {
        let (no, mut pred) = (self.number(tables), self.pred.clone());
        if no == 0 && self.luma {
            assembled::predict(self.mode, self.bits, (self.corner, &self.above, &self.left), self.n, &mut pred, scratch);
        } else if no == 0 {
            let (above, left, top) = (lengthened(&self.above), lengthened(&self.left), largest(self.bits) as i32);
            intra::predict_chroma_tb_into(self.mode, self.corner, &above, &left, self.n, top, &mut pred, scratch);
            is_standard(&pred, self.mode, false, self.bits, (self.corner, &self.above, &self.left), self.n);
        }
        (no, pred)
    }

    pub fn any(luma: bool, n: usize, mode: u8, bits: u32, kinds: [u64; 2], random: &mut Random) -> Block {
        let word = random.word() as u16;
        let row = |kind, random: &mut Random| {
            let entries = if luma { 65 } else { at_least(65, random) };
            samples(kind, entries, random)
        };
        Block {
            luma,
            mode,
            bits,
            corner: random.pick(&[0, u16::MAX, word & 255, word]),
            above: row(kinds[0], random),
            left: row(kinds[1], random),
            n,
            pred: dirt(at_least(n * n, random), random),
            refs: at_least(193, random),
            indices: at_least(32, random),
            fractions: at_least(32, random),
        }
    }
}

impl Block {
    /// The same call with other entries from 2n on: of the Rust, they reach no sample. Chroma, which no edge filter touches, also keeps between
    /// the least and the greatest of what it may read.
    fn reads_no_more(&self, scratch: &mut AngularScratch, random: &mut Random) -> Block {
        let (mut other, read) = (self.clone(), 2 * self.n);
        for row in [&mut other.above, &mut other.left] {
            let more = dirt(row.len() - read, random);
            row[read..].copy_from_slice(&more);
        }
        let (answer, block) = (self.answer(true, scratch), self.n * self.n);
        assert_eq!(answer, other.answer(true, scratch));
        let all = || [&[self.corner][..], &self.above[..read], &self.left[..read]].concat();
        if !self.luma {
            let (least, most) = (all().into_iter().min().unwrap(), all().into_iter().max().unwrap());
            assert!(answer.1[..block].iter().all(|s| (least..=most).contains(s)), "between the references");
        }
        other
    }
}

pub fn ask(t: &mut Tally, call: &Block, scratch: &mut AngularScratch, random: &mut Random) {
    let (no, after) = call.answer(table::scratch(call.refs, call.indices, call.fractions), scratch);
    let (up, side, pred) = (bytes(&call.above), bytes(&call.left), bytes(&call.pred));
    let refs = bytes(&dirt(call.refs, random));
    let [indices, fractions] = [call.indices, call.fractions].map(|k| bytes_32(&dirt_32(k, random)));
    // a call that is served may leave anything in the scratch; a refused one leaves it alone
    let lend = |b| if no == 0 { Read(b) } else { Lent(b) };
    let mut args = vec![Number(call.mode as u64), Number(call.corner as u64), Read(&up)];
    if !call.luma {
        args.push(Number(call.above.len() as u64));
    }
    args.push(Read(&side));
    if !call.luma {
        args.push(Number(call.left.len() as u64));
    }
    args.extend([Number(call.n as u64), Number(call.bits as u64), Lent(&pred), Number(call.pred.len() as u64)]);
    // through the struct, whose tables are long enough by their type
    let (whole, left) = call.answer(true, scratch);
    let name = if call.luma { "salvrunde_probe_predict_luma_tb_scratch" } else { "salvrunde_probe_predict_chroma_tb_scratch" };
    t.call(name, &args, Want::fields(&[whole]).then(bytes(&left)));
    args.extend([
        lend(&refs),
        Number(call.refs as u64),
        lend(&indices),
        Number(call.indices as u64),
        lend(&fractions),
        Number(call.fractions as u64),
    ]);
    let mut want = Want::fields(&[no]).then(bytes(&after));
    if no != 0 {
        want = want.then(refs.clone()).then(indices.clone()).then(fractions.clone());
    }
    let name = if call.luma { "salvrunde_probe_predict_luma_tb_slices" } else { "salvrunde_probe_predict_chroma_tb_slices" };
    t.call(name, &args, want);
    if call.luma {
        entries::luma_block(t, call, scratch);
    } else {
        entries::chroma_block(t, call, scratch);
    }
}

const FAULTS: &[fn(&mut Block)] = &[
    |_| (),
    |c| c.bits = 9,
    |c| c.bits = 264,
    |c| c.bits = 0,
    |c| c.n = 0,
    |c| c.n = 5,
    |c| c.n = 64,
    |c| c.n = (1 << 32) + 8,
    |c| c.n = usize::MAX,
    |c| c.n = 16,
    |c| c.mode = 0,
    |c| c.mode = 1,
    |c| c.mode = 35,
    |c| c.mode = 36,
    |c| c.mode = 255,
    |c| c.pred.truncate(63),
    |c| c.pred.clear(),
    |c| c.refs = 192,
    |c| c.refs = 0,
    |c| c.indices = 31,
    |c| c.indices = 0,
    |c| c.fractions = 31,
    |c| c.fractions = 0,
];

const ROW_FAULTS: &[fn(&mut Block)] = &[
    |c| c.above.truncate(16),
    |c| c.left.truncate(16),
    |c| c.above.truncate(15),
    |c| c.left.truncate(15),
    |c| c.above.clear(),
    |c| c.left.clear(),
];

fn run(t: &mut Tally, luma: bool, seed: u64) {
    let mut random = Random::new(seed);
    let mut scratch = AngularScratch::new();
    // every size, mode and depth on rows of every kind
    for n in SIZES {
        for mode in 0..=34 {
            for bits in DEPTHS {
                for kind in 0..3 * KINDS {
                    let kinds = [kind % KINDS, random.below(KINDS)];
                    let call = Block::any(luma, n, mode, bits, kinds, &mut random);
                    ask(t, &call, &mut scratch, &mut random);
                    ask(t, &call.reads_no_more(&mut scratch, &mut random), &mut scratch, &mut random);
                }
            }
        }
    }
    // rows that the strong form of smoothing takes and rows just past it
    for bits in DEPTHS {
        for mode in 0..=34 {
            for off in [-1i32, 0, 1] {
                let mut call = Block::any(luma, 32, mode, bits, [8, 8], &mut random);
                call.corner = 100;
                let far = (100 + (1 << (bits - 5)) + off) as u16;
                for row in [&mut call.above, &mut call.left] {
                    (row[31], row[63]) = (100, far);
                }
                ask(t, &call, &mut scratch, &mut random);
            }
        }
    }
    // every mode that is none
    for mode in 35..=255 {
        let call = Block::any(luma, 8, mode, 8, [8, 8], &mut random);
        ask(t, &call, &mut scratch, &mut random);
    }
    // every two faults in either order
    let faults: Vec<_> = if luma { FAULTS.to_vec() } else { [FAULTS, ROW_FAULTS].concat() };
    for one in &faults {
        for other in &faults {
            let mut call = Block::any(luma, 8, random.below(35) as u8, 10, [8, 8], &mut random);
            call.above = any(call.above.len(), &mut random);
            one(&mut call);
            other(&mut call);
            ask(t, &call, &mut scratch, &mut random);
        }
    }
}

pub fn chroma(t: &mut Tally) {
    run(t, false, 14);
}

pub fn luma(t: &mut Tally) {
    run(t, true, 15);
}
