//! One call of walk or replay: what documents 01 and 02 and the Rust say of it, and the call of the proved code beside it.
//! The number comes from their table and order, the planes from the Rust's functions (assembled.rs).
use crate::assembled::Job;
use crate::entries;
use crate::frame::{Block, Frame};
use crate::host::Arg::{self, Lent, Number};
use crate::plan::lists;
use crate::random::Random;
use crate::samples::{at_least, bytes, bytes_32, bytes_signed, dirt, dirt_32, largest};
use crate::table::{self, Picture};
use crate::tally::{Tally, Want};

/// What a call is given. A replay has no source, and its plane is the work plane.
#[derive(Clone)]
pub struct Call {
    pub walk: bool,
    pub done: u32,
    pub bits: u32,
    pub frame: Frame,
    pub plan: Vec<Block>,
    /// A slice of the plan's numbers that has so many entries more or less than the others.
    pub ragged: Option<(usize, isize)>,
    pub source: Vec<u16>,
    pub plane: Vec<u16>,
    pub residuals: Vec<i32>,
    /// Lengths of the scratch tables.
    pub tables: [usize; 3],
    pub grant: u32,
}

/// What a call gives: its number, the block it is about, how many blocks it did, and how many are done.
pub struct Step {
    pub no: u32,
    pub block: u32,
    pub did: u32,
    pub done: u32,
}

impl Call {
    /// The number and its block: 1, 4, 5, then 7, or 8 and 14, then each block by 2, 3, 6, 9, then 10, then 11.
    fn verdict(&self) -> [u32; 2] {
        let Frame { width, height, ctu } = self.frame;
        let whole = |entries| table::plane(width as u64, height as u64, entries);
        let planes = whole(self.plane.len()) && whole(self.residuals.len()) && (!self.walk || whole(self.source.len()));
        let [refs, indices, fractions] = self.tables;
        if !table::depth(self.bits) {
            [1, 0]
        } else if !Picture::new(width, height, ctu, 4).sides_and_ctu() {
            [4, 0]
        } else if !planes || !self.is_whole() || !table::scratch(refs, indices, fractions) {
            [5, 0]
        } else if self.walk && self.source.iter().any(|&s| s > largest(self.bits)) {
            [7, 0]
        } else if !self.walk && !self.residuals.iter().all(|&r| table::residual(r)) {
            [8, 0]
        } else if !self.walk && !self.residuals.iter().all(|&r| table::residual_of(self.bits, r)) {
            [14, 0]
        } else if self.frame.verdict(&self.plan) != [0, 0] {
            self.frame.verdict(&self.plan)
        } else if self.done as usize > self.plan.len() {
            [11, 0]
        } else {
            [0, 0]
        }
    }

    /// The plan as the four slices that the call over numbers is lent.
    fn lists(&self) -> [Vec<u32>; 4] {
        let mut lists = lists(&self.plan);
        if let Some((k, more)) = self.ragged {
            lists[k].resize(lists[k].len().saturating_add_signed(more), 8);
        }
        lists
    }

    fn is_whole(&self) -> bool {
        self.lists().iter().all(|list| list.len() == self.plan.len())
    }

    /// What the call gives; the plane and, of a walk, the residuals become what it leaves.
    pub fn make(&mut self) -> Step {
        let [no, block] = self.verdict();
        if no != 0 {
            return Step { no, block, did: 0, done: self.done };
        }
        let from = self.done as usize;
        let did = (self.grant as usize).min(self.plan.len() - from);
        let (plane, residuals) = (self.plane.clone(), self.residuals.clone());
        let job = Job { bits: self.bits, frame: self.frame, plan: &self.plan, blocks: from..from + did };
        if self.walk {
            job.walk(&self.source, &mut self.plane, &mut self.residuals);
        } else {
            job.replay(&self.residuals, &mut self.plane);
        }
        self.keeps(from..from + did, &plane, &residuals);
        Step { no: 0, block: 0, did: did as u32, done: self.done + did as u32 }
    }

    /// The first sample and the first residual of each block that was not done are as they were: of the driver's own loop.
    fn keeps(&self, did: std::ops::Range<usize>, plane: &[u16], residuals: &[i32]) {
        let mut at = 0;
        for (k, [row, col, side, _]) in self.plan.iter().enumerate() {
            let first = (row * self.frame.width + col) as usize;
            assert!(did.contains(&k) || self.plane[first] == plane[first] && self.residuals[at] == residuals[at]);
            at += (side * side) as usize;
        }
    }

    /// Makes the call on both sides, with rubbish in the scratch.
    pub fn ask(&mut self, t: &mut Tally, random: &mut Random) -> Step {
        self.ask_with(t, &Scratch::rubbish(self.tables, random))
    }

    /// Makes the call on both sides. What is lent has guards behind it; a call leaves plan, source and guards alone, and a
    /// refused one the scratch too.
    pub fn ask_with(&mut self, t: &mut Tally, scratch: &Scratch) -> Step {
        let numbers = [self.done, self.bits, self.frame.width, self.frame.height, self.frame.ctu].map(|v| Number(v as u64));
        let lists = self.lists().map(|list| Slice::new(bytes_32(&list), list.len()));
        let records = [Slice::new(bytes_32(self.plan.as_flattened()), self.plan.len())];
        let source = Slice::new(bytes(&self.source), self.source.len());
        let plane = Slice::new(bytes(&self.plane), self.plane.len());
        let residuals = Slice::new(bytes_signed(&self.residuals), self.residuals.len());
        let [refs, indices, fractions] = self.tables;
        let tables = [0, 1, 2].map(|k| Slice::new(scratch.tables[k].clone(), self.tables[k]));
        let before = self.clone();
        let step = self.make();
        let after =
            [Slice::new(bytes(&self.plane), self.plane.len()), Slice::new(bytes_signed(&self.residuals), self.residuals.len())];
        let (names, lent, left) = if self.walk {
            (WALK, vec![&source, &plane, &residuals], vec![&source, &after[0], &after[1]])
        } else {
            (REPLAY, vec![&residuals, &plane], vec![&residuals, &after[0]])
        };
        let slices: Vec<Arg> = lent.into_iter().flat_map(Slice::args).collect();
        let grant = [Number(self.grant as u64)];
        let fields = [step.no, step.block, step.did, step.done];
        let begun = |plan: &[Slice]| {
            plan.iter().chain(left.iter().copied()).fold(Want::fields(&fields), |want, s| want.then(s.bytes.clone()))
        };
        let mut want = begun(&lists);
        for table in &tables {
            let open = if step.no == 0 { table.bytes.len() - GUARD.len() } else { 0 };
            want = want.then_past(open, table.bytes.clone());
        }
        let lent: Vec<Arg> = tables.iter().flat_map(Slice::args).collect();
        let plan: Vec<Arg> = lists.iter().flat_map(Slice::args).collect();
        t.call(names[0], &[&numbers[..], &plan, &slices, &lent, &grant].concat(), want);
        // over block records the plan is whole, and the scratch a struct whose tables are long enough
        if self.is_whole() && table::scratch(refs, indices, fractions) {
            let scratch = Slice::new(scratch.record.clone(), 1);
            let want = begun(&records).then_past(if step.no == 0 { SCRATCH } else { 0 }, scratch.bytes.clone());
            t.call(names[1], &[&numbers[..], &records[0].args(), &slices, &[Lent(&scratch.bytes)], &grant].concat(), want);
            if !self.walk {
                entries::replay(t, &before, self, &step);
            }
        }
        step
    }

    /// Scratch tables that are long enough.
    pub fn any_tables(random: &mut Random) -> [usize; 3] {
        [at_least(193, random), at_least(32, random), at_least(32, random)]
    }
}

/// What the scratch holds, as bytes: its three tables, and the struct for the calls over block records.
pub struct Scratch {
    pub tables: [Vec<u8>; 3],
    pub record: Vec<u8>,
}

impl Scratch {
    pub fn rubbish([refs, indices, fractions]: [usize; 3], random: &mut Random) -> Scratch {
        let tables = [bytes(&dirt(refs, random)), bytes_32(&dirt_32(indices, random)), bytes_32(&dirt_32(fractions, random))];
        Scratch { tables, record: bytes(&dirt(SCRATCH / 2, random)) }
    }
}

/// The entries over lent numbers and over block records.
pub const WALK: [&str; 2] = ["salvrunde_probe_walk", "salvrunde_probe_walk_records"];
pub const REPLAY: [&str; 2] = ["salvrunde_probe_replay", "salvrunde_probe_replay_records"];

/// Bytes of the scratch struct: 193 samples, two bytes of room, and twice 32 numbers.
const SCRATCH: usize = 193 * 2 + 2 + 2 * 32 * 4;

pub const GUARD: [u8; 16] = *b"guards of a call";

/// A slice's bytes with a guard behind them, and its length in elements.
struct Slice {
    bytes: Vec<u8>,
    len: usize,
}

impl Slice {
    fn new(mut bytes: Vec<u8>, len: usize) -> Slice {
        bytes.extend(GUARD);
        Slice { bytes, len }
    }

    fn args(&self) -> [Arg<'_>; 2] {
        [Lent(&self.bytes), Number(self.len as u64)]
    }
}
