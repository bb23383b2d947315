//! Planar, DC and angular prediction against the Rust's predict_planar_into, predict_dc_into and predict_angular_into, and against
//! the standard's wording (clauses.rs). Rows under 65 entries, on some of which the Rust panics, are lengthened before it is asked.
//! Outside the domain of documents 01 and 02 it is not asked: what is wanted there is the table's number and nothing written.
use crate::clauses::Neighbours;
use crate::entries;
use crate::host::Arg::{Lent, Number, Read};
use crate::oracle::intra::{self, AngularScratch};
use crate::random::Random;
use crate::samples::{BITS, DEPTHS, KINDS, SIDES, SIZES, any, at_least, bytes, bytes_32, dirt, dirt_32, largest, samples};
use crate::table;
use crate::tally::{Tally, Want};

/// What planar and DC are given. A block's buffer holds something before the call.
pub struct Flat {
    pub above: Vec<u16>,
    pub left: Vec<u16>,
    pub n: usize,
    pub pred: Vec<u16>,
}

/// A row as the Rust is given it: one under 65 entries goes on with other samples, which are to reach nothing.
pub fn lengthened(row: &[u16]) -> Vec<u16> {
    let more = (row.len()..65).map(|i| 0xdead ^ (i as u16) << 7);
    row.iter().copied().chain(more).collect()
}

/// The block that the Rust made is to be the standard's, from entries 0 to 2n - 1 alone.
pub fn is_standard(after: &[u16], mode: u8, edge: bool, bits: u32, (corner, above, left): (u16, &[u16], &[u16]), n: usize) {
    let standard = Neighbours { corner, above, left, n: n as i32 }.block(mode, edge, bits);
    assert_eq!(after[..n * n], standard, "the standard's block of side {n} in mode {mode}");
}

impl Flat {
    fn long(&self) -> bool {
        table::predictor_rows(self.n, self.above.len(), self.left.len()) && table::block(self.n, self.pred.len())
    }

    fn number(&self) -> u32 {
        table::first(&[(2, table::size(self.n)), (5, self.long())])
    }

    /// The number, and the block's buffer afterwards.
    pub fn planar(&self) -> (u32, Vec<u16>) {
        let (no, mut after) = (self.number(), self.pred.clone());
        if no == 0 {
            intra::predict_planar_into(&lengthened(&self.above), &lengthened(&self.left), self.n, &mut after);
            is_standard(&after, 0, false, 8, (0, &self.above, &self.left), self.n);
        }
        (no, after)
    }

    pub fn dc(&self, edge: bool) -> (u32, Vec<u16>) {
        let (no, mut after) = (self.number(), self.pred.clone());
        if no == 0 {
            intra::predict_dc_into(&lengthened(&self.above), &lengthened(&self.left), self.n, edge, &mut after);
            is_standard(&after, 1, edge, 8, (0, &self.above, &self.left), self.n);
        }
        (no, after)
    }
}

/// Planar, and DC with its edge smoothed and not.
pub fn ask_flat(t: &mut Tally, call: &Flat) {
    let (up, side, pred) = (bytes(&call.above), bytes(&call.left), bytes(&call.pred));
    let (rows, lent) = (
        [Read(&up), Number(call.above.len() as u64), Read(&side), Number(call.left.len() as u64), Number(call.n as u64)],
        [Lent(&pred), Number(call.pred.len() as u64)],
    );
    let (no, after) = call.planar();
    t.call("salvrunde_probe_predict_planar_into", &[&rows[..], &lent].concat(), Want::fields(&[no]).then(bytes(&after)));
    for edge in [false, true] {
        let args = [&rows[..], &[Number(edge as u64)], &lent].concat();
        let (no, after) = call.dc(edge);
        t.call("salvrunde_probe_predict_dc_into", &args, Want::fields(&[no]).then(bytes(&after)));
    }
    entries::flat(t, call);
}

/// A call that is served: rows of these kinds, buffers as long as they must be or longer.
fn any_flat(n: usize, up: u64, side: u64, random: &mut Random) -> Flat {
    Flat {
        above: samples(up, at_least(65, random), random),
        left: samples(side, at_least(65, random), random),
        n,
        pred: dirt(at_least(n * n, random), random),
    }
}

/// Lengths of a block's buffer: as long as it must be, one short, none, and one more.
fn lengths(n: usize) -> Vec<usize> {
    let least = if table::size(n) { n * n } else { 64 };
    vec![least, least - 1, 0, least + 1]
}

pub fn planar_dc(t: &mut Tally) {
    let mut random = Random::new(6);
    for n in SIZES {
        for up in 0..KINDS {
            for side in 0..KINDS {
                for _ in 0..12 {
                    ask_flat(t, &any_flat(n, up, side, &mut random));
                }
            }
        }
    }
    // document 01's figures P1 and P2
    let call = Flat { above: vec![10; 65], left: vec![20; 65], n: 4, pred: vec![7; 16] };
    let (planar, plain, edge) = (call.planar().1, call.dc(false).1, call.dc(true).1);
    assert_eq!([planar[0], planar[3], planar[12]], [15, 11, 19]);
    assert_eq!([plain[0], edge[0], edge[1], edge[4]], [15, 15, 14, 16]);
    ask_flat(t, &call);
    // every fault, alone and with every other
    for n in SIDES {
        let least = if table::size(n) { 2 * n } else { 64 };
        for up in [65, least, least - 1, 0] {
            for side in [65, least, least - 1, 0] {
                for room in lengths(n) {
                    let pred = dirt(room, &mut random);
                    ask_flat(t, &Flat { above: any(up, &mut random), left: any(side, &mut random), n, pred });
                }
            }
        }
    }
}

/// What the angular door is given.
pub struct Angular {
    pub corner: u16,
    pub rows: Flat,
    pub mode: u8,
    pub edge: bool,
    pub bits: u32,
    pub refs: usize,
    pub indices: usize,
    pub fractions: usize,
}

impl Angular {
    /// With the least scratch there may be.
    pub fn new(corner: u16, rows: Flat, mode: u8, edge: bool, bits: u32) -> Angular {
        Angular { corner, rows, mode, edge, bits, refs: 193, indices: 32, fractions: 32 }
    }

    fn number(&self, tables: bool) -> u32 {
        let (n, lent) = (self.rows.n, self.rows.long() && tables);
        table::first(&[(1, table::depth(self.bits)), (2, table::size(n)), (3, table::angular(self.mode)), (5, lent)])
    }

    /// The number, and the block's buffer afterwards. The Rust's scratch is what its earlier calls left.
    pub fn answer(&self, scratch: &mut AngularScratch) -> (u32, Vec<u16>) {
        self.with_tables(table::scratch(self.refs, self.indices, self.fractions), scratch)
    }

    /// The same, with tables that are long enough or not.
    pub fn with_tables(&self, tables: bool, scratch: &mut AngularScratch) -> (u32, Vec<u16>) {
        let Flat { above, left, n, pred } = &self.rows;
        let (no, mut after) = (self.number(tables), pred.clone());
        if no == 0 {
            let (top, up, side) = (largest(self.bits) as i32, lengthened(above), lengthened(left));
            intra::predict_angular_into(self.corner, &up, &side, *n, self.mode, self.edge, top, &mut after, scratch);
            is_standard(&after, self.mode, self.edge, self.bits, (self.corner, above, left), *n);
        }
        (no, after)
    }
}

pub fn ask_angular(t: &mut Tally, call: &Angular, scratch: &mut AngularScratch, random: &mut Random) {
    let Flat { above, left, n, pred } = &call.rows;
    let (up, side, block) = (bytes(above), bytes(left), bytes(pred));
    let refs = bytes(&dirt(call.refs, random));
    let [indices, fractions] = [call.indices, call.fractions].map(|k| bytes_32(&dirt_32(k, random)));
    let (no, after) = call.answer(scratch);
    // a call that is served may leave anything in the scratch; a refused one leaves it alone
    let lend = |b| if no == 0 { Read(b) } else { Lent(b) };
    let args = [
        Number(call.corner as u64),
        Read(&up),
        Number(above.len() as u64),
        Read(&side),
        Number(left.len() as u64),
        Number(*n as u64),
        Number(call.mode as u64),
        Number(call.edge as u64),
        Number(call.bits as u64),
        Lent(&block),
        Number(pred.len() as u64),
        lend(&refs),
        Number(call.refs as u64),
        lend(&indices),
        Number(call.indices as u64),
        lend(&fractions),
        Number(call.fractions as u64),
    ];
    let mut want = Want::fields(&[no]).then(bytes(&after));
    if no != 0 {
        want = want.then(refs.clone()).then(indices.clone()).then(fractions.clone());
    }
    t.call("salvrunde_probe_predict_angular_slices", &args, want);
    // the same through the struct, whose tables are long enough by their type
    let (no, after) = call.with_tables(true, scratch);
    t.call("salvrunde_probe_predict_angular_scratch", &args[..11], Want::fields(&[no]).then(bytes(&after)));
    entries::angular(t, call, scratch);
}

pub fn angular(t: &mut Tally) {
    let mut random = Random::new(7);
    let mut scratch = AngularScratch::new();
    // every size, mode, edge and depth on rows of every kind
    for n in SIZES {
        for mode in 2..=34 {
            for edge in [false, true] {
                for bits in DEPTHS {
                    for kind in 0..3 * KINDS {
                        let side = random.below(KINDS);
                        let rows = any_flat(n, kind % KINDS, side, &mut random);
                        let word = random.word() as u16;
                        let corner = random.pick(&[0, u16::MAX, word & 255, word]);
                        let mut call = Angular::new(corner, rows, mode, edge, bits);
                        call.refs = at_least(193, &mut random);
                        call.indices = at_least(32, &mut random);
                        call.fractions = at_least(32, &mut random);
                        ask_angular(t, &call, &mut scratch, &mut random);
                    }
                }
            }
        }
    }
    // every fault, alone and with every other
    for bits in [8, 12, 9, 264] {
        for n in [4, 16, 0, 5, 64, usize::MAX] {
            for mode in [2, 10, 26, 34, 0, 1, 35, 255] {
                let least = if table::size(n) { 2 * n } else { 64 };
                for (up, side) in [(65, 65), (least, 65), (65, least), (least - 1, 65), (65, least - 1), (0, 0)] {
                    for room in &lengths(n)[..3] {
                        for (refs, indices, fractions) in
                            [(193, 32, 32), (192, 32, 32), (193, 31, 32), (193, 32, 31), (192, 31, 31), (0, 0, 0)]
                        {
                            let (above, left) = (any(up, &mut random), any(side, &mut random));
                            let rows = Flat { above, left, n, pred: dirt(*room, &mut random) };
                            let edge = random.below(2) == 1;
                            let call = Angular { corner: random.word() as u16, rows, mode, edge, bits, refs, indices, fractions };
                            ask_angular(t, &call, &mut scratch, &mut random);
                        }
                    }
                }
            }
        }
    }
    // every depth and mode that is none
    for bits in BITS {
        for mode in 0..=255 {
            let rows = any_flat(8, 8, 8, &mut random);
            ask_angular(t, &Angular::new(0, rows, mode, true, bits), &mut scratch, &mut random);
        }
    }
    figures(t, &mut scratch, &mut random);
}

/// Document 01's figures P3, P4 and P5.
fn figures(t: &mut Tally, scratch: &mut AngularScratch, random: &mut Random) {
    let rows = |above: Vec<u16>, left: Vec<u16>| Flat { above, left, n: 4, pred: vec![9; 16] };
    for (side, want) in [(250, 255), (99, 199)] {
        let call = Angular::new(100, rows(vec![200; 65], vec![side; 65]), 26, true, 8);
        assert_eq!(call.answer(scratch).1[0], want);
        ask_angular(t, &call, scratch, random);
    }
    let call = Angular::new(0, rows((0..65).collect(), vec![0; 65]), 34, true, 8);
    let after = call.answer(scratch).1;
    assert_eq!((&after[..4], &after[12..]), (&[1, 2, 3, 4][..], &[4, 5, 6, 7][..]));
    ask_angular(t, &call, scratch, random);
    let call = Angular::new(50, rows((60..125).collect(), (130..195).collect()), 18, true, 8);
    let after = call.answer(scratch).1;
    assert_eq!([after[0], after[4], after[1]], [50, 130, 60]);
    ask_angular(t, &call, scratch, random);
}
