//! Error reports against a count of their own, through the entry on bytes and the door on samples: random pairs of planes and plans,
//! records that are honest or not, the limits of number 15 on each side, and document 02's figures.
use crate::frame::{Block, Frame};
use crate::host::Arg::{Lent, Number, Read};
use crate::plan::{change, lists};
use crate::random::Random;
use crate::samples::{BITS, DEPTHS, bytes, bytes_32};
use crate::table::{self, Picture};
use crate::tally::{Tally, Want};

const MOST_PAIRS: u32 = 65536;

/// A record: settings, pairs, and for each mode blocks, samples and squares.
#[derive(Clone)]
struct Report {
    bits: u32,
    frame: Frame,
    pairs: u32,
    figures: [[u64; 35]; 3],
}

/// A block as its record of six bytes spells it.
fn spelled([row, col, side, mode]: Block) -> Block {
    [row & 0xffff, col & 0xffff, side & 0xff, mode & 0xff]
}

fn plan_bytes(plan: &[Block]) -> Vec<u8> {
    let record = |b: &Block| {
        let [row, col, side, mode] = *b;
        [&(row as u16).to_le_bytes()[..], &(col as u16).to_le_bytes(), &[side as u8, mode as u8]].concat()
    };
    plan.iter().flat_map(record).collect()
}

/// A record of bytes with one too few.
fn short(record: &[u8]) -> &[u8] {
    &record[..record.len() - 1]
}

impl Report {
    fn fresh(bits: u32, frame: Frame) -> Report {
        Report { bits, frame, pairs: 0, figures: [[0; 35]; 3] }
    }

    fn bytes(&self, block: u32) -> Vec<u8> {
        let words = [self.bits, self.frame.width, self.frame.height, self.frame.ctu, self.pairs, block];
        let figures = self.figures.iter().flatten().flat_map(|v| v.to_le_bytes());
        words.iter().flat_map(|w| w.to_le_bytes()).chain(figures).collect()
    }

    fn depth(&self) -> bool {
        table::depth(self.bits)
    }

    fn picture(&self) -> bool {
        Picture::new(self.frame.width, self.frame.height, self.frame.ctu, 4).sides_and_ctu()
    }

    /// What a mode may have of blocks, samples and squares.
    fn limits(&self) -> [u128; 3] {
        let samples = self.pairs as u128 * self.frame.width as u128 * self.frame.height as u128;
        let top = if self.depth() { (1u128 << self.bits) - 1 } else { 0 };
        [samples / 16, samples, samples * top * top]
    }

    fn keeps(&self) -> bool {
        self.figures.iter().zip(self.limits()).all(|(list, most)| list.iter().all(|&v| v as u128 <= most))
    }

    /// A record of some figures within its limits, at them, or one above.
    fn filled(mut self, pairs: u32, random: &mut Random) -> Report {
        self.pairs = pairs;
        let limits = self.limits();
        for (list, most) in self.figures.iter_mut().zip(limits) {
            for v in list.iter_mut() {
                let most = most.min(u64::MAX as u128 - 1);
                let some = (random.word() as u128 % (most + 1)) as u64;
                *v = random.pick(&[0, most as u64, some]);
            }
        }
        if random.below(5) == 0 {
            let at = random.below(3) as usize;
            let mode = random.below(35) as usize;
            self.figures[at][mode] = random.pick(&[limits[at].min(u64::MAX as u128 - 1) as u64 + 1, u64::MAX]);
        }
        self
    }

    fn counted(&self, a: &[u16], b: &[u16], plan: &[Block]) -> Report {
        let mut next = self.clone();
        next.pairs += 1;
        for &[row, col, side, mode] in plan {
            let at = |r: u32, c: u32| (r * self.frame.width + c) as usize;
            let places = (row..row + side).flat_map(|r| (col..col + side).map(move |c| at(r, c)));
            let squares = places.map(|i| (a[i] as i64 - b[i] as i64).pow(2) as u64).sum::<u64>();
            for (list, more) in next.figures.iter_mut().zip([1, side as u64 * side as u64, squares]) {
                list[mode as usize] += more;
            }
        }
        next
    }

    /// The number of a call and its block; `whole` tells whether what is lent beside the planes is as long as it must be.
    fn verdict(&self, whole: bool, a: &[u16], b: &[u16], plan: &[Block]) -> [u32; 2] {
        let area = self.frame.width as usize * self.frame.height as usize;
        let top = if self.depth() { (1u16 << self.bits) - 1 } else { 0 };
        let fit = whole && a.len() == area && b.len() == area;
        let low = a.iter().chain(b).all(|&v| v <= top);
        let early = table::first(&[(1, self.depth()), (4, self.picture()), (5, fit), (7, low)]);
        let [no, block] = if early != 0 { [early, 0] } else { self.frame.verdict(plan) };
        let full = self.pairs >= MOST_PAIRS || !self.keeps();
        if no == 0 && full { [15, 0] } else { [no, block] }
    }

    /// The record after a call of this number.
    fn after(&self, no: u32, a: &[u16], b: &[u16], plan: &[Block]) -> Report {
        if no == 0 { self.counted(a, b, plan) } else { self.clone() }
    }

    /// Asks the entry on bytes, and with a record that is too short; the plan's last bytes are cut off.
    fn ask_bytes(&self, t: &mut Tally, a: &[u16], b: &[u16], plan: &[Block], cut: usize) -> u32 {
        let list = plan_bytes(plan);
        let list = &list[..list.len() - cut.min(list.len())];
        let plan: Vec<Block> = plan[..list.len() / 6].iter().map(|&block| spelled(block)).collect();
        let [no, block] = self.verdict(list.len().is_multiple_of(6), a, b, &plan);
        let after = self.after(no, a, b, &plan).bytes(block);
        let (a, b, before) = (bytes(a), bytes(b), self.bytes(77));
        let mut call = |record: &[u8], want: Want| {
            let lengths = [&a, &b, list, record].map(|l| Number(l.len() as u64));
            let args = [Read(&a), lengths[0], Read(&b), lengths[1], Read(list), lengths[2], Lent(record), lengths[3]];
            t.call("salvrunde_count_errors", &args, want);
        };
        call(&before, Want::fields(&[no]).then(after));
        call(short(&before), Want::fields(&[5]).then(short(&before).to_vec()));
        no
    }

    /// Asks the door on samples under a plan of numbers, of which one list is cut where `cut` is not 0.
    fn ask_numbers(&self, t: &mut Tally, a: &[u16], b: &[u16], plan: &[Block], cut: usize) {
        let mut lists = lists(plan);
        if cut > 0 {
            lists[cut % 4].pop();
        }
        let whole = lists.iter().all(|list| list.len() == lists[0].len());
        let [no, block] = self.verdict(whole, a, b, plan);
        let next = self.after(no, a, b, plan);
        let mut answer = bytes_32(&[no, block, next.pairs, 0]);
        answer.extend(next.figures.as_flattened().iter().flat_map(|v| v.to_le_bytes()));
        let settings = [self.bits, self.frame.width, self.frame.height, self.frame.ctu, self.pairs].map(|v| Number(v as u64));
        let figures = self.figures.map(|list| list.iter().flat_map(|v| v.to_le_bytes()).collect::<Vec<u8>>());
        let slices = [bytes(a), bytes(b)].into_iter().chain(lists.iter().map(|list| bytes_32(list))).collect::<Vec<_>>();
        let lengths = [a.len(), b.len()].into_iter().chain(lists.iter().map(Vec::len));
        let room = vec![0xa5; answer.len()];
        let mut args = vec![Lent(&room)];
        args.extend(settings);
        args.extend(figures.iter().map(|list| Read(list)));
        args.extend(slices.iter().zip(lengths).flat_map(|(list, length)| [Read(list), Number(length as u64)]));
        t.call("salvrunde_probe_count_errors", &args, Want::word(0, 0).then(answer));
    }

    /// Asks both; gives the entry's number.
    fn ask(&self, t: &mut Tally, a: &[u16], b: &[u16], plan: &[Block], cut: usize) -> u32 {
        self.ask_numbers(t, a, b, plan, cut);
        self.ask_bytes(t, a, b, plan, cut)
    }

    /// Asks for the sum with another; gives the number.
    fn join(&self, t: &mut Tally, other: &Report) -> u32 {
        let settings = |r: &Report| [r.bits, r.frame.width, r.frame.height, r.frame.ctu];
        let same = settings(self) == settings(other);
        let roomy = self.pairs as u64 + other.pairs as u64 <= MOST_PAIRS as u64 && self.keeps() && other.keeps();
        let no = table::first(&[(1, self.depth()), (4, self.picture() && same), (15, roomy)]);
        let mut after = self.clone();
        if no == 0 {
            after.pairs += other.pairs;
            for (list, more) in after.figures.iter_mut().zip(&other.figures) {
                list.iter_mut().zip(more).for_each(|(v, m)| *v += m);
            }
        }
        let (before, lent) = (self.bytes(5), other.bytes(6));
        let args = [Read(&lent), Number(lent.len() as u64), Lent(&before), Number(before.len() as u64)];
        t.call("salvrunde_join_errors", &args, Want::fields(&[no]).then(after.bytes(5)));
        no
    }
}

/// Document 02's figures: 10 against 13, then blocks of modes 5 and 1 of zeros against 255.
fn figures(t: &mut Tally) {
    let fresh = Report::fresh(8, Frame { width: 16, height: 8, ctu: 16 });
    let (first, second) = ([[0, 0, 8, 1], [0, 8, 8, 1]], [[0, 0, 8, 5], [0, 8, 8, 1]]);
    let one = fresh.counted(&[10; 128], &[13; 128], &first);
    let two = one.counted(&[0; 128], &[255; 128], &second);
    assert_eq!([0, 1, 2].map(|f| one.figures[f][1]), [2, 128, 1152]);
    assert_eq!([0, 1, 2].map(|f| two.figures[f][5]), [1, 64, 4161600]);
    assert_eq!([0, 1, 2].map(|f| two.figures[f][1]), [3, 192, 4162752]);
    assert_eq!(fresh.ask(t, &[10; 128], &[13; 128], &first, 0), 0);
    assert_eq!(one.ask(t, &[0; 128], &[255; 128], &second, 0), 0);
}

pub fn errors(t: &mut Tally) {
    let mut random = Random::new(1414);
    let mut seen = [0u64; 16];
    figures(t);
    for turn in 0..2400 {
        let (width, height) = (8 + 8 * random.below(9) as u32, 8 + 8 * random.below(9) as u32);
        let frame = Frame { width, height, ctu: random.pick(&[16, 32, 64]) };
        let bits = random.pick(&DEPTHS);
        let (top, area) = ((1u64 << bits) - 1, (width * height) as usize);
        let ends = turn % 5 == 0;
        let mut plane = |flip: u64| -> Vec<u16> {
            let one = |random: &mut Random| if ends { flip * top } else { random.below(top + 1) };
            (0..area).map(|_| one(&mut random) as u16).collect()
        };
        let (mut a, mut b) = (plane(0), plane(1));
        let mut plan = frame.good_plan(&mut random);
        let pairs = random.pick(&[0, 1, 7, 65534, 65535, 65536, 65537, u32::MAX]);
        let mut report = Report::fresh(bits, frame).filled(pairs, &mut random);
        let mut cut = 0;
        match random.below(16) {
            0 => report.bits = random.pick(&BITS),
            1 => report.frame.ctu = random.pick(&[16, 32, 64, 8, 0, 272]),
            2 => report.frame.width = random.pick(&[width + 4, width + 8, 0, 4104]),
            3 => a[random.below(area as u64) as usize] = top as u16 + 1,
            4 => b[random.below(area as u64) as usize] = u16::MAX,
            5 => drop(a.pop()),
            6 => b.push(0),
            7 => cut = 1 + random.below(5) as usize,
            8..=10 => change(frame, &mut plan, &mut random),
            _ => (),
        }
        seen[report.ask(t, &a, &b, &plan, cut) as usize] += 1;
        let mut other = Report::fresh(bits, frame).filled(random.pick(&[0, 1, 2, 65529, 65536]), &mut random);
        match random.below(8) {
            0 => other.bits = random.pick(&DEPTHS),
            1 => other.frame.ctu = random.pick(&[16, 32, 64]),
            2 => std::mem::swap(&mut other.frame.width, &mut other.frame.height),
            _ => (),
        }
        seen[report.join(t, &other) as usize] += 1;
    }
    for no in [0, 1, 4, 5, 7, 15] {
        assert!(seen[no] > 50, "number {no} is met often: {seen:?}");
    }
    for no in [2, 3, 6, 9, 10] {
        assert!(seen[no] > 0, "number {no} is met: {seen:?}");
    }
}
