//! Walk and replay of whole pictures, in calls of every kind, and every refusal. What is wanted of a call is in step.rs.
use crate::assembled::Job;
use crate::choose::Search;
use crate::frame::{Block, Frame};
use crate::plan::change;
use crate::random::Random;
use crate::samples::{DEPTHS, KINDS, SIZES, any, dirt_32, largest, samples};
use crate::step::Call;
use crate::tally::Tally;

const CTUS: [u32; 3] = [16, 32, 64];
/// Sides, most of them no multiple of a CTU.
const PICTURES: [(u32, u32); 14] = [
    (8, 8),
    (16, 8),
    (8, 24),
    (24, 16),
    (40, 24),
    (32, 32),
    (64, 40),
    (72, 40),
    (64, 64),
    (24, 136),
    (136, 72),
    (128, 128),
    (4096, 8),
    (8, 4096),
];
/// How many kinds of sources there are.
const SOURCES: u64 = 7;

/// A source of a kind: black, saturated, both at random, one value a region, a slope, near the middle, or any.
fn source(kind: u64, bits: u32, f: Frame, random: &mut Random) -> Vec<u16> {
    let top = largest(bits) as u32;
    let values: Vec<u32> = (0..64).map(|_| random.below(top as u64 + 1) as u32).collect();
    let (down, along) = (random.below(40) as u32, random.below(40) as u32);
    let mut one = |row: u32, col: u32| match kind {
        0 => 0,
        1 => top,
        2 => random.pick(&[0, top]),
        3 => match values[(row / 16 * 5 + col / 16 * 3) as usize % 64] {
            v if v % 3 == 0 => 0,
            v if v % 3 == 1 => top,
            v => v,
        },
        4 => (row * down + col * along) / 16 % (top + 1),
        5 => top / 2 + random.below(5) as u32,
        _ => random.below(top as u64 + 1) as u32,
    };
    (0..f.height).flat_map(|row| (0..f.width).map(move |col| (row, col))).map(|(row, col)| one(row, col) as u16).collect()
}

/// Any residuals, in range or not: what a walk's buffer may hold before.
fn any_words(count: usize, random: &mut Random) -> Vec<i32> {
    dirt_32(count, random).into_iter().map(|w| w as i32).collect()
}

/// Residuals in the depth's range: small, at both ends, or any.
fn in_range(kind: u64, bits: u32, count: usize, random: &mut Random) -> Vec<i32> {
    let top = i32::from(largest(bits));
    let mut one = || match kind {
        0 => random.below(65) as i32 - 32,
        1 => random.pick(&[top, -top]),
        2 => random.pick(&[top, -top, top - 1, 0, 0, 1, -1]),
        _ => random.below(2 * top as u64 + 1) as i32 - top,
    };
    (0..count).map(|_| one()).collect()
}

/// A picture with a plan and a source, from which calls are made.
pub struct Still {
    pub bits: u32,
    pub frame: Frame,
    pub plan: Vec<Block>,
    pub source: Vec<u16>,
}

impl Still {
    pub fn any(frame: Frame, bits: u32, kind: u64, random: &mut Random) -> Still {
        Still { bits, frame, plan: frame.good_plan(random), source: source(kind, bits, frame, random) }
    }

    fn area(&self) -> usize {
        self.source.len()
    }

    /// Has the chooser pick the mode of every block; gives the sums.
    fn choose(&mut self, t: &mut Tally, random: &mut Random) -> Vec<u32> {
        let job = Job { bits: self.bits, frame: self.frame, plan: &[], blocks: 0..0 };
        let mut sums = Vec::new();
        for block in &mut self.plan {
            let (corner, above, left) = job.gather(*block, &self.source);
            let own: Vec<u16> = job.rows(*block).flat_map(|row| self.source[row].to_vec()).collect();
            let (mode, sum) = Search::new(self.bits, block[2] as usize, (corner, &above, &left), &own).ask(t, random);
            block[3] = mode as u32;
            sums.push(sum);
        }
        sums
    }

    /// A fresh walk into a plane and residuals that hold anything.
    pub fn walk(&self, random: &mut Random) -> Call {
        Call {
            walk: true,
            done: 0,
            bits: self.bits,
            frame: self.frame,
            plan: self.plan.clone(),
            ragged: None,
            source: self.source.clone(),
            plane: any(self.area(), random),
            residuals: any_words(self.area(), random),
            tables: Call::any_tables(random),
            grant: u32::MAX,
        }
    }

    /// A fresh replay of residuals into a plane that holds anything.
    pub fn replay(&self, residuals: Vec<i32>, random: &mut Random) -> Call {
        Call { walk: false, source: Vec::new(), residuals, ..self.walk(random) }
    }

    /// The residuals of a walk to the end, by the Rust's functions alone.
    fn residuals(&self, random: &mut Random) -> Vec<i32> {
        let mut call = self.walk(random);
        assert_eq!(call.make().no, 0, "the driver's own stills are good");
        call.residuals
    }
}

/// Plans whose modes the chooser picks from neighbours that are the source's own, as a walk that loses nothing has them: each block's
/// residuals come to the sum that it tells, and replay gives the source back.
pub fn chosen(t: &mut Tally) {
    let mut random = Random::new(31);
    for (width, height) in PICTURES.into_iter().filter(|p| p.0.max(p.1) <= 72) {
        for bits in DEPTHS {
            for kind in 0..SOURCES {
                let ctu = random.pick(&CTUS);
                let mut still = Still::any(Frame { width, height, ctu }, bits, kind, &mut random);
                let sums = still.choose(t, &mut random);
                let mut walk = still.walk(&mut random);
                assert_eq!(walk.ask(t, &mut random).no, 0);
                let mut at = 0;
                for (block, sum) in still.plan.iter().zip(sums) {
                    let area = (block[2] * block[2]) as usize;
                    assert_eq!(walk.residuals[at..at + area].iter().map(|r| r.unsigned_abs()).sum::<u32>(), sum);
                    at += area;
                }
                let mut replay = still.replay(walk.residuals, &mut random);
                assert_eq!(replay.ask(t, &mut random).no, 0);
                assert_eq!(replay.plane, still.source);
            }
        }
    }
}

/// A grant: 0, 1, some, all that remain, one above, or any number above.
fn grant(call: &Call, random: &mut Random) -> u32 {
    let rest = call.plan.len() as u32 - call.done;
    let some = random.below(rest as u64 + 1) as u32;
    random.pick(&[0, 1, some, some, rest, rest + 1, u32::MAX])
}

/// Makes calls until all is done, each with a grant of any kind and each with other scratch, and one more.
fn to_the_end(t: &mut Tally, call: &mut Call, random: &mut Random) {
    while (call.done as usize) < call.plan.len() {
        call.grant = grant(call, random);
        call.tables = Call::any_tables(random);
        call.done = call.ask(t, random).done;
    }
    call.grant = random.pick(&[0, 1, u32::MAX]);
    assert_eq!(call.ask(t, random).did, 0);
}

/// Every split of a small plan into calls comes to one call: where the mask's bit is not set a call ends after that block.
fn every_split(t: &mut Tally, fresh: &Call, random: &mut Random) {
    let mut whole = fresh.clone();
    whole.ask(t, random);
    let count = fresh.plan.len() as u32;
    for mask in 0u32..1 << (count - 1) {
        let mut call = fresh.clone();
        while call.done < count {
            call.grant = 1 + (mask >> call.done).trailing_ones().min(count - 1 - call.done);
            call.done = call.ask(t, random).done;
        }
        assert!(call.plane == whole.plane && call.residuals == whole.residuals);
    }
}

/// Which sides and modes were met, at each depth and CTU.
struct Met(Vec<(u32, u32, u32, u32)>);

impl Met {
    fn add(&mut self, call: &Call) {
        self.0.extend(call.plan.iter().map(|b| (call.bits, call.frame.ctu, b[2], b[3])));
    }

    fn all(mut self) {
        self.0.sort();
        self.0.dedup();
        // no block is larger than its CTU
        assert_eq!(self.0.len(), DEPTHS.len() * 35 * (CTUS.len() * SIZES.len() - 1), "every side, mode, depth and CTU is met");
    }
}

/// Every side with every mode, at every depth and CTU.
fn even(random: &mut Random) -> impl Iterator<Item = Still> {
    let all = CTUS.into_iter().flat_map(|ctu| DEPTHS.map(|bits| (ctu, bits))).flat_map(|at| SIZES.map(|n| (at, n as u32)));
    all.filter(|((ctu, _), n)| n <= ctu).map(move |((ctu, bits), n)| {
        let frame = Frame { width: 7 * n.next_multiple_of(8), height: 5 * n.next_multiple_of(8), ctu };
        let kind = random.below(SOURCES);
        Still { plan: frame.even_plan(n), ..Still::any(frame, bits, kind, random) }
    })
}

/// Every picture with every CTU and depth: small ones with every kind of source, others with one, in turn.
fn stills(random: &mut Random) -> Vec<Still> {
    let (mut all, mut turn) = (Vec::new(), 0);
    for (width, height) in PICTURES {
        for ctu in CTUS {
            for bits in DEPTHS {
                turn += 1;
                let kinds = if width * height <= 2048 { 0..SOURCES } else { turn % SOURCES..turn % SOURCES + 1 };
                all.extend(kinds.map(|kind| Still::any(Frame { width, height, ctu }, bits, kind, random)));
            }
        }
    }
    all
}

/// A small still of up to eight blocks, for every split of its plan.
fn small(random: &mut Random) -> Still {
    loop {
        let (width, height) = random.pick(&[(8, 8), (16, 8), (8, 16), (16, 16), (24, 8), (32, 32)]);
        let frame = Frame { width, height, ctu: random.pick(&CTUS) };
        let kind = random.below(SOURCES);
        let still = Still::any(frame, random.pick(&DEPTHS), kind, random);
        if (2..=8).contains(&still.plan.len()) {
            return still;
        }
    }
}

pub fn walk(t: &mut Tally) {
    let mut random = Random::new(17);
    let mut met = Met(Vec::new());
    for still in even(&mut Random::new(22)).chain(stills(&mut Random::new(18))) {
        let mut call = still.walk(&mut random);
        to_the_end(t, &mut call, &mut random);
        assert!(call.plane == still.source, "a walk to the end leaves the source in the work plane");
        met.add(&call);
        // again in one call, and from the middle on a plane that holds anything: it predicts from that
        let mut call = still.walk(&mut random);
        call.ask(t, &mut random);
        let mut call = still.walk(&mut random);
        call.done = random.below(still.plan.len() as u64 + 1) as u32;
        to_the_end(t, &mut call, &mut random);
        // samples altered between two calls
        let mut call = still.walk(&mut random);
        while (call.done as usize) < call.plan.len() {
            call.grant = grant(&call, &mut random);
            call.done = call.ask(t, &mut random).done;
            for _ in 0..8 {
                let at = random.below(still.area() as u64) as usize;
                call.plane[at] = random.word() as u16;
                call.residuals[random.below(still.area() as u64) as usize] = random.word() as i32;
            }
        }
    }
    met.all();
    for _ in 0..20 {
        let call = small(&mut random).walk(&mut random);
        every_split(t, &call, &mut random);
    }
    // document 01's example: the sums of absolute residuals are 128 and 0
    let frame = Frame { width: 16, height: 8, ctu: 16 };
    let still = Still { bits: 8, frame, plan: vec![[0, 0, 8, 1], [0, 8, 8, 1]], source: vec![130; 128] };
    let mut call = still.walk(&mut random);
    call.ask(t, &mut random);
    assert_eq!([0, 64].map(|at| call.residuals[at..at + 64].iter().map(|r| r.abs()).sum::<i32>()), [128, 0]);
}

pub fn replay(t: &mut Tally) {
    let mut random = Random::new(19);
    let mut met = Met(Vec::new());
    for still in even(&mut Random::new(23)).chain(stills(&mut Random::new(20))) {
        let residuals = still.residuals(&mut random);
        let mut call = still.replay(residuals.clone(), &mut random);
        to_the_end(t, &mut call, &mut random);
        assert!(call.plane == still.source, "a replay to the end gives the source back");
        met.add(&call);
        // some residuals altered, and residuals of every kind: planes of any contents, begun anywhere
        let mut altered = residuals;
        let top = i32::from(largest(still.bits));
        for r in in_range(0, still.bits, 20, &mut random) {
            let at = random.below(still.area() as u64) as usize;
            altered[at] = (altered[at] + r).clamp(-top, top);
        }
        let kind = random.below(4);
        for residuals in [altered, in_range(kind, still.bits, still.area(), &mut random)] {
            let mut whole = still.replay(residuals.clone(), &mut random);
            whole.ask(t, &mut random);
            let mut call = still.replay(residuals, &mut random);
            to_the_end(t, &mut call, &mut random);
            assert!(call.plane == whole.plane, "what a plane held before leaves no trace");
            call.plane = samples(random.below(KINDS), still.area(), &mut random);
            call.done = random.below(still.plan.len() as u64 + 1) as u32;
            to_the_end(t, &mut call, &mut random);
        }
    }
    met.all();
    for _ in 0..20 {
        let still = small(&mut random);
        let residuals = in_range(random.below(4), still.bits, still.area(), &mut random);
        let call = still.replay(residuals, &mut random);
        every_split(t, &call, &mut random);
    }
}

/// A list's first, last or middle entry.
fn at<T>(list: &mut [T], place: usize) -> Option<&mut T> {
    let last = list.len().checked_sub(1)?;
    list.get_mut([0, last / 2, last][place])
}

type Fault = fn(&mut Call);

/// Changes to a call of which each leads to a number of the table; some do so of a walk or a replay alone, and the last leave it good.
const FAULTS: &[Fault] = &[
    |c| c.bits = 9,
    |c| c.bits = 0,
    |c| c.bits = 264,
    |c| c.frame.width = 0,
    |c| c.frame.width = 12,
    |c| c.frame.width = 4104,
    |c| c.frame.height = 20,
    |c| c.frame.height = u32::MAX - 7,
    |c| c.frame.ctu = 0,
    |c| c.frame.ctu = 8,
    |c| c.frame.ctu = 128,
    |c| c.frame.width += 8,
    |c| c.frame.height = 4096,
    |c| c.source.truncate(c.source.len().saturating_sub(1)),
    |c| c.source.push(0),
    |c| c.plane.truncate(c.plane.len().saturating_sub(1)),
    |c| c.plane.push(0),
    |c| c.plane.clear(),
    |c| c.residuals.truncate(c.residuals.len() - 1),
    |c| c.residuals.push(0),
    |c| c.ragged = Some((0, -1)),
    |c| c.ragged = Some((1, 1)),
    |c| c.ragged = Some((2, isize::MIN)),
    |c| c.ragged = Some((3, -1)),
    |c| c.tables[0] = 192,
    |c| c.tables[1] = 31,
    |c| c.tables[2] = 31,
    |c| c.tables = [0, 0, 0],
    |c| at(&mut c.source, 0).into_iter().for_each(|s| *s = 1 << c.bits.min(15)),
    |c| at(&mut c.source, 1).into_iter().for_each(|s| *s = u16::MAX),
    |c| at(&mut c.source, 2).into_iter().for_each(|s| *s = 1 << c.bits.min(15)),
    |c| at(&mut c.residuals, 0).into_iter().for_each(|r| *r = 65536),
    |c| at(&mut c.residuals, 1).into_iter().for_each(|r| *r = i32::MIN),
    |c| at(&mut c.residuals, 2).into_iter().for_each(|r| *r = -65536),
    |c| at(&mut c.residuals, 0).into_iter().for_each(|r| *r = 1 << c.bits.min(15)),
    |c| at(&mut c.residuals, 1).into_iter().for_each(|r| *r = 65535),
    |c| at(&mut c.residuals, 2).into_iter().for_each(|r| *r = -(1 << c.bits.min(15))),
    |c| at(&mut c.plan, 0).into_iter().for_each(|b| b[2] = 0),
    |c| at(&mut c.plan, 1).into_iter().for_each(|b| b[2] = 260),
    |c| at(&mut c.plan, 2).into_iter().for_each(|b| b[2] = 64),
    |c| at(&mut c.plan, 0).into_iter().for_each(|b| b[3] = 35),
    |c| at(&mut c.plan, 1).into_iter().for_each(|b| b[3] = 256),
    |c| at(&mut c.plan, 2).into_iter().for_each(|b| b[3] = u32::MAX),
    |c| at(&mut c.plan, 0).into_iter().for_each(|b| b[0] += 2),
    |c| at(&mut c.plan, 1).into_iter().for_each(|b| b[1] = u32::MAX - 3),
    |c| at(&mut c.plan, 2).into_iter().for_each(|b| b[0] = c.frame.height),
    |c| at(&mut c.plan, 0).into_iter().for_each(|b| b[0] += b[2]),
    |c| at(&mut c.plan, 1).into_iter().for_each(|b| b[1] ^= b[2]),
    |c| c.plan.reverse(),
    |c| c.plan.extend_from_within(..c.plan.len().min(1)),
    |c| c.plan.extend_from_within(c.plan.len().saturating_sub(1)..),
    |c| c.plan.truncate(c.plan.len().saturating_sub(1)),
    |c| c.plan.clear(),
    |c| c.done = c.plan.len() as u32 + 1,
    |c| c.done = u32::MAX,
    |c| c.done = c.plan.len() as u32,
    |c| c.grant = 0,
    |_| (),
];

/// A call of either kind, begun anywhere, with a grant of any kind.
fn any_call(walk: bool, frame: Frame, random: &mut Random) -> Call {
    let still = Still::any(frame, random.pick(&DEPTHS), 6, random);
    let residuals = in_range(2, still.bits, still.area(), random);
    let mut call = if walk { still.walk(random) } else { still.replay(residuals, random) };
    call.done = random.below(call.plan.len() as u64 + 1) as u32;
    call.grant = grant(&call, random);
    call
}

pub fn refused(t: &mut Tally) {
    let mut random = Random::new(21);
    let mut seen = [[0u64; 15]; 2];
    for (width, height, ctu) in [(24, 16, 16), (8, 40, 32), (40, 24, 64)] {
        let frame = Frame { width, height, ctu };
        for walk in [true, false] {
            // every fault with every other
            for one in FAULTS {
                for other in FAULTS {
                    let mut call = any_call(walk, frame, &mut random);
                    one(&mut call);
                    other(&mut call);
                    seen[walk as usize][call.ask(t, &mut random).no as usize] += 1;
                }
            }
            // plans with changes of every kind at any block
            for _ in 0..600 {
                let mut call = any_call(walk, frame, &mut random);
                for _ in 0..=random.below(2) {
                    change(frame, &mut call.plan, &mut random);
                }
                seen[walk as usize][call.ask(t, &mut random).no as usize] += 1;
            }
        }
    }
    for no in [0, 1, 2, 3, 4, 5, 6, 9, 10, 11] {
        assert!(seen[0][no] > 50 && seen[1][no] > 50, "number {no} is met often: {seen:?}");
    }
    for (no, walk) in [(7, 1), (8, 0), (14, 0)] {
        assert!(seen[walk][no] > 50 && seen[1 - walk][no] == 0, "7 of a walk alone, 8 and 14 of a replay alone: {seen:?}");
    }
}

/// A replay's number for these residuals; its block is 0.
fn number(t: &mut Tally, call: &Call, residuals: &[(usize, i32)], random: &mut Random) -> u32 {
    let mut call = call.clone();
    for &(at, r) in residuals {
        call.residuals[at] = r;
    }
    let step = call.ask(t, random);
    assert!(step.block == 0 && (step.no == 0 || step.did == 0 && step.done == call.done));
    step.no
}

/// Number 14, with every number that it is found beside.
pub fn limit(t: &mut Tally) {
    let mut random = Random::new(24);
    let random = &mut random;
    let frame = Frame { width: 16, height: 8, ctu: 16 };
    let plan = vec![[0, 0, 8, 1], [0, 8, 4, 0], [0, 12, 4, 10], [4, 8, 4, 26], [4, 12, 4, 34]];
    for (bits, top) in [(8, 255), (10, 1023), (12, 4095)] {
        let still = Still { bits, frame, plan: plan.clone(), source: source(6, bits, frame, random) };
        let good = still.replay(vec![0; still.area()], random);
        for at in [0, 1, 63, 64, 100, 127] {
            for (r, no) in [(top, 0), (top + 1, 14), (65535, 14), (65536, 8), (i32::MAX, 8)] {
                assert_eq!([r, -r].map(|r| number(t, &good, &[(at, r)], random)), [no, no]);
            }
            assert_eq!(number(t, &good, &[(at, i32::MIN)], random), 8);
            assert_eq!(number(t, &good, &[(at, i32::MIN + 1)], random), 8);
            // 8 anywhere comes before 14 anywhere
            for other in [0, 63, 64, 127] {
                let wide = number(t, &good, &[(at, top + 1), (other, 65536)], random);
                assert_eq!(wide, 8);
                let beside = number(t, &good, &[(at, 65536), (other, -top - 1)], random);
                assert_eq!(beside, if at == other { 14 } else { 8 });
            }
            // whatever is granted and whatever is done; 11 comes after it, and so does every number of a block and 10
            let beyond = [(at, -top - 1)];
            for (done, grant) in [(0, 0), (0, 1), (1, 1), (3, 0), (5, 0), (5, 9), (6, 1), (u32::MAX, u32::MAX)] {
                assert_eq!(number(t, &Call { done, grant, ..good.clone() }, &beyond, random), 14);
            }
            for (block, part, value) in [(0, 2, 5), (4, 3, 35), (1, 0, 2), (2, 1, 8), (0, 2, 16)] {
                let mut call = good.clone();
                call.plan[block][part] = value;
                assert_eq!(number(t, &call, &beyond, random), 14);
            }
            let short = Call { plan: plan[..4].to_vec(), ..good.clone() };
            assert_eq!(number(t, &short, &beyond, random), 14);
            assert_eq!(number(t, &Call { plan: Vec::new(), ..good.clone() }, &beyond, random), 14);
            // 1, 4 and 5 come before it
            assert_eq!(number(t, &Call { bits: 9, ..good.clone() }, &beyond, random), 1);
            assert_eq!(number(t, &Call { frame: Frame { ctu: 8, ..frame }, ..good.clone() }, &beyond, random), 4);
            assert_eq!(number(t, &Call { plane: vec![0; 127], ..good.clone() }, &beyond, random), 5);
            assert_eq!(number(t, &Call { ragged: Some((3, -1)), ..good.clone() }, &beyond, random), 5);
            assert_eq!(number(t, &Call { tables: [192, 32, 32], ..good.clone() }, &beyond, random), 5);
        }
    }
    // one block of 8 by 8: the figures of document 02's reading
    let frame = Frame { width: 8, height: 8, ctu: 16 };
    let still = Still { bits: 8, frame, plan: vec![[0, 0, 8, 1]], source: vec![128; 64] };
    let good = still.replay(vec![0; 64], random);
    assert_eq!([255, 256, 65535, 65536].map(|r| number(t, &good, &[(9, r)], random)), [0, 14, 14, 8]);
    assert_eq!(number(t, &good, &[(0, 256), (63, 65536)], random), 8);
    assert_eq!(number(t, &Call { plan: vec![[0, 0, 5, 1]], ..good.clone() }, &[(0, 256)], random), 14);
    // 40,000 in a block is no white square any more
    assert_eq!(number(t, &Call { residuals: vec![40000; 64], ..good.clone() }, &[], random), 14);
    // a walk from a fresh record writes none that is refused, in however many calls, also where samples are 0 and the largest
    for kind in [1, 2, 6] {
        for bits in DEPTHS {
            let frame = Frame { width: 40, height: 24, ctu: 16 };
            let still = Still::any(frame, bits, kind, random);
            let mut call = still.walk(random);
            to_the_end(t, &mut call, random);
            assert!(call.residuals.iter().all(|&r| i64::from(r).abs() <= i64::from(largest(bits))));
            assert_eq!(number(t, &still.replay(call.residuals, random), &[], random), 0);
        }
    }
    // one that goes on over a work plane that was altered may: the second block is predicted at 65535
    let frame = Frame { width: 16, height: 8, ctu: 16 };
    let still = Still { bits: 8, frame, plan: vec![[0, 0, 8, 1], [0, 8, 8, 1]], source: vec![130; 128] };
    let mut call = Call { grant: 1, ..still.walk(random) };
    call.done = call.ask(t, random).done;
    call.plane.fill(65535);
    call.ask(t, random);
    assert!(call.residuals[..64].iter().all(|&r| r == 2) && call.residuals[64..].iter().all(|&r| r == 130 - 65535));
    assert_eq!(number(t, &still.replay(call.residuals, random), &[], random), 14);
}
