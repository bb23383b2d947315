//! Two lenses under one plan that take turns with one scratch, beside each lens alone (document 02, Wish 9). Every call is compared with
//! the Rust, as in step.rs; here what came back of the turns of both is compared with what came back of each lens alone, and what a
//! turn left in the scratch is what the next one finds there. The forms over numbers and over records each have such a scratch.
use crate::frame::Frame;
use crate::random::Random;
use crate::samples::{DEPTHS, at_least, largest};
use crate::step::{Call, GUARD, REPLAY, Scratch, Step, WALK};
use crate::tally::{Left, Tally};
use crate::walk::Still;

/// What a lens has of its own: a walk, and a replay that is given what the walk's residuals hold.
#[derive(Clone)]
struct Lens {
    walk: Call,
    replay: Call,
    /// Its source without faults.
    source: Vec<u16>,
}

/// What the owner does with a lens's own things before a turn.
#[derive(Clone, Copy, Debug)]
enum First {
    Nothing,
    WalkAnew,
    ReplayAnew,
    Sample(usize, u16),
    Residual(usize, i32),
    Records(u32),
    /// Takes the faults away again.
    Mend,
}

#[derive(Clone, Copy, Debug)]
struct Turn {
    lens: usize,
    first: First,
    walk: bool,
    grant: u32,
    /// Whether somebody writes rubbish into the scratch before.
    rubbish: bool,
}

/// What came back of a turn, over numbers and over records, without the scratch.
type Told = [Option<Left>; 2];

impl Lens {
    fn new(still: &Still, random: &mut Random) -> Lens {
        let walk = still.walk(random);
        Lens { replay: still.replay(walk.residuals.clone(), random), walk, source: still.source.clone() }
    }

    fn prepare(&mut self, first: First) {
        let count = self.walk.plan.len() as u32;
        match first {
            First::Nothing => (),
            First::WalkAnew => self.walk.done = 0,
            First::ReplayAnew => self.replay.done = 0,
            First::Sample(at, v) => self.walk.source[at % self.source.len()] = v,
            First::Residual(at, r) => self.walk.residuals[at % self.source.len()] = r,
            First::Records(more) => (self.walk.done, self.replay.done) = (count + more, count + more),
            First::Mend => {
                self.walk.source = self.source.clone();
                let top = i32::from(largest(self.walk.bits));
                self.walk.residuals.iter_mut().for_each(|r| *r = (*r).clamp(-top, top));
                (self.walk.done, self.replay.done) = (self.walk.done.min(count), self.replay.done.min(count));
            }
        }
    }

    /// Takes a turn with what the scratch holds, and leaves in it what came back.
    fn take(&mut self, t: &mut Tally, turn: Turn, scratch: &mut Scratch) -> (Step, Told) {
        self.prepare(turn.first);
        self.replay.residuals = self.walk.residuals.clone();
        let (call, names) = if turn.walk { (&mut self.walk, WALK) } else { (&mut self.replay, REPLAY) };
        call.grant = turn.grant;
        let step = call.ask_with(t, scratch);
        call.done = step.done;
        let mut told = names.map(|name| t.left(name));
        let last = |form: &mut Option<Left>| {
            let mut bytes = form.as_mut()?.lent.pop()?;
            bytes.truncate(bytes.len() - GUARD.len());
            Some(bytes)
        };
        for k in [2, 1, 0] {
            scratch.tables[k] = last(&mut told[0]).expect("a table comes back");
        }
        scratch.record = last(&mut told[1]).expect("the struct comes back");
        (step, told)
    }
}

/// Both lenses in these turns with one scratch, after each of them alone with another: the same comes back, turn by turn. Gives the numbers
/// and leaves both lenses as the turns left them.
fn take_turns(t: &mut Tally, lenses: &mut [Lens; 2], turns: &[Turn], tables: [usize; 3], random: &mut Random) -> Vec<u32> {
    let begun = lenses.clone();
    let mut alone = [0, 1].map(|l| {
        let (mut lens, mut scratch) = (begun[l].clone(), Scratch::rubbish(tables, random));
        let own: Vec<Told> = turns.iter().filter(|turn| turn.lens == l).map(|&turn| lens.take(t, turn, &mut scratch).1).collect();
        own.into_iter()
    });
    let mut scratch = Scratch::rubbish(tables, random);
    let mut numbers = Vec::new();
    for &turn in turns {
        if turn.rubbish {
            scratch = Scratch::rubbish(tables, random);
        }
        let (step, told) = lenses[turn.lens].take(t, turn, &mut scratch);
        assert!(alone[turn.lens].next() == Some(told), "{turn:?} gives what it gives alone");
        numbers.push(step.no);
    }
    numbers
}

fn any_turn(lens: usize, random: &mut Random) -> Turn {
    let (at, more) = (random.below(1 << 20) as usize, 1 + random.below(3) as u32);
    let wide = random.pick(&[256, 1024, 4096, -4096, 65535, -65535, 65536]);
    let sample = random.pick(&[256, 1024, 4096, u16::MAX]);
    let fault = random.pick(&[First::Sample(at, sample), First::Residual(at, wide), First::Records(more)]);
    let anew = random.pick(&[First::WalkAnew, First::ReplayAnew]);
    let first = random.pick(&[First::Nothing, First::Nothing, First::Mend, First::Mend, anew, fault]);
    let grant = random.pick(&[0, 1, 1, 1, 2, 3, 7, u32::MAX]);
    Turn { lens, first, walk: random.below(2) == 0, grant, rubbish: random.below(3) == 0 }
}

/// Turns that bring both lenses to the end, in any order: each begins anew and is granted some blocks a turn. The first begins anew once
/// more, wherever the second is.
fn to_the_end(walk: bool, blocks: usize, random: &mut Random) -> Vec<Turn> {
    let anew = if walk { First::WalkAnew } else { First::ReplayAnew };
    let grant = 1 + random.below(3) as u32;
    let mut left = [blocks.div_ceil(grant as usize); 2];
    let mut turns: Vec<Turn> = Vec::new();
    while left != [0, 0] {
        let lens = random.below(2) as usize;
        if left[lens] > 0 {
            let first = if turns.iter().any(|turn| turn.lens == lens) { First::Nothing } else { anew };
            turns.push(Turn { lens, first, walk, grant, rubbish: random.below(2) == 0 });
            left[lens] -= 1;
        }
    }
    let place = random.below(turns.len() as u64 + 1) as usize;
    turns.insert(place, Turn { lens: 0, first: anew, walk, grant: u32::MAX, rubbish: false });
    turns
}

/// A second lens beside the first: of another depth, and of another CTU, or of sides that do not fit the plan; or of the same depth.
fn beside(kind: u64, one: &Still, random: &mut Random) -> Still {
    let Frame { width, height, ctu } = one.frame;
    let frame = match kind {
        1 => Frame { ctu: random.pick(&[16, 32, 64]), ..one.frame },
        2 => random.pick(&[Frame { width: width + 8, ..one.frame }, Frame { height: height + 8, ..one.frame }]),
        3 => Frame { width: height, height: width + 8, ctu },
        _ => one.frame,
    };
    let bits = if kind == 4 { one.bits } else { DEPTHS[(DEPTHS.iter().position(|&d| d == one.bits).unwrap() + 1) % 3] };
    let source = random.below(7);
    Still { plan: one.plan.clone(), ..Still::any(frame, bits, source, random) }
}

fn any_still(random: &mut Random) -> Still {
    let (width, height) = random.pick(&[(8, 8), (16, 8), (24, 16), (16, 24), (40, 24), (32, 32)]);
    let frame = Frame { width, height, ctu: random.pick(&[16, 32, 64]) };
    let (bits, source) = (random.pick(&DEPTHS), random.below(7));
    Still::any(frame, bits, source, random)
}

pub fn lenses(t: &mut Tally) {
    WALK.iter().chain(&REPLAY).for_each(|name| t.watch(name));
    let random = &mut Random::new(31);
    let mut seen = [[0u64; 16]; 2];
    for round in 0..240 {
        let one = any_still(random);
        let two = beside(round % 5, &one, random);
        let fits = two.frame.verdict(&two.plan) == [0, 0];
        let tables = [at_least(193, random), at_least(32, random), at_least(32, random)];
        let mut lenses = [&one, &two].map(|still| {
            let mut lens = Lens::new(still, random);
            (lens.walk.tables, lens.replay.tables) = (tables, tables);
            lens
        });
        // any turns, with faults
        let turns: Vec<Turn> = (0..24).map(|_| any_turn(random.below(2) as usize, random)).collect();
        for (turn, no) in turns.iter().zip(take_turns(t, &mut lenses, &turns, tables, random)) {
            seen[turn.lens][no as usize] += 1;
            assert!(turn.lens == 0 || fits || no != 0, "sides that do not fit the plan are refused at each turn");
        }
        // then to the end: the still of each comes back, whatever became of the other
        lenses.iter_mut().for_each(|lens| lens.prepare(First::Mend));
        for walk in [true, false] {
            let turns = to_the_end(walk, one.plan.len(), random);
            take_turns(t, &mut lenses, &turns, tables, random);
        }
        for (lens, served) in lenses.iter().zip([true, fits]) {
            assert!(!served || lens.walk.plane == lens.source && lens.replay.plane == lens.source, "the still comes back");
            assert!(served || lens.walk.done == 0 && lens.replay.done == 0, "a refused lens stays where it was");
        }
    }
    for no in [0, 7, 11, 14] {
        assert!(seen[0][no] > 50 && seen[1][no] > 50, "number {no} is met often: {seen:?}");
    }
    assert!(seen[1][6] + seen[1][9] + seen[1][10] > 200, "plans that do not fit are met often: {seen:?}");
    figure(t, random);
}

/// Document 02's: two blocks of 8 in mode 1, one lens all 130, the other with a sample of 256, a block a turn.
fn figure(t: &mut Tally, random: &mut Random) {
    let frame = Frame { width: 16, height: 8, ctu: 16 };
    let one = Still { bits: 8, frame, plan: vec![[0, 0, 8, 1], [0, 8, 8, 1]], source: vec![130; 128] };
    let mut source = vec![130; 128];
    source[77] = 256;
    let two = Still { plan: one.plan.clone(), source, ..one };
    let mut lenses = [&one, &two].map(|still| Lens::new(still, random));
    let tables = lenses[0].walk.tables;
    lenses[1].walk.tables = tables;
    let before = lenses[1].walk.clone();
    let turns = [0, 1, 0, 1].map(|lens| Turn { lens, first: First::Nothing, walk: true, grant: 1, rubbish: false });
    assert_eq!(take_turns(t, &mut lenses, &turns, tables, random), [0, 7, 0, 7]);
    let sum = |at: usize| lenses[0].walk.residuals[at..at + 64].iter().map(|r| r.abs()).sum::<i32>();
    assert_eq!((lenses[0].walk.done, sum(0), sum(64)), (2, 128, 0));
    assert_eq!((lenses[1].walk.done, &lenses[1].walk.plane, &lenses[1].walk.residuals), (0, &before.plane, &before.residuals));
}
