//! The fixed list of the Rust's answers to substitution and the gathers, crates/replay_refs/stdin, which a proved program
//! replays with no Rust at hand. crates/replay_refs/src/main.rt says how a line is read and what a seed gives.
use crate::list::{comment_of, line_of};
use crate::list_predict::{follow, next, other, sample};
use crate::random::Random;
use crate::refs::{Chroma, Luma, Marked, Rows};
use crate::table::Picture;

/// Words in a line, and entries of a row among them.
const WORDS: usize = 51;
const WINDOW: usize = 32;
/// Samples of a plane at most.
const ROOM: usize = 4096;
/// The largest samples; 1 stands for either end.
const TOPS: [u32; 4] = [0, 1, 255, 65535];

/// A call as a line gives it; what a kind does not ask for is 0.
#[derive(Clone, Copy, Default)]
struct Call {
    kind: u32,
    bits: u32,
    format: u32,
    /// The CTU, or whether the corner is there.
    ctu: u32,
    width: u32,
    height: u32,
    /// The least unit, or how many flags in sixteen are there.
    unit: u32,
    row: u32,
    col: u32,
    n: u32,
    current: (u32, u32),
    seed: u32,
    top: u32,
    entries: u32,
}

impl Call {
    fn flags(self, seed: u32, one: u32) -> [bool; 65] {
        let mut x = seed;
        let mut flags = [false; 65];
        for (i, flag) in flags.iter_mut().enumerate() {
            x = next(x);
            *flag = x % 16 < self.unit || i as u32 == one;
        }
        flags
    }

    fn plane(self, seed: u32) -> Vec<u16> {
        follow(seed, self.top, (self.entries as usize).min(ROOM))
    }

    fn answer(self) -> (u32, Vec<Rows>) {
        let (bits, n, row, col) = (self.bits, self.n as usize, self.row, self.col);
        match self.kind {
            1 => {
                let row = |seed| follow(seed, self.top, 65).try_into().unwrap();
                let rows = (sample(self.seed, self.top), row(self.seed), row(other(self.seed)));
                let (above, left) = (self.flags(self.current.0, self.width), self.flags(self.current.1, self.height));
                let (no, rows) = Marked { rows, corner: self.ctu == 1, above, left }.answer(n, bits);
                (no, vec![rows])
            }
            2 => {
                let picture = Picture::new(self.width, self.height, self.ctu, self.unit);
                let (no, rows) = Luma { bits, picture, row, col, n, plane: self.plane(self.seed) }.answer();
                (no, vec![rows])
            }
            _ => {
                let Call { format, current, .. } = self;
                let picture = Picture::new(self.width, self.height, self.ctu, self.unit);
                let planes = [self.plane(self.seed), self.plane(other(self.seed))];
                let (no, rows) = Chroma { bits, format, picture, row, col, n, current, planes }.answer();
                (no, rows.to_vec())
            }
        }
    }

    /// A line for each row of the answer: its first entries, or the last where they are more than 32.
    fn lines(self) -> String {
        let (no, planes) = self.answer();
        let place = if self.n == 32 { 33 } else { 0 };
        let mut lines = String::new();
        for (plane, (corner, above, left)) in planes.iter().enumerate() {
            for (side, row) in [above, left].into_iter().enumerate() {
                let mut words = vec![self.kind, self.bits, self.format, self.width, self.height, self.ctu, self.unit];
                words.extend([self.row, self.col, self.n, self.current.0, self.current.1, self.seed, self.top, self.entries]);
                words.extend([2 * plane as u32 + side as u32, place as u32, no, *corner as u32]);
                words.extend(row[place..place + WINDOW].iter().map(|&s| s as u32));
                lines += &line_of(&words, WORDS);
            }
        }
        lines
    }
}

/// A call and copies of it with one fault each.
fn with_faults(call: Call) -> Vec<Call> {
    let mut all = vec![call];
    for bits in [9, 264] {
        all.push(Call { bits, ..call });
        all.push(Call { bits, n: 5, width: 12, ..call });
    }
    for n in [0, 5, 64] {
        all.push(Call { n, ..call });
        all.push(Call { n, width: 4104, ..call });
    }
    if call.kind > 1 {
        let most = u32::MAX;
        all.extend([0, 12, 4104, most].map(|width| Call { width, ..call }));
        all.extend([0, 12, 4104, most].map(|height| Call { height, entries: 1, ..call }));
        all.extend([0, 4, 24, 128, most].map(|ctu| Call { ctu, ..call }));
        all.extend([0, 4, most].map(|format| Call { format, ..call }).into_iter().filter(|c| c.kind == 3));
        all.extend([0, call.entries - 1, call.entries + 1].map(|entries| Call { entries, row: 1, ..call }));
        all.extend([0, 2, 16, most].map(|unit| Call { unit, ..call }));
        all.extend([1, call.height, most - 3, most].map(|row| Call { row, ..call }));
        all.extend([2, call.width, most - 3, most].map(|col| Call { col, ..call }));
    }
    all
}

/// A call that is served, and of those that are not one in eight.
fn few_refused(call: Call, random: &mut Random) -> String {
    if call.answer().0 != 0 && random.below(8) != 0 {
        return String::new();
    }
    call.lines()
}

pub fn write() {
    let mut random = Random::new(19);
    let comment = |text: &str| comment_of(text, WORDS);
    let mut list = comment("The Rust's answers to a fixed list of calls; number 1, 2, 4, 5 or 6 where document 01 refuses.");
    list += &comment("Made by `tests/differential/run list`; replayed by this crate's program.");
    list += &comment(
        "kind, depth, format, width, height, CTU, unit, row, column, side, current row and column, seed, largest, length, \
         which row, entry; number, corner, 32 entries",
    );

    list += &comment("1: substitution; the corner is there where the CTU is 1, the entries that width and height name are there");
    for n in [4, 8, 16, 32] {
        // no entry, one of either row alone, among them entry 2n; then some by chance
        for (width, height, corner, odds) in [
            (99, 99, 0, 0),
            (99, 99, 1, 0),
            (2 * n, 99, 0, 0),
            (99, 2 * n, 0, 0),
            (99, 2 * n, 1, 0),
            (0, 99, 0, 0),
            (99, 0, 0, 0),
            (2 * n - 1, 2 * n - 1, 0, 0),
            (99, 99, 0, 2),
            (99, 99, 1, 8),
            (99, 99, 0, 15),
        ] {
            let current = (random.below(65537) as u32, random.below(65537) as u32);
            let (bits, top, seed) = (random.pick(&[8, 10, 12]), random.pick(&TOPS), random.below(65537) as u32);
            list +=
                &Call { kind: 1, bits, ctu: corner, width, height, unit: odds, n, current, seed, top, ..Call::default() }.lines();
        }
    }
    for call in with_faults(Call { kind: 1, bits: 8, ctu: 1, unit: 8, n: 4, top: 65535, ..Call::default() }) {
        list += &call.lines();
    }

    list += &comment("2: the luma gather");
    let sides = [(8, 8), (16, 24), (40, 24), (64, 40), (72, 40)];
    for _ in 0..160 {
        let (width, height) = random.pick(&sides);
        let n: u32 = random.pick(&[4, 8, 8, 16, 32]);
        let at = |side: u32, random: &mut Random| random.below(side.div_ceil(n) as u64) as u32 * n;
        let (row, col) = (at(height, &mut random), at(width, &mut random));
        let (ctu, unit) = (random.pick(&[16, 32, 64]), random.pick(&[4, 4, 8]));
        let (bits, top, seed) = (random.pick(&[8, 10, 12]), random.pick(&TOPS), random.below(65537) as u32);
        let current = (0, 0);
        let entries = width * height;
        let call = Call { kind: 2, bits, format: 0, ctu, width, height, unit, row, col, n, current, seed, top, entries };
        list += &few_refused(call, &mut random);
    }
    let base = Call { kind: 2, bits: 8, ctu: 32, width: 40, height: 24, unit: 4, row: 8, col: 16, n: 8, ..Call::default() };
    for call in with_faults(Call { seed: 7, top: 65535, entries: 960, ..base }) {
        list += &call.lines();
    }

    list += &comment("3: the chroma pair gather; where the CTU is not 64 the answers are the standard's, not the Rust's");
    for _ in 0..160 {
        let (width, height) = random.pick(&sides);
        let (format, w, h) = random.pick(&[(1, 2, 2), (2, 2, 1), (3, 1, 1)]);
        let n: u32 = random.pick(&[4, 4, 8, 8, 16, 32]);
        let at = |side: u32, random: &mut Random| random.below(side.div_ceil(n) as u64) as u32 * n;
        let (row, col) = (at(height / h, &mut random), at(width / w, &mut random));
        let any = (random.below(height as u64) as u32, random.below(width as u64) as u32);
        let current = random.pick(&[(row * h, col * w), (row * h, col * w), (row * h + 1, col * w + 1), any]);
        let (bits, top, seed) = (random.pick(&[8, 10, 12]), random.pick(&TOPS), random.below(65537) as u32);
        let (unit, entries) = (random.pick(&[4, 8]), width / w * (height / h));
        let ctu = random.pick(&[16, 32, 64, 64]);
        let call = Call { kind: 3, bits, format, ctu, width, height, unit, row, col, n, current, seed, top, entries };
        list += &few_refused(call, &mut random);
    }
    // the own cell in 4:4:4, the lower block of 4:2:2 with either current place, and order in CTUs of 16, 32 and 64
    let base = Call { kind: 3, bits: 8, ctu: 64, unit: 8, seed: 5, top: 65535, ..Call::default() };
    list += &Call { format: 3, width: 8, height: 8, col: 4, n: 4, current: (0, 4), entries: 64, ..base }.lines();
    for current in [(0, 0), (8, 0)] {
        list += &Call { format: 2, width: 16, height: 16, row: 8, n: 8, current, entries: 128, ..base }.lines();
    }
    let base = Call { format: 1, width: 40, height: 24, row: 4, col: 16, n: 4, current: (8, 32), entries: 240, ..base };
    for ctu in [16, 32, 64] {
        list += &Call { ctu, ..base }.lines();
    }
    let wide =
        Call { format: 1, ctu: 32, width: 72, height: 40, row: 12, col: 32, n: 4, current: (24, 64), entries: 720, ..base };
    list += &wide.lines();
    for call in with_faults(base) {
        list += &call.lines();
    }
    for current in [(24, 0), (0, 40), (u32::MAX, 0), (0, u32::MAX), (23, 39)] {
        list += &Call { current, ..base }.lines();
    }
    let lines = list.lines().filter(|l| !l.starts_with('#')).count();
    let folder = concat!(env!("CARGO_MANIFEST_DIR"), "/../../crates/replay_refs");
    std::fs::write(format!("{folder}/stdin"), list).expect("the list is written");
    std::fs::write(format!("{folder}/stdout"), format!("refs: {lines} calls, 0 differ\n")).expect("the list is written");
}
