//! Substitution and the two gathers against the Rust's substitute_refs, get_reference_samples and
//! get_reference_samples_chroma_pair. Outside document 01's domain the Rust is not asked: what is wanted there is the
//! table's number and zeros. Nor is it asked at the chroma gather of a picture whose CTU is not 64, which it does not know of:
//! there the standard decides, and document 01's rule over that CTU.
use crate::entries;
use crate::fmt::format_of;
use crate::host::Arg::{Lent, Number, Read};
use crate::oracle::fmt::BitDepth;
use crate::oracle::intra::{self, reach};
use crate::random::Random;
use crate::samples::{BITS, DEPTHS, KINDS, SIDES, SIZES, any, bytes, samples};
use crate::standard;
use crate::table::{self, ChromaPlace, Picture};
use crate::tally::{Tally, Want};

/// The corner, the row above and the left column.
pub type Rows = (u16, [u16; 65], [u16; 65]);

const ZEROS: Rows = (0, [0; 65], [0; 65]);
pub const CTUS: [u32; 3] = [16, 32, 64];
pub const UNITS: [u32; 2] = [4, 8];
/// Pictures whose every place is tried: smaller than a CTU, and of sides that are no multiple of one.
const PICTURES: [(u32, u32); 6] = [(8, 8), (16, 24), (40, 24), (64, 40), (72, 40), (24, 72)];

pub fn neutral(bits: u32) -> u16 {
    BitDepth::from_bits(bits as u8).neutral()
}

fn answer_bytes(no: u32, planes: &[Rows]) -> Vec<u8> {
    let mut all = no.to_le_bytes().to_vec();
    for (corner, above, left) in planes {
        all.extend(corner.to_le_bytes());
        all.extend(bytes(above));
        all.extend(bytes(left));
    }
    all
}

fn flag_bytes(flags: &[bool; 65]) -> Vec<u8> {
    flags.iter().map(|&f| f as u8).collect()
}

/// Rows, and which of their entries are there.
#[derive(Clone)]
pub struct Marked {
    pub rows: Rows,
    pub corner: bool,
    pub above: [bool; 65],
    pub left: [bool; 65],
}

impl Marked {
    /// Entries of any kind; every flag past 2n is any too.
    pub fn any(random: &mut Random) -> Marked {
        let [above, left] = [0; 2].map(|_| <[u16; 65]>::try_from(any(65, random)).unwrap());
        let word = random.word() as u16;
        let rows = (random.pick(&[0, word]), above, left);
        let [above, left] = [0; 2].map(|_| [0; 65].map(|_| random.below(2) == 0));
        Marked { rows, corner: random.below(2) == 0, above, left }
    }

    /// Sets the flag at a place of the line: left[2n] down to left[0], the corner, above[0] to above[2n].
    pub fn mark(&mut self, n: usize, place: usize, flag: bool) {
        let e = 2 * n;
        if place <= e {
            self.left[e - place] = flag;
        } else if place == e + 1 {
            self.corner = flag;
        } else {
            self.above[place - e - 2] = flag;
        }
    }

    /// Sets the sample at a place of the line.
    fn put(&mut self, n: usize, place: usize, sample: u16) {
        let e = 2 * n;
        if place <= e {
            self.rows.2[e - place] = sample;
        } else if place == e + 1 {
            self.rows.0 = sample;
        } else {
            self.rows.1[place - e - 2] = sample;
        }
    }

    pub fn answer(&self, n: usize, bits: u32) -> (u32, Rows) {
        match table::first(&[(1, table::depth(bits)), (2, table::size(n))]) {
            0 => {
                let (corner, above, left) = self.rows;
                (0, reach::substitute_refs(corner, above, left, self.corner, &self.above, &self.left, 2 * n, neutral(bits)))
            }
            no => (no, ZEROS),
        }
    }
}

/// Places of the line.
pub fn places(n: usize) -> usize {
    4 * n + 3
}

pub fn ask_substitute(t: &mut Tally, m: &Marked, n: usize, bits: u32) {
    let (no, rows) = m.answer(n, bits);
    let (above, left) = (bytes(&m.rows.1), bytes(&m.rows.2));
    let (has_above, has_left) = (flag_bytes(&m.above), flag_bytes(&m.left));
    let args = [
        Lent(&[0xa5; 266]),
        Number(m.rows.0 as u64),
        Read(&above),
        Read(&left),
        Number(m.corner as u64),
        Read(&has_above),
        Read(&has_left),
        Number(n as u64),
        Number(bits as u64),
    ];
    t.call("salvrunde_probe_substitute_refs", &args, Want::word(0, 0).then(answer_bytes(no, &[rows])));
}

/// Places that are there with their samples, no other; what stands elsewhere on the line and past it is any, past it flags too. The
/// rows that are wanted are `line` on the line, and past it what stood there before.
fn figure(t: &mut Tally, random: &mut Random, n: usize, there: &[(usize, u16)], line: impl Fn(usize) -> u16) {
    let mut m = Marked::any(random);
    (0..places(n)).for_each(|place| m.mark(n, place, false));
    for &(place, sample) in there {
        m.mark(n, place, true);
        m.put(n, place, sample);
    }
    let mut wanted = m.clone();
    (0..places(n)).for_each(|place| wanted.put(n, place, line(place)));
    assert_eq!(m.answer(n, 8), (0, wanted.rows), "the Rust at side {n}");
    ask_substitute(t, &m, n, 8);
}

/// The figures for rows that are filled where they stand: what is there lies behind all that is filled first.
fn figures(t: &mut Tally, random: &mut Random) {
    let above = |n: usize, i: usize| 2 * n + 2 + i;
    figure(t, random, 4, &[(above(4, 3), 9)], |_| 9);
    for n in SIZES {
        let (left, last) = (2 * n, above(n, 2 * n));
        for sample in [7, 0] {
            figure(t, random, n, &[(last, sample)], |_| sample);
            figure(t, random, n, &[(left, 5), (last, sample)], |place| if place == last { sample } else { 5 });
            figure(t, random, n, &[(left, 0), (last, sample)], |place| if place == last { sample } else { 0 });
        }
    }
}

/// Every pattern of flags at side 4; the Rust takes them all. The samples differ from place to place, one in four is 0.
fn every_pattern(t: &mut Tally, random: &mut Random) {
    let n = 4;
    for pattern in 0..1u32 << places(n) {
        let mut m = Marked::any(random);
        for place in 0..places(n) {
            m.mark(n, place, pattern >> place & 1 == 1);
            m.put(n, place, if random.below(4) == 0 { 0 } else { 100 + place as u16 });
        }
        ask_substitute(t, &m, n, random.pick(&DEPTHS));
    }
}

pub fn substitution(t: &mut Tally) {
    let mut random = Random::new(11);
    for n in SIZES {
        let last = places(n) - 1;
        // every pattern of nine places in a row: at the line's start, about the corner, at its end; the others all missing,
        // all there, or any
        for start in [0, 2 * n - 3, last - 8] {
            for pattern in 0..512u32 {
                for others in [Some(false), Some(true), None] {
                    let mut m = Marked::any(&mut random);
                    for place in 0..=last {
                        if let Some(flag) = others {
                            m.mark(n, place, flag);
                        }
                    }
                    for k in 0..9 {
                        m.mark(n, start + k, pattern >> k & 1 == 1);
                    }
                    ask_substitute(t, &m, n, random.pick(&DEPTHS));
                }
            }
        }
        for bits in DEPTHS {
            // one place there and no other, one missing and no other; among them those that no gather shows
            for one in 0..=last {
                for flag in [false, true] {
                    let mut m = Marked::any(&mut random);
                    (0..=last).for_each(|place| m.mark(n, place, (place == one) == flag));
                    ask_substitute(t, &m, n, bits);
                }
            }
            // none, with any flags past 2n
            for _ in 0..40 {
                let mut m = Marked::any(&mut random);
                (0..=last).for_each(|place| m.mark(n, place, false));
                ask_substitute(t, &m, n, bits);
            }
            // flags there one time in two, in four, in sixteen, and fifteen times in sixteen
            for odds in [8, 4, 1, 15] {
                for _ in 0..500 {
                    let mut m = Marked::any(&mut random);
                    (0..=last).for_each(|place| m.mark(n, place, random.below(16) < odds));
                    ask_substitute(t, &m, n, bits);
                }
            }
        }
    }
    for n in SIDES {
        for bits in BITS {
            ask_substitute(t, &Marked::any(&mut random), n, bits);
        }
    }
    figures(t, &mut random);
    every_pattern(t, &mut random);
}

/// What the luma gather is given.
#[derive(Clone)]
pub struct Luma {
    pub bits: u32,
    pub picture: Picture,
    pub row: u32,
    pub col: u32,
    pub n: usize,
    pub plane: Vec<u16>,
}

impl Luma {
    pub fn number(&self) -> u32 {
        let p = self.picture;
        table::first(&[
            (1, table::depth(self.bits)),
            (2, table::size(self.n)),
            (4, p.sides_and_ctu()),
            (5, table::plane(p.width as u64, p.height as u64, self.plane.len())),
            (6, table::size(self.n) && table::luma_place(p, self.row, self.col, self.n)),
        ])
    }

    pub fn answer(&self) -> (u32, Rows) {
        let p = self.picture;
        match self.number() {
            0 => {
                let geo = intra::LumaRefGeometry {
                    stride: p.width as usize,
                    block_row: self.row as usize,
                    block_col: self.col as usize,
                    height: p.height as usize,
                    n: self.n,
                    ctu: p.ctu as usize,
                    ctus_x: p.ctus_x(),
                    min_pu: p.unit as usize,
                    neutral: neutral(self.bits),
                };
                (0, intra::get_reference_samples(&self.plane, geo))
            }
            no => (no, ZEROS),
        }
    }
}

pub fn ask_luma(t: &mut Tally, call: &Luma) {
    let (no, rows) = call.answer();
    let plane = bytes(&call.plane);
    let p = call.picture;
    let numbers = [call.bits, p.width, p.height, p.ctu, p.unit, call.row, call.col];
    let mut args = vec![Lent(&[0xa5; 266]), Read(&plane), Number(call.plane.len() as u64)];
    args.extend(numbers.map(|v| Number(v as u64)));
    args.push(Number(call.n as u64));
    t.call("salvrunde_probe_get_reference_samples", &args, Want::word(0, 0).then(answer_bytes(no, &[rows])));
    entries::luma(t, call);
}

/// Pictures of these sides at every CTU and unit.
pub fn every_picture(sides: &[(u32, u32)]) -> Vec<Picture> {
    let with = |(width, height)| CTUS.into_iter().flat_map(move |ctu| UNITS.map(|unit| Picture::new(width, height, ctu, unit)));
    sides.iter().copied().flat_map(with).collect()
}

/// Every place of every size, CTU and unit in the pictures; a size, CTU and unit that do not go together are refused.
pub fn every_luma(pictures: &[(u32, u32)], random: &mut Random, mut each: impl FnMut(&Luma, &mut Random)) {
    for picture in every_picture(pictures) {
        for n in SIZES {
            for row in (0..picture.height).step_by(n) {
                for col in (0..picture.width).step_by(n) {
                    let plane = any((picture.width * picture.height) as usize, random);
                    each(&Luma { bits: random.pick(&DEPTHS), picture, row, col, n, plane }, random);
                }
            }
        }
    }
}

/// A multiple of n below the side.
fn aligned(side: u32, n: usize, random: &mut Random) -> u32 {
    random.below((side as u64).div_ceil(n as u64)) as u32 * n as u32
}

fn any_side(most: u64, random: &mut Random) -> u32 {
    8 + 8 * random.below(most / 8) as u32
}

/// Places of blocks of 32 that have neighbours above and left, all of them in a plane, over and over until there are a thousand.
fn inner_32(width: u32, height: u32) -> impl Iterator<Item = (u32, u32)> {
    let places: Vec<_> = (1..height / 32).flat_map(|r| (1..width / 32).map(move |c| (32 * r, 32 * c))).collect();
    let rounds = 1000usize.div_ceil(places.len());
    (0..rounds).flat_map(move |_| places.clone())
}

type Fault<C> = fn(&mut C);

const LUMA_FAULTS: &[Fault<Luma>] = &[
    |_| (),
    |c| c.bits = 9,
    |c| c.bits = 264,
    |c| c.bits = u32::MAX,
    |c| c.n = 0,
    |c| c.n = 5,
    |c| c.n = 64,
    |c| c.n = (1 << 32) + 8,
    |c| c.n = usize::MAX,
    |c| c.n = 4,
    |c| c.n = 32,
    |c| c.picture.width = 0,
    |c| c.picture.width = 12,
    |c| c.picture.width = 4104,
    |c| c.picture.width = u32::MAX,
    |c| c.picture.height = 0,
    |c| c.picture.height = 44,
    |c| c.picture.height = 4104,
    |c| c.picture.height = u32::MAX - 7,
    |c| c.picture.ctu = 0,
    |c| c.picture.ctu = 8,
    |c| c.picture.ctu = 24,
    |c| c.picture.ctu = 128,
    |c| c.picture.ctu = 16,
    |c| c.plane.push(7),
    |c| c.plane.truncate(c.plane.len().saturating_sub(1)),
    |c| c.plane.clear(),
    |c| c.plane.resize((c.picture.width as u64 * c.picture.height as u64).min(9000) as usize, 1),
    |c| c.picture.unit = 0,
    |c| c.picture.unit = 2,
    |c| c.picture.unit = 8,
    |c| c.picture.unit = 16,
    |c| c.picture.unit = u32::MAX,
    |c| c.row += 1,
    |c| c.row += 4,
    |c| c.row = 40,
    |c| c.row = u32::MAX - 31,
    |c| c.row = u32::MAX,
    |c| c.col += 2,
    |c| c.col += 4,
    |c| c.col = 64,
    |c| c.col = 1 << 31,
    |c| c.col = u32::MAX - 3,
];

pub fn luma(t: &mut Tally) {
    let mut random = Random::new(12);
    every_luma(&PICTURES, &mut random, |call, _| ask_luma(t, call));
    // planes that are all 0, all but one, or mostly: 0 is a sample as any other
    for kind in [0, 2, 7] {
        for _ in 0..1500 {
            let (width, height) = random.pick(&PICTURES);
            let n = random.pick(&SIZES);
            let picture = Picture::new(width, height, random.pick(&CTUS), random.pick(&UNITS));
            let (row, col) = (aligned(height, n, &mut random), aligned(width, n, &mut random));
            let plane = samples(kind, (width * height) as usize, &mut random);
            ask_luma(t, &Luma { bits: random.pick(&DEPTHS), picture, row, col, n, plane });
        }
    }
    // larger pictures, and the largest
    let mut sides: Vec<(u32, u32)> = (0..2000).map(|_| (any_side(200, &mut random), any_side(200, &mut random))).collect();
    sides.extend([(4096, 8), (8, 4096), (4096, 16), (24, 4096)].repeat(20));
    for (width, height) in sides {
        let n = random.pick(&SIZES);
        let picture = Picture::new(width, height, random.pick(&CTUS), random.pick(&UNITS));
        let (row, col) = (aligned(height, n, &mut random), aligned(width, n, &mut random));
        let plane = any((width * height) as usize, &mut random);
        ask_luma(t, &Luma { bits: random.pick(&DEPTHS), picture, row, col, n, plane });
    }
    // blocks of 32 among neighbours, at every CTU that holds one, in a picture of several CTUs
    for ctu in [32, 64] {
        for (row, col) in inner_32(200, 168) {
            let picture = Picture::new(200, 168, ctu, random.pick(&UNITS));
            let call = Luma { bits: random.pick(&DEPTHS), picture, row, col, n: 32, plane: any(200 * 168, &mut random) };
            assert_eq!(call.number(), 0);
            ask_luma(t, &call);
        }
    }
    let plane = samples(8, 1 << 24, &mut random);
    ask_luma(t, &Luma { bits: 12, picture: Picture::new(4096, 4096, 64, 8), row: 4064, col: 4064, n: 32, plane });
    // every two faults in either order
    let base = Luma { bits: 8, picture: Picture::new(64, 40, 32, 4), row: 8, col: 16, n: 8, plane: any(2560, &mut random) };
    for one in LUMA_FAULTS {
        for other in LUMA_FAULTS {
            let mut call = base.clone();
            one(&mut call);
            other(&mut call);
            ask_luma(t, &call);
        }
    }
}

/// What the chroma pair gather is given.
#[derive(Clone)]
pub struct Chroma {
    pub bits: u32,
    pub format: u32,
    pub picture: Picture,
    pub row: u32,
    pub col: u32,
    pub n: usize,
    pub current: (u32, u32),
    pub planes: [Vec<u16>; 2],
}

impl Chroma {
    /// The subsampling of width and height.
    pub fn steps(&self) -> (u32, u32) {
        format_of(self.format).map_or((1, 1), |f| (f.sub_w() as u32, f.sub_h() as u32))
    }

    /// The chroma planes' sides.
    pub fn sides(&self) -> (u64, u64) {
        let (w, h) = self.steps();
        ((self.picture.width / w) as u64, (self.picture.height / h) as u64)
    }

    /// The block's own luma place.
    pub fn own(&self) -> (u32, u32) {
        let (w, h) = self.steps();
        (self.row * h, self.col * w)
    }

    /// With planes of any kind, as long as they must be.
    pub fn filled(mut self, random: &mut Random) -> Chroma {
        let (w, h) = self.sides();
        self.planes = [0; 2].map(|_| any((w * h) as usize, random));
        self
    }

    pub fn number(&self) -> u32 {
        let (w, h) = self.sides();
        let place = ChromaPlace { row: self.row, col: self.col, n: self.n, current: self.current };
        table::first(&[
            (1, table::depth(self.bits)),
            (2, table::size(self.n)),
            (4, table::chroma_picture(self.picture, self.format)),
            (5, self.planes.iter().all(|p| table::plane(w, h, p.len()))),
            (6, table::size(self.n) && table::chroma_place(&place, self.picture, self.steps().0, (w, h))),
        ])
    }

    /// The Rust's rows, whatever the picture's CTU.
    pub fn rust(&self) -> [Rows; 2] {
        let ((w, h), (sub_w, sub_h), p) = (self.sides(), self.steps(), self.picture);
        let geo = intra::ChromaRefGeometry {
            stride: w as usize,
            block_row: self.row as usize,
            block_col: self.col as usize,
            chroma_h: h as usize,
            n: self.n,
            sub_w: sub_w as usize,
            sub_h: sub_h as usize,
            luma_w: p.width as usize,
            luma_h: p.height as usize,
            luma_ctus_x: (p.width as usize).div_ceil(64),
            min_luma_pu: p.unit as usize,
            cur_luma_row: self.current.0 as usize,
            cur_luma_col: self.current.1 as usize,
            neutral: neutral(self.bits),
        };
        let (cb, cr) = intra::get_reference_samples_chroma_pair(&self.planes[0], &self.planes[1], geo);
        [cb, cr]
    }

    pub fn answer(&self) -> (u32, [Rows; 2]) {
        match self.number() {
            0 if self.picture.ctu == 64 => (0, self.rust()),
            0 => (0, [0, 1].map(|plane| standard::chroma_rows(self, plane))),
            no => (no, [ZEROS; 2]),
        }
    }
}

pub fn ask_chroma(t: &mut Tally, call: &Chroma) {
    let (no, rows) = call.answer();
    let [cb, cr] = [0, 1].map(|k| bytes(&call.planes[k]));
    let mut args =
        vec![Lent(&[0xa5; 528]), Read(&cb), Number(call.planes[0].len() as u64), Read(&cr), Number(call.planes[1].len() as u64)];
    let p = call.picture;
    let numbers = [call.bits, call.format, p.width, p.height, p.ctu, p.unit, call.row, call.col];
    args.extend(numbers.map(|v| Number(v as u64)));
    args.extend([Number(call.n as u64), Number(call.current.0 as u64), Number(call.current.1 as u64)]);
    t.call("salvrunde_probe_get_reference_samples_chroma_pair", &args, Want::word(0, 0).then(answer_bytes(no, &rows)));
    entries::chroma(t, call);
}

const CHROMA_FAULTS: &[Fault<Chroma>] = &[
    |_| (),
    |c| c.bits = 9,
    |c| c.bits = 0,
    |c| c.bits = 266,
    |c| c.n = 0,
    |c| c.n = 6,
    |c| c.n = 64,
    |c| c.n = (1 << 32) + 4,
    |c| c.n = usize::MAX,
    |c| c.n = 32,
    |c| c.format = 0,
    |c| c.format = 2,
    |c| c.format = 3,
    |c| c.format = 4,
    |c| c.format = 257,
    |c| c.format = u32::MAX,
    |c| c.picture.width = 0,
    |c| c.picture.width = 68,
    |c| c.picture.width = 4104,
    |c| c.picture.width = u32::MAX,
    |c| c.picture.height = 0,
    |c| c.picture.height = 36,
    |c| c.picture.height = 4104,
    |c| c.picture.height = u32::MAX,
    |c| c.picture.ctu = 0,
    |c| c.picture.ctu = 8,
    |c| c.picture.ctu = 16,
    |c| c.picture.ctu = 24,
    |c| c.picture.ctu = 32,
    |c| c.picture.ctu = 128,
    |c| c.picture.ctu = u32::MAX,
    |c| c.planes[0].push(3),
    |c| c.planes[1].push(3),
    |c| c.planes[0].truncate(c.planes[0].len().saturating_sub(1)),
    |c| c.planes[1].truncate(c.planes[1].len().saturating_sub(1)),
    |c| c.planes[1].clear(),
    |c| {
        let (w, h) = c.sides();
        c.planes.iter_mut().for_each(|p| p.resize((w * h).min(9000) as usize, 1));
    },
    |c| c.picture.unit = 0,
    |c| c.picture.unit = 6,
    |c| c.picture.unit = 8,
    |c| c.picture.unit = 16,
    |c| c.picture.unit = u32::MAX,
    |c| c.row += 1,
    |c| c.row = 20,
    |c| c.row = 1 << 31,
    |c| c.row = u32::MAX - 7,
    |c| c.row = u32::MAX,
    |c| c.col += 4,
    |c| c.col = 32,
    |c| c.col = u32::MAX - 3,
    |c| c.current.0 = 39,
    |c| c.current.0 = 40,
    |c| c.current.0 = u32::MAX,
    |c| c.current.1 = 63,
    |c| c.current.1 = 64,
    |c| c.current.1 = u32::MAX,
];

pub fn chroma(t: &mut Tally) {
    let mut random = Random::new(13);
    let place = |format, picture, row, col, n, random: &mut Random| Chroma {
        bits: random.pick(&DEPTHS),
        format,
        picture,
        row,
        col,
        n,
        current: (0, 0),
        planes: [Vec::new(), Vec::new()],
    };
    // every place of every CTU, format, size and unit; the current place its own, beside it, and anywhere
    for p in every_picture(&PICTURES) {
        for format in [1, 2, 3] {
            for n in SIZES {
                let whole = place(format, p, 0, 0, n, &mut random).sides();
                for row in (0..whole.1 as u32).step_by(n) {
                    for col in (0..whole.0 as u32).step_by(n) {
                        let mut call = place(format, p, row, col, n, &mut random).filled(&mut random);
                        let (r, c) = call.own();
                        let far = (random.below(p.height as u64) as u32, random.below(p.width as u64) as u32);
                        let near = (r + random.below(9) as u32, (c + random.below(9) as u32).saturating_sub(4));
                        for current in [(r, c), (r + 1, c + 1), near, far, (p.height - 1, p.width - 1)] {
                            call.current = current;
                            ask_chroma(t, &call);
                        }
                    }
                }
            }
        }
    }
    // larger pictures and planes mostly 0
    let mut sides: Vec<(u32, u32)> = (0..1500).map(|_| (any_side(200, &mut random), any_side(200, &mut random))).collect();
    sides.extend([(4096, 8), (8, 4096), (4096, 24), (24, 4096)].repeat(10));
    for sides in sides {
        let (format, n) = (random.pick(&[1, 2, 3]), random.pick(&SIZES));
        let p = Picture::new(sides.0, sides.1, random.pick(&CTUS), random.pick(&UNITS));
        let mut call = place(format, p, 0, 0, n, &mut random);
        let whole = call.sides();
        (call.row, call.col) = (aligned(whole.1 as u32, n, &mut random), aligned(whole.0 as u32, n, &mut random));
        let mut call = call.filled(&mut random);
        if random.below(2) == 0 {
            call.planes = [0, 1].map(|k| samples(random.pick(&[0, 2, 7]) % KINDS, call.planes[k].len(), &mut random));
        }
        for current in [call.own(), (random.below(sides.1 as u64) as u32, random.below(sides.0 as u64) as u32)] {
            call.current = current;
            ask_chroma(t, &call);
        }
    }
    // blocks of 32 among neighbours, in every format and at every CTU that holds one, in a picture of several CTUs
    for (format, ctu, sides) in [(1, 64, (200, 232)), (2, 64, (200, 168)), (3, 64, (136, 168)), (3, 32, (136, 168))] {
        let whole = place(format, Picture::new(sides.0, sides.1, ctu, 4), 0, 0, 32, &mut random).sides();
        for (row, col) in inner_32(whole.0 as u32, whole.1 as u32) {
            let p = Picture::new(sides.0, sides.1, ctu, random.pick(&UNITS));
            let mut call = place(format, p, row, col, 32, &mut random).filled(&mut random);
            call.current = call.own();
            assert_eq!(call.number(), 0);
            ask_chroma(t, &call);
        }
    }
    // every two faults in either order
    for ctu in [32, 64] {
        let mut base = place(1, Picture::new(64, 40, ctu, 4), 8, 16, 8, &mut random).filled(&mut random);
        base.current = base.own();
        for one in CHROMA_FAULTS {
            for other in CHROMA_FAULTS {
                let mut call = base.clone();
                one(&mut call);
                other(&mut call);
                ask_chroma(t, &call);
            }
        }
    }
}
