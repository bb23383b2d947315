//! The picture checksum against Annex D, worked out byte by byte as its text has it, against an encoder's messages, and document 02's
//! figures.
use crate::entries;
use crate::host::Arg::{Number, Read};
use crate::message;
use crate::random::Random;
use crate::samples::{BITS, DEPTHS, KINDS, bytes, largest, samples};
use crate::table;
use crate::tally::{Tally, Want};

const SIDES: [u32; 8] = [4, 8, 12, 36, 124, 128, 132, 260];
/// Sums so far.
const SUMS: [u32; 5] = [0, 1, 0x8000_0000, u32::MAX - 1, u32::MAX];

/// A plane of a depth, and its sides.
pub struct Plane {
    pub bits: u32,
    pub width: u32,
    pub height: u32,
    pub samples: Vec<u16>,
}

impl Plane {
    /// Of samples by column and row.
    pub fn of(bits: u32, width: u32, height: u32, sample: impl Fn(u32, u32) -> u32) -> Plane {
        let rows = (0..height).flat_map(|y| (0..width).map(move |x| (x, y)));
        Plane { bits, width, height, samples: rows.map(|(x, y)| sample(x, y) as u16).collect() }
    }

    /// Annex D's picture checksum, from a sum on, over the rows from first up to end.
    pub fn annex_d(&self, first: u32, end: u32, sum: u32) -> u32 {
        let mut sum = sum as u64;
        for y in first..end {
            for x in 0..self.width {
                let mask = (x & 0xff) ^ (y & 0xff) ^ (x >> 8) ^ (y >> 8);
                let v = self.samples[(y * self.width + x) as usize] as u32;
                sum = (sum + ((v & 0xff) ^ mask) as u64) & 0xffff_ffff;
                if self.bits > 8 {
                    sum = (sum + ((v >> 8) ^ mask) as u64) & 0xffff_ffff;
                }
            }
        }
        sum as u32
    }

    fn number(&self, first: u32, end: u32) -> u32 {
        let side = |s: u32| (4..=4096).contains(&s) && s.is_multiple_of(4);
        table::first(&[
            (1, table::depth(self.bits)),
            (4, side(self.width) && side(self.height)),
            (5, table::plane(self.width as u64, self.height as u64, self.samples.len())),
            (7, !table::depth(self.bits) || self.samples.iter().all(|&v| v <= largest(self.bits))),
            (11, first <= end && end <= self.height),
        ])
    }

    /// Asks the door and the entry on bytes; gives the sum.
    fn ask(&self, t: &mut Tally, first: u32, end: u32, sum: u32) -> u32 {
        let no = self.number(first, end);
        let total = if no == 0 { self.annex_d(first, end, sum) } else { 0 };
        let plane = bytes(&self.samples);
        let numbers = [self.bits, self.width, self.height, first, end, sum];
        let mut args: Vec<_> = numbers.map(|v| Number(v as u64)).to_vec();
        args.extend([Read(&plane), Number(self.samples.len() as u64)]);
        t.call("salvrunde_probe_picture_checksum", &args, Want::fields(&[no, total]));
        entries::checksum(t, &numbers, &plane, (no, total));
        total
    }

    fn whole(&self, t: &mut Tally) -> u32 {
        self.ask(t, 0, self.height, 0)
    }
}

/// The picture of which an encoder's messages are kept, a component at a time.
pub fn pattern(bits: u32, width: u32, height: u32, component: u32) -> Plane {
    Plane::of(bits, width, height, |x, y| (7 * x + 13 * y + x * y + 29 * component) & largest(bits) as u32)
}

/// Ranges in the plane: all rows, none at either end, and any.
fn ranges(height: u32, random: &mut Random) -> Vec<[u32; 3]> {
    let mut all = vec![[0, 0, height], [0, height, height], [0, 0, 0], [height; 3]];
    for _ in 0..4 {
        let mut three = [0; 3].map(|_| random.below(height as u64 + 1) as u32);
        three.sort();
        all.push(three);
    }
    all
}

pub fn checksum(t: &mut Tally) {
    let mut random = Random::new(21);
    for bits in DEPTHS {
        for width in SIDES {
            for kind in 0..KINDS {
                let height = random.pick(&[4, 8, 20, 260]);
                let mut all = samples(kind, (width * height) as usize, &mut random);
                all.iter_mut().for_each(|v| *v &= largest(bits));
                let plane = Plane { bits, width, height, samples: all };
                for [a, b, c] in ranges(height, &mut random) {
                    let sum = random.pick(&SUMS);
                    let upper = plane.ask(t, a, b, sum);
                    assert_eq!(plane.ask(t, b, c, upper), plane.ask(t, a, c, sum));
                }
            }
        }
        // the longest sides: the mask's high bytes
        for (width, height) in [(4096, 4), (4, 4096)] {
            pattern(bits, width, height, 1).whole(t);
        }
    }
    figures(t);
    faults(t, &mut random);
}

/// Document 02's figures.
fn figures(t: &mut Tally) {
    let level = |bits, v| Plane::of(bits, 4, 4, |_, _| v);
    for (plane, sum) in
        [(level(8, 0), 24), (level(10, 0), 48), (level(8, 255), 4056), (level(10, 1023), 4080), (level(12, 4095), 4272)]
    {
        assert_eq!(plane.whole(t), sum);
    }
    let steps = Plane::of(8, 4, 4, |x, y| 4 * y + x);
    for (first, end, sum) in [(0, 4, 120), (0, 2, 20), (2, 4, 100), (4, 4, 0)] {
        assert_eq!(steps.ask(t, first, end, 0), sum);
    }
    assert_eq!(level(8, 0).ask(t, 0, 4, u32::MAX), 23);
    for (bits, sum) in [(8, 35409920), (10, 70923704), (12, 70930832)] {
        assert_eq!(pattern(bits, 528, 528, 0).whole(t), sum);
    }
}

/// Every fault, alone and with every other; the limits of each.
fn faults(t: &mut Tally, random: &mut Random) {
    let sides: [(u32, u32); 11] =
        [(4, 4), (8, 12), (0, 4), (4, 0), (2, 4), (4, 6), (9, 4), (4100, 4), (4, 4100), (1 << 31, 1 << 31), (u32::MAX, 4)];
    for bits in BITS {
        for (width, height) in sides {
            let area = (width as u64 * height as u64).min(96) as usize;
            for length in [area, area + 1, area.saturating_sub(1), 0] {
                for bad in [None, Some(256), Some(1024), Some(4096), Some(u16::MAX)] {
                    for (first, end) in
                        [(0, height), (height, height), (0, height.wrapping_add(1)), (2, 1), (5, 5), (u32::MAX, 0)]
                    {
                        let mut all: Vec<u16> = (0..length).map(|_| random.below(256) as u16).collect();
                        if let (Some(v), true) = (bad, length > 0) {
                            all[random.below(length as u64) as usize] = v;
                        }
                        Plane { bits, width, height, samples: all }.ask(t, first, end, random.pick(&SUMS));
                    }
                }
            }
        }
    }
}

/// The sums that an encoder wrote for pictures that it was given, and where it is installed, those that it writes now.
pub fn messages(t: &mut Tally) {
    let mut lines = Vec::new();
    for line in include_str!("../checksums.txt").lines().filter(|l| !l.starts_with('#')) {
        let kept: Vec<u32> = line.split_whitespace().map(|w| w.parse().expect("a number")).collect();
        let &[bits, format, width, height, ..] = &kept[..] else { panic!("{line}") };
        let chroma = (width / [1, 2, 2, 1][format as usize], height / [1, 2, 1, 1][format as usize]);
        let sides = [(width, height), chroma, chroma];
        let count = if format == 0 { 1 } else { 3 };
        let planes: Vec<Plane> = (0..count).map(|c| pattern(bits, sides[c].0, sides[c].1, c as u32)).collect();
        let sums: Vec<u32> = planes.iter().map(|p| p.whole(t)).collect();
        assert_eq!(sums, kept[4..], "the kept sums of {line}");
        lines.push((bits, format, planes, sums));
    }
    assert_eq!(lines.len(), 24);
    match message::encoder() {
        None => println!("messages: no x265 here: 24 pictures compared with the sums that are kept"),
        Some(name) => {
            let decoder = message::decoder();
            for (bits, format, planes, sums) in &lines {
                assert_eq!(
                    &message::written(*bits, *format, planes, decoder.filter(|_| *bits == 8)),
                    sums,
                    "{name} at {bits} bits, format {format}"
                );
            }
            println!("messages: {name} wrote the sums of 24 pictures anew, the same as those that are kept");
            match decoder {
                None => println!("messages: no dec265 here"),
                Some(decoder) => println!("messages: {decoder} found those of 8 bits in what it decoded, and no other"),
            }
        }
    }
}
