//! The picture checksum beside a plain loop over the same plane, written from Annex D. The door checks every sample first, and its time has
//! these checks in it; the loop checks nothing.
use crate::entries::salvrunde_probe_picture_checksum;
use crate::inputs::sample;
use crate::race::race;
use crate::random::Random;
use crate::table::Table;
use std::hint::black_box;

struct Plane {
    bits: u32,
    side: u32,
    samples: Vec<u16>,
}

fn plain(bits: u32, width: u32, plane: &[u16]) -> u32 {
    let mut sum = 0u32;
    for (y, row) in (0..).zip(plane.chunks_exact(width as usize)) {
        for (x, &v) in (0..).zip(row) {
            let mask: u32 = (x & 0xff) ^ (y & 0xff) ^ (x >> 8) ^ (y >> 8);
            sum = sum.wrapping_add((v as u32 & 0xff) ^ mask);
            if bits > 8 {
                sum = sum.wrapping_add((v as u32 >> 8) ^ mask);
            }
        }
    }
    sum
}

fn proved(p: &Plane) -> (u32, u32) {
    // the length is that of the slice
    let a =
        unsafe { salvrunde_probe_picture_checksum(p.bits, p.side, p.side, 0, p.side, 0, p.samples.as_ptr(), p.samples.len()) };
    (a.no, a.value)
}

pub fn time(table: &mut Table) {
    let loops: fn(u32, u32, &[u16]) -> u32 = black_box(plain);
    let mut random = Random::new(21);
    for bits in [8, 10, 12] {
        for side in [16, 64, 528, 4096] {
            let count = if side < 100 { 16 } else { 1 };
            let one = |random: &mut Random| (0..side * side).map(|_| sample(random, bits)).collect();
            let planes: Vec<Plane> = (0..count).map(|_| Plane { bits, side, samples: one(&mut random) }).collect();
            for p in &planes {
                assert_eq!(proved(p), (0, loops(bits, side, &p.samples)));
            }
            let times = race(
                &planes,
                |p| {
                    black_box(loops(p.bits, p.side, &p.samples));
                },
                |p| {
                    black_box(proved(p));
                },
            );
            table.line(&format!("checksum at {bits} bits, beside a plain loop"), side as usize, times, 1.0);
        }
    }
}
