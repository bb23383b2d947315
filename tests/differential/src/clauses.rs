//! Planar, DC and angular prediction from the wording of H.265 8.4.4.2.4 to 8.4.4.2.6, sample by sample, written apart from the Rust
//! and from the proved code. An entry that the standard does not name is never looked at: rows of 2n entries are enough.

/// The neighbouring samples p[x][y] of a block of nTbS samples a side.
pub struct Neighbours<'a> {
    pub corner: u16,
    pub above: &'a [u16],
    pub left: &'a [u16],
    pub n: i32,
}

impl Neighbours<'_> {
    /// p[x][y]: x = -1 with y from -1 to 2n - 1, or y = -1 with x from 0 to 2n - 1.
    fn p(&self, x: i32, y: i32) -> i32 {
        let entry = |row: &[u16], i: i32| {
            assert!((0..2 * self.n).contains(&i), "the standard has no such neighbour");
            row[i as usize] as i32
        };
        match (x, y) {
            (-1, -1) => self.corner as i32,
            (-1, y) => entry(self.left, y),
            (x, -1) => entry(self.above, x),
            _ => panic!("not a neighbour"),
        }
    }

    fn log2(&self) -> u32 {
        self.n.ilog2()
    }

    /// 8.4.4.2.4.
    fn planar(&self, x: i32, y: i32) -> i32 {
        let n = self.n;
        let across = (n - 1 - x) * self.p(-1, y) + (x + 1) * self.p(n, -1);
        let down = (n - 1 - y) * self.p(x, -1) + (y + 1) * self.p(-1, n);
        (across + down + n) >> (self.log2() + 1)
    }

    /// 8.4.4.2.5; `filter` where cIdx is 0.
    fn dc(&self, x: i32, y: i32, filter: bool) -> i32 {
        let sum: i32 = (0..self.n).map(|i| self.p(i, -1) + self.p(-1, i)).sum();
        let dc = (sum + self.n) >> (self.log2() + 1);
        match (filter && self.n < 32, x, y) {
            (true, 0, 0) => (self.p(-1, 0) + 2 * dc + self.p(0, -1) + 2) >> 2,
            (true, x, 0) => (self.p(x, -1) + 3 * dc + 2) >> 2,
            (true, 0, y) => (self.p(-1, y) + 3 * dc + 2) >> 2,
            _ => dc,
        }
    }

    /// 8.4.4.2.6; `filter` where cIdx is 0. A mode below 18 is one from 18 on with x and y exchanged throughout.
    fn angular(&self, x: i32, y: i32, mode: u8, filter: bool, bits: u32) -> i32 {
        let (n, vertical) = (self.n, mode >= 18);
        let p = |x, y| if vertical { self.p(x, y) } else { self.p(y, x) };
        let (x, y) = if vertical { (x, y) } else { (y, x) };
        let angle = ANGLES[mode as usize - 2];
        // ref[x]: p[-1 + x][-1] from 0 on; below 0 the projection, where there is one
        let reference = |i: i32| {
            if i >= 0 {
                return p(-1 + i, -1);
            }
            assert!((n * angle) >> 5 < -1 && i >= (n * angle) >> 5, "the standard has no such reference");
            p(-1, -1 + ((i * INVERSES[mode as usize - 11] + 128) >> 8))
        };
        if angle == 0 && filter && n < 32 && x == 0 {
            return (p(0, -1) + ((p(-1, y) - p(-1, -1)) >> 1)).clamp(0, (1 << bits) - 1);
        }
        let (index, fraction) = (((y + 1) * angle) >> 5, ((y + 1) * angle) & 31);
        if fraction == 0 {
            return reference(x + index + 1);
        }
        ((32 - fraction) * reference(x + index + 1) + fraction * reference(x + index + 2) + 16) >> 5
    }

    /// The block of a mode, in rows.
    pub fn block(&self, mode: u8, filter: bool, bits: u32) -> Vec<u16> {
        let sample = |x, y| match mode {
            0 => self.planar(x, y),
            1 => self.dc(x, y, filter),
            _ => self.angular(x, y, mode, filter, bits),
        };
        (0..self.n).flat_map(|y| (0..self.n).map(move |x| (x, y))).map(|(x, y)| sample(x, y) as u16).collect()
    }
}

/// Table 8-4: intraPredAngle of modes 2 to 34.
const ANGLES: [i32; 33] = [
    32, 26, 21, 17, 13, 9, 5, 2, 0, -2, -5, -9, -13, -17, -21, -26, -32, -26, -21, -17, -13, -9, -5, -2, 0, 2, 5, 9, 13, 17, 21,
    26, 32,
];

/// Table 8-5: invAngle of modes 11 to 25.
const INVERSES: [i32; 15] = [-4096, -1638, -910, -630, -482, -390, -315, -256, -315, -390, -482, -630, -910, -1638, -4096];
