//! Document 01's table of numbers as plain tests. Written from the table, not from the proved code.

/// Number 1.
pub fn depth(bits: u32) -> bool {
    [8, 10, 12].contains(&bits)
}

fn side(side: u32) -> bool {
    (8..=4096).contains(&side) && side.is_multiple_of(8)
}

/// A picture as a door is told of it: its luma sides, its CTU, its least unit.
#[derive(Clone, Copy, Debug)]
pub struct Picture {
    pub width: u32,
    pub height: u32,
    pub ctu: u32,
    pub unit: u32,
}

impl Picture {
    pub fn new(width: u32, height: u32, ctu: u32, unit: u32) -> Picture {
        Picture { width, height, ctu, unit }
    }

    /// Number 4.
    pub fn sides_and_ctu(self) -> bool {
        side(self.width) && side(self.height) && [16, 32, 64].contains(&self.ctu)
    }

    /// Number 6 at the order and availability doors.
    pub fn holds(self, row: u32, col: u32) -> bool {
        [4, 8].contains(&self.unit) && row < self.height && col < self.width
    }

    /// The number of a call at the order and availability doors.
    pub fn order_number(self, row: u32, col: u32) -> u32 {
        if !self.sides_and_ctu() {
            4
        } else if !self.holds(row, col) {
            6
        } else {
            0
        }
    }

    /// CTUs in a row: the width over the CTU, rounded up.
    pub fn ctus_x(self) -> usize {
        (self.width as usize).div_ceil(self.ctu as usize)
    }
}

/// Number 2.
pub fn size(n: usize) -> bool {
    [4, 8, 16, 32].contains(&n)
}

/// Number 3 at the smoothing rule.
pub fn mode(mode: u8) -> bool {
    mode <= 34
}

/// Number 3 at the angular door.
pub fn angular(mode: u8) -> bool {
    (2..=34).contains(&mode)
}

/// Number 5 of reference rows with so many entries, at the smoothing functions.
pub fn rows(above: usize, left: usize) -> bool {
    above >= 65 && left >= 65
}

/// The same at the predictors (document 02, Wish 11). A side that is none is refused before.
pub fn predictor_rows(n: usize, above: usize, left: usize) -> bool {
    n.checked_mul(2).is_some_and(|least| above >= least && left >= least)
}

/// Number 5 of a block buffer. A side that is none has no such number, and is refused before.
pub fn block(n: usize, entries: usize) -> bool {
    n.checked_mul(n).is_some_and(|least| entries >= least)
}

/// Number 5 of the lent scratch.
pub fn scratch(refs: usize, indices: usize, fractions: usize) -> bool {
    refs >= 193 && indices >= 32 && fractions >= 32
}

/// Number 8 of a residual.
pub fn residual(r: i32) -> bool {
    (-65535..=65535).contains(&r)
}

/// Number 14 of a residual, at replay (document 02): its size is no more than the depth's largest sample.
pub fn residual_of(bits: u32, r: i32) -> bool {
    i64::from(r).abs() < 1 << bits
}

/// The least number whose test fails, or 0: a door checks in ascending number.
pub fn first(tests: &[(u32, bool)]) -> u32 {
    tests.iter().filter(|t| !t.1).map(|t| t.0).min().unwrap_or(0)
}

/// A block's place in a plane of these sides: at a multiple of n, and wholly in it. A side that is none is refused before.
fn placed(row: u32, col: u32, n: usize, width: u64, height: u64) -> bool {
    let n = n as u64;
    let fits = |at: u32, side: u64| (at as u64).is_multiple_of(n) && (at as u64).checked_add(n).is_some_and(|end| end <= side);
    fits(row, height) && fits(col, width)
}

fn unit(unit: u32) -> bool {
    [4, 8].contains(&unit)
}

/// Number 5 of a plane.
pub fn plane(width: u64, height: u64, entries: usize) -> bool {
    width * height == entries as u64
}

/// Number 6 at the luma gather.
pub fn luma_place(p: Picture, row: u32, col: u32, n: usize) -> bool {
    placed(row, col, n, p.width as u64, p.height as u64) && n <= p.ctu as usize && unit(p.unit) && p.unit as usize <= n
}

/// Number 4 at the chroma gather: sides and CTU, and a format that is neither monochrome nor unknown.
pub fn chroma_picture(p: Picture, format: u32) -> bool {
    p.sides_and_ctu() && [1, 2, 3].contains(&format)
}

/// A chroma block's place in chroma samples, and the current place in luma samples.
pub struct ChromaPlace {
    pub row: u32,
    pub col: u32,
    pub n: usize,
    pub current: (u32, u32),
}

/// Number 6 at the chroma gather, in a luma picture whose chroma planes have these sides; n against the CTU over the subsampling of
/// the width.
pub fn chroma_place(at: &ChromaPlace, p: Picture, sub_w: u32, chroma: (u64, u64)) -> bool {
    placed(at.row, at.col, at.n, chroma.0, chroma.1) && at.n <= (p.ctu / sub_w) as usize && p.holds(at.current.0, at.current.1)
}
