//! A picture's sides and CTU, and good plans of it: squares split at random, in decode order.
use crate::random::Random;

/// Row, column, side, mode.
pub type Block = [u32; 4];

pub const CELL: u32 = 4;

#[derive(Clone, Copy, Debug)]
pub struct Frame {
    pub width: u32,
    pub height: u32,
    pub ctu: u32,
}

/// The four quarters of a square, in decode order.
pub fn quarters(row: u32, col: u32, side: u32) -> [(u32, u32); 4] {
    let half = side / 2;
    [(row, col), (row, col + half), (row + half, col), (row + half, col + half)]
}

impl Frame {
    pub fn holds(self, row: u32, col: u32) -> bool {
        row < self.height && col < self.width
    }

    pub fn ctus(self) -> impl Iterator<Item = (u32, u32)> {
        let step = self.ctu as usize;
        (0..self.height).step_by(step).flat_map(move |row| (0..self.width).step_by(step).map(move |col| (row, col)))
    }

    /// Adds the squares of a side that a square is made of and that begin in the picture, in decode order.
    pub fn add_squares(self, row: u32, col: u32, side: u32, least: u32, squares: &mut Vec<(u32, u32)>) {
        if !self.holds(row, col) {
            return;
        }
        if side == least {
            return squares.push((row, col));
        }
        for (r, c) in quarters(row, col, side) {
            self.add_squares(r, c, side / 2, least, squares);
        }
    }

    /// The picture's squares of a side, in decode order.
    pub fn squares(self, side: u32) -> Vec<(u32, u32)> {
        let mut squares = Vec::new();
        for (row, col) in self.ctus() {
            self.add_squares(row, col, self.ctu, side, &mut squares);
        }
        squares
    }

    /// A plan of blocks of one side, which divides the picture's, with all modes in turn.
    pub fn even_plan(self, side: u32) -> Vec<Block> {
        self.squares(side).into_iter().zip((0..35).cycle()).map(|((row, col), mode)| [row, col, side, mode]).collect()
    }

    /// A square as blocks of a good plan: whole where it may be, else its quarters.
    fn add_blocks(self, row: u32, col: u32, side: u32, random: &mut Random, plan: &mut Vec<Block>) {
        if !self.holds(row, col) {
            return;
        }
        let whole = row + side <= self.height && col + side <= self.width && side <= 32;
        if side == CELL || whole && random.below(2) == 0 {
            return plan.push([row, col, side, random.below(35) as u32]);
        }
        for (r, c) in quarters(row, col, side) {
            self.add_blocks(r, c, side / 2, random, plan);
        }
    }

    pub fn good_plan(self, random: &mut Random) -> Vec<Block> {
        let mut plan = Vec::new();
        for (row, col) in self.ctus() {
            self.add_blocks(row, col, self.ctu, random, &mut plan);
        }
        plan
    }
}
