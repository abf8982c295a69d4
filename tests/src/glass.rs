//! The glass as a grid of dots, each painted on its own.

use crate::mutants::{is, Mutant as M};

pub const WIDTH: usize = 240;
/// The two glasses there are, by their rows.
pub const LOW: u8 = 64;
pub const TALL: u8 = 128;
pub const HEIGHTS: [u8; 2] = [LOW, TALL];

pub fn glass_bytes(height: u8) -> usize {
    WIDTH / 8 * height as usize
}

/// One dot for every bit lent; `true` is black.
#[derive(Clone, Debug, PartialEq, Eq)]
pub struct Glass {
    dots: Vec<bool>,
}

impl Glass {
    pub fn white(height: u8) -> Glass {
        Glass { dots: vec![false; WIDTH * height as usize] }
    }

    /// Any number of bytes may be lent; which of them make a glass is the height's business.
    pub fn from_bytes(bytes: &[u8]) -> Glass {
        let mut dots = Vec::new();
        for &byte in bytes {
            for bit in 0..8 {
                dots.push(byte >> (7 - bit) & 1 == 1);
            }
        }
        Glass { dots }
    }

    pub fn to_bytes(&self) -> Vec<u8> {
        let mut bytes = Vec::new();
        for eight in self.dots.chunks(8) {
            let mut byte = 0;
            for &dot in eight {
                byte = byte * 2 + dot as u8;
            }
            bytes.push(byte);
        }
        bytes
    }

    pub fn suits(&self, height: u8) -> bool {
        self.dots.len() == glass_bytes(height) * 8
    }

    pub fn rows(&self) -> usize {
        self.dots.len() / WIDTH
    }

    pub fn get(&self, x: usize, y: usize) -> bool {
        self.dots[y * WIDTH + x]
    }

    /// Dots beyond the glass are dropped.
    pub fn set(&mut self, x: usize, y: usize, black: bool) {
        let rows = if is(M::ClippedAtRow64) { 64 } else { self.rows() };
        if x < WIDTH && y < rows {
            self.dots[y * WIDTH + x] = black;
        }
    }

    pub fn fill(&mut self, x1: usize, y1: usize, x2: usize, y2: usize, black: bool) {
        for y in y1..=y2 {
            for x in x1..=x2 {
                self.set(x, y, black);
            }
        }
    }

    /// All rows move up; white comes in below.
    pub fn scroll_up(&mut self, rows: usize) {
        let last = if is(M::ScrollStopsAtRow56) {
            56
        } else if is(M::ScrollStopsAtRow64) {
            64
        } else {
            self.rows()
        };
        let bottom = if is(M::ScrollBringsWhiteAtRow64) { 64 } else { self.rows() };
        for y in 0..last {
            for x in 0..WIDTH {
                let below = if y + rows < bottom {
                    self.get(x, y + rows)
                } else if is(M::ScrollLeavesOldRowsBelow) {
                    self.get(x, y)
                } else {
                    false
                };
                self.set(x, y, below);
            }
        }
    }
}

pub fn on_glass(height: u8, x: u8, y: u8) -> bool {
    (x as usize) < WIDTH && y < height
}
