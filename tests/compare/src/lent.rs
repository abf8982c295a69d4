//! A slice as C lends it, between guard bytes, so that a write beside it is seen.

pub const GUARD: usize = 64;

#[derive(Clone, Debug, Default)]
pub struct Lent {
    buffer: Vec<u8>,
    from: usize,
    length: usize,
    turn: u64,
}

impl Lent {
    /// The turn varies the guards and the alignment; every other empty slice is a null pointer.
    pub fn fill(&mut self, contents: &[u8], turn: u64) {
        self.turn = turn;
        self.from = GUARD + (turn / 2 % 8) as usize;
        self.length = contents.len();
        let end = self.from + self.length;
        if self.buffer.len() < end + GUARD {
            self.buffer.resize(end + GUARD, 0);
        }
        let guard = guard(turn);
        self.buffer[self.from - GUARD..self.from].copy_from_slice(&guard);
        self.buffer[self.from..end].copy_from_slice(contents);
        self.buffer[end..end + GUARD].copy_from_slice(&guard);
    }

    pub fn pointer(&mut self) -> *mut u8 {
        if self.length == 0 && self.turn % 2 == 1 {
            return std::ptr::null_mut();
        }
        self.buffer[self.from..].as_mut_ptr()
    }

    /// As the library counts: with 64 bits on every processor.
    pub fn length(&self) -> u64 {
        self.length as u64
    }

    pub fn contents(&self) -> &[u8] {
        &self.buffer[self.from..self.from + self.length]
    }

    /// A byte beside the slice that was written, told by its distance.
    pub fn overrun(&self) -> Option<String> {
        let guard = guard(self.turn);
        let end = self.from + self.length;
        let (before, after) = (&self.buffer[self.from - GUARD..self.from], &self.buffer[end..end + GUARD]);
        if before != guard {
            let place = (0..GUARD).rev().find(|&k| before[k] != guard[k]).unwrap();
            return Some(format!("{} before its start", GUARD - place));
        }
        if after != guard {
            let place = (0..GUARD).find(|&k| after[k] != guard[k]).unwrap();
            return Some(format!("{} behind its end", place + 1));
        }
        None
    }
}

/// Never the same twice in a row, so that no fixed value written there can hide for long.
fn guard(turn: u64) -> [u8; GUARD] {
    let turn = (turn as u8).wrapping_mul(101);
    std::array::from_fn(|k| (k as u8).wrapping_mul(37) ^ turn ^ 0x5A)
}

/// A number that C hands back, with a neighbour on each side.
pub struct Out<T> {
    cells: [T; 3],
    garbage: T,
}

impl<T: Copy + PartialEq> Out<T> {
    pub fn new(garbage: T) -> Out<T> {
        Out { cells: [garbage; 3], garbage }
    }

    pub fn pointer(&mut self) -> *mut T {
        // from the whole array, so that the pointer may be checked against its neighbours
        self.cells.as_mut_ptr().wrapping_add(1)
    }

    pub fn value(&self) -> T {
        self.cells[1]
    }

    pub fn overrun(&self) -> bool {
        self.cells[0] != self.garbage || self.cells[2] != self.garbage
    }
}
