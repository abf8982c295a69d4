//! Pieces of streams about bars, strips, text, data in line and competing refusals.

use crate::files::Files;
use crate::generator::Maker;
use crate::measures::Measures;

impl Maker {
    pub fn files(&self) -> Files {
        Files::read(&self.board.store).expect("a good directory")
    }

    /// Set-ups, zero writes, values at the edges, ink over them, and back.
    pub fn bars(&mut self) -> Vec<u8> {
        let n = self.rng.pick(&[0, 0, 1, 1, 2, 2, 3, 3, 15]);
        let Some(bar) = self.board.state.bars[n as usize].filter(|_| self.rng.percent(88)) else {
            let side = self.rng.below(4) as u8;
            let top = self.rng.pick(&[0, 0, self.height() - 64, self.height() - 33]);
            let (x1, y1) = (self.rng.below(30) as u8, (top + self.rng.below(20)) as u8);
            let x2 = x1 + self.rng.between(1, 12) as u8;
            let y2 = y1 + self.rng.between(1, 12) as u8;
            let mut corner = [x1, y1, x2, y2];
            if self.rng.percent(20) {
                corner = [200, self.above_the_edge(14), 239, self.height() as u8 - 1];
            }
            let mut bytes = vec![254, 103, n, side];
            bytes.extend(corner);
            if self.rng.percent(70) {
                bytes.extend([254, 105, n, 0]);
            }
            return bytes;
        };
        let length = bar.length() as u8;
        match self.rng.below(10) {
            0 => vec![254, 105, n, 0],
            1 => vec![254, 105, n, length],
            2 => vec![254, 105, n, length.saturating_add(1)],
            3 => vec![254, 105, n, 255],
            4 => vec![254, 105, n, length - 1],
            5 => vec![254, 120, self.colour(), bar.x1, bar.y1, bar.x2, bar.y1],
            6 => vec![254, 99, self.colour(), 254, 112, bar.x2, bar.y2],
            7 => vec![254, 105, n, 0, 254, 105, n, self.rng.between(1, length as usize) as u8],
            _ => vec![254, 105, n, self.rng.between(1, length as usize) as u8],
        }
    }

    /// Characters of the current font near the edges, with wrap and scroll on and off.
    pub fn text(&mut self) -> Vec<u8> {
        let mut bytes = Vec::new();
        if self.rng.percent(15) {
            bytes.extend(self.place_at_an_edge());
        } else if self.rng.percent(50) {
            let x = self.rng.pick(&[0, 0, 100, 220, 230, 234, 235, 236, 239, 240, 255]);
            let near = self.rng.pick(&[24, 16, 15, 14, 8, 7, 6, 1, 0]);
            let y = [0, 0, 8, 255, self.above_the_edge(near)][self.rng.below(13).min(4)];
            bytes.extend([254, 121, x, y]);
        } else if self.rng.percent(30) {
            let column = self.rng.pick(&[0, 1, 2, 3, 30, 47, 48, 49, 255]);
            let last = self.height() as u8 / 8;
            let row = self.rng.pick(&[0, 1, 2, 3, 8, last - 1, last, last + 1, 255]);
            bytes.extend([254, 71, column, row]);
        }
        if self.rng.percent(25) {
            bytes.extend([254, self.rng.pick(&[67, 67, 68, 81, 81, 82, 72])]);
        }
        let (first, last) = self.character_range();
        for _ in 0..self.rng.between(1, 20) {
            let inside = self.rng.between(first as usize, last as usize) as u8;
            let byte = if self.rng.percent(94) { inside } else { self.edge() };
            if byte != 254 {
                bytes.push(byte);
            }
        }
        bytes
    }

    /// A point from which the next line just reaches the scroll row, or just passes it;
    /// or a column and row whose point is just on the glass, or just off it.
    fn place_at_an_edge(&mut self) -> Vec<u8> {
        let text = self.board.state.text.clone();
        let (nominal, height) = self.measures().map_or((5, 7), |font| (font.nominal, font.height));
        let line = height + text.line_space as usize;
        if self.rng.percent(50) {
            let y = (text.scroll_row as usize + self.rng.below(3)).saturating_sub(line + height + 1);
            return vec![254, 121, self.rng.pick(&[236, 239, 240]), y.min(255) as u8];
        }
        let last_column = 239usize.saturating_sub(text.left as usize) / (nominal + text.char_space as usize);
        let last_row = (self.height() - 1).saturating_sub(text.top as usize) / line;
        let (more, below) = (self.rng.below(2), self.rng.below(2));
        vec![254, 71, (last_column + 1 + more).min(255) as u8, (last_row + 1 + below).min(255) as u8]
    }

    /// Of the current font; `None` where it is not there, or malformed.
    pub fn measures(&self) -> Option<Measures> {
        Measures::of_current(&self.files(), &self.board.state)
    }

    fn character_range(&self) -> (u8, u8) {
        self.measures().map_or((32, 126), |font| (font.first, font.last))
    }

    pub fn strips(&mut self) -> Vec<u8> {
        let n = self.rng.below(8) as u8;
        let direction = self.rng.pick(&[0, 128]);
        if self.board.state.strips[n as usize].is_some() && self.rng.percent(70) {
            return vec![254, 107, n | direction];
        }
        let x1 = self.rng.below(238) as u8;
        let y1 = self.rng.below(self.height() - 2) as u8;
        let x2 = self.rng.between(x1 as usize + 1, 239.min(x1 as usize + 40)) as u8;
        let y2 = self.rng.between(y1 as usize + 1, self.height() - 1) as u8;
        vec![254, 106, n, x1, y1, x2, y2, 254, 107, n | direction]
    }

    pub fn metrics(&mut self) -> Vec<u8> {
        if self.rng.percent(40) {
            let scroll_row = self.above_the_edge(0);
            return vec![254, 50, 0, 0, self.rng.below(2) as u8, 1, scroll_row, 254, 67, 254, 81, 254, 72];
        }
        let left = self.rng.pick(&[0, 0, 0, 3, 20, 200, 230, 236, 239, 240, 255]);
        let height = self.height() as u8;
        let top = self.rng.pick(&[0, 0, 0, 2, 30, height - 7, height - 4, height - 1, height, 255]);
        let space = self.rng.pick(&[0, 0, 1, 2, 9, 255]);
        let line = self.rng.pick(&[0, 1, 1, 3, 20, 64, 255]);
        let scroll_row =
            self.rng.pick(&[height, height, height, 64, 0, 16, 32, height - 1, height + 1, height + 7, 200, 255]);
        let mut bytes = vec![254, 50, left, top, space, line, scroll_row];
        if self.rng.percent(40) {
            bytes.extend([254, self.rng.pick(&[72, 88, 72])]);
        }
        bytes
    }

    pub fn in_line(&mut self) -> Vec<u8> {
        let (x1, y1) = (self.column(), self.row());
        let x2 = x1.saturating_add(self.rng.pick(&[0, 1, 6, 7, 8, 9, 15, 16, 23, 30]));
        let y2 = y1.saturating_add(self.rng.pick(&[0, 0, 1, 2, 5, 9, 20]));
        let total = (x2 as usize - x1 as usize + 8) / 8 * (y2 as usize - y1 as usize + 1);
        let mut bytes = vec![254, 100, x1, y1, x2, y2];
        bytes.extend((0..total).map(|_| self.rng.pick(&[0, 1, 85, 128, 170, 254, 255])));
        if self.rng.percent(10) {
            (bytes[2], bytes[4]) = (bytes[4], bytes[2]);
        }
        bytes
    }

    /// Commands to which two refusals apply at once.
    pub fn competing_refusals(&mut self) -> Vec<u8> {
        let number = if self.rng.percent(50) { 16 } else { 2 };
        let side = if self.rng.percent(50) { 4 } else { 1 };
        let strip = if self.rng.percent(50) { 8 } else { 2 };
        let height = self.board.state.height;
        let corners: [u8; 4] = self.rng.pick(&[
            [240, 0, 239, 9],
            [0, height, 9, height - 1],
            [0, 64, 9, 63],
            [0, 0, 240, 9],
            [0, 0, 9, height],
            [9, 0, 8, 9],
            [9, 0, 9, 9],
            [0, 9, 9, 9],
            [255, 255, 0, 0],
        ]);
        let mut bytes = match self.rng.below(6) {
            0 | 1 => vec![254, 103, number, side],
            2 => vec![254, 106, strip],
            3 => return vec![254, 105, self.rng.pick(&[15, 16, 17, 255]), self.edge()],
            4 => return vec![254, 107, self.rng.pick(&[7, 8, 127, 135, 136, 255])],
            _ => return self.text_refusals(),
        };
        bytes.extend(corners);
        bytes
    }

    /// A malformed font can be current when the record says so; a good one cannot turn bad,
    /// so here there is only no room, for boxes and letters alike.
    fn text_refusals(&mut self) -> Vec<u8> {
        let last = self.height() as u8 - 1;
        let mut bytes = vec![254, 68, 254, 121, self.rng.pick(&[238, 240, 255]), self.rng.pick(&[0, last, 255])];
        bytes.extend([31, 127, 255, 65]);
        bytes.extend([254, 71, 0, 1, 254, 71, 1, 0, 254, 71, 255, 255]);
        if self.rng.percent(70) {
            bytes.extend([254, 67]);
        }
        bytes
    }
}
