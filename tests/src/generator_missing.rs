//! Pieces of streams about bytes that the font lacks.

use crate::generator::Maker;
use crate::measures::Measures;
use crate::missing::IGNORED;
use crate::state::Bar;

/// What a missing letter is asked about where the current font is not to be had.
const ANY_FONT: Measures = Measures { nominal: 5, height: 7, first: 32, last: 126, narrowest: 5, widest: 5 };

impl Maker {
    /// Boxes and ignored bytes where a box wraps, scrolls, just fits or does not, or lies beside a bar.
    pub fn missing(&mut self) -> Vec<u8> {
        let font = self.measures().unwrap_or(ANY_FONT);
        let bars: Vec<(u8, Bar)> =
            self.board.state.bars.iter().enumerate().filter_map(|(n, bar)| Some((n as u8, (*bar)?))).collect();
        if !bars.is_empty() && self.rng.percent(50) {
            let (number, bar) = self.rng.pick(&bars);
            return self.box_near_a_bar(&font, number, &bar);
        }
        let mut bytes = Vec::new();
        if self.rng.percent(40) {
            bytes.extend([254, self.rng.pick(&[67, 67, 68, 81, 81, 82])]);
        }
        if self.rng.percent(80) {
            bytes.extend(self.edge_for_a_box(&font));
        }
        // without a font all are refused: then mostly the bytes that a font could ignore
        let kinds = if self.measures().is_some() { 7 } else { 3 };
        for _ in 0..self.rng.between(1, 6) {
            let byte = match self.rng.below(kinds) {
                0 | 1 => self.rng.pick(&IGNORED),
                2 => self.rng.between(font.first as usize, font.last as usize) as u8,
                _ => self.lacking(&font),
            };
            bytes.extend((byte != 254).then_some(byte));
        }
        bytes
    }

    /// A byte on either side of the font, or one that some would take for a sign of order.
    fn lacking(&mut self, font: &Measures) -> u8 {
        let beside = [font.first.saturating_sub(1), font.last.saturating_add(1)];
        let byte = match self.rng.below(4) {
            0 | 1 => self.rng.pick(&beside),
            2 => self.rng.pick(&[0, 7, 9, 11, 12, 14, 27, 31, 127, 128, 253, 255]),
            _ => self.rng.byte(),
        };
        if font.lacks(byte) && !IGNORED.contains(&byte) {
            byte
        } else {
            self.rng.pick(&[1, 129, 255])
        }
    }

    /// A text point from which the box just fits, or passes by one: to the right, below, or on the next line.
    fn edge_for_a_box(&mut self, font: &Measures) -> Vec<u8> {
        let text = &self.board.state.text;
        let (line, scroll_row) = (font.height + text.line_space as usize, text.scroll_row as usize);
        let rows = self.height();
        let x = [0, 241 - font.nominal, 240 - font.nominal, 239, 240][self.rng.below(5)];
        let y = match self.rng.below(5) {
            0 => (scroll_row + self.rng.below(2)).saturating_sub(line + font.height),
            1 => rows - font.height.min(rows) + self.rng.below(2),
            2 => 64usize.saturating_sub(font.height / 2),
            3 => 255,
            _ => self.rng.below(rows),
        };
        vec![254, 121, x.min(255) as u8, y.min(255) as u8]
    }

    /// The bar becomes sure; then a box beside it, over one of its corners, or far off.
    fn box_near_a_bar(&mut self, font: &Measures, number: u8, bar: &Bar) -> Vec<u8> {
        let length = bar.length();
        let mut bytes = vec![254, 105, number, 0, 254, 105, number, self.rng.between(0, length) as u8];
        let (x1, y1, x2, y2) = (bar.x1 as usize, bar.y1 as usize, bar.x2 as usize, bar.y2 as usize);
        let touching = self.rng.below(2);
        // `touching` pixels deep into the rectangle, from each side in turn
        let (x, y) = match self.rng.below(5) {
            0 => ((x1 + touching).saturating_sub(font.nominal), y1),
            1 => (x2 + 1 - touching, y2),
            2 => (x1, (y1 + touching).saturating_sub(font.height)),
            3 => (x2, y2 + 1 - touching),
            _ => (x1, y1),
        };
        bytes.extend([254, 121, x.min(255) as u8, y.min(255) as u8]);
        let byte = if self.rng.percent(25) { self.rng.pick(&IGNORED) } else { self.lacking(font) };
        bytes.push(byte);
        bytes.extend([254, 105, number, self.rng.between(0, length) as u8]);
        bytes
    }
}
