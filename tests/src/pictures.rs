//! Saved bitmaps and data in line.

use crate::files::File;
use crate::font::Bitmap;
use crate::footprint::Footprint;
use crate::machine::Machine;
use crate::mutants::{is, Mutant as M};
use crate::numbers::in_range;
use crate::state::{Inline, Sort};

impl Machine<'_> {
    /// The file that 98's number names: 19, 22.
    pub fn bitmap_named(&self, a: &[u8]) -> Result<&File, u8> {
        let (number, _) = self.number(98, a);
        in_range(98, number)?;
        self.file(Sort::Bitmap, number).ok_or(22)
    }

    /// 98: looked up again, since a lent record may name a file that is gone.
    pub fn saved_bitmap(&mut self, a: &[u8]) -> Result<Footprint, u8> {
        let file = self.bitmap_named(a)?.bytes.clone();
        let (_, place) = self.number(98, a);
        let Some(bitmap) = Bitmap::open(&file) else {
            return Err(23);
        };
        let (x, y) = (place[0] as usize, place[1] as usize);
        let rows = self.state.height as usize;
        if is(M::BitmapMustLieOnGlass) && (x + bitmap.width > 240 || y + bitmap.height > rows) {
            return Err(17);
        }
        for row in 0..bitmap.height {
            for column in 0..bitmap.width {
                let black = bitmap.dot(column, row);
                if is(M::BitmapClearBitsTransparent) && !black {
                    continue;
                }
                let black = if is(M::BitmapInDrawingColour) { black == self.state.black } else { black };
                if is(M::BitmapClippedAtRow64) && y + row >= 64 {
                    continue;
                }
                self.glass.set(x + column, y + row, black);
            }
        }
        Ok(Footprint::Rectangle { x1: x, y1: y, x2: x + bitmap.width - 1, y2: y + bitmap.height - 1 })
    }

    /// One byte of 100's data; each row starts on a new byte.
    pub fn inline_byte(&mut self, byte: u8) -> Footprint {
        let mut inline = self.state.inline.take().unwrap();
        let (row, column) = (inline.come / inline.bytes_per_row(), inline.come % inline.bytes_per_row());
        for bit in 0..8 {
            let x = inline.x1 as usize + column * 8 + bit;
            let y = inline.y1 as usize + row;
            let mut black = byte >> (7 - bit) & 1 == 1;
            if is(M::InlineInDrawingColour) {
                black = black == self.state.black;
            }
            if is(M::InlinePackedLikeSaved) {
                self.inline_packed(&inline, inline.come * 8 + bit, black);
                continue;
            }
            if is(M::InlineClearBitsTransparent) && !black {
                continue;
            }
            if is(M::InlineClippedAtRow64) && y >= 64 {
                continue;
            }
            if x <= inline.x2 as usize || is(M::InlineSpareBitsPainted) {
                self.glass.set(x, y, black);
            }
        }
        inline.come += 1;
        let mut total = inline.total();
        if is(M::InlineBytesOnlyForGlass) {
            let last = inline.y2.min(self.state.height - 1) as usize;
            total = inline.bytes_per_row() * (last + 1).saturating_sub(inline.y1 as usize);
        }
        if is(M::InlinePackedLikeSaved) {
            let dots = (inline.x2 as usize - inline.x1 as usize + 1) * (inline.y2 as usize - inline.y1 as usize + 1);
            total = dots.div_ceil(8);
        }
        if inline.come < total {
            self.state.inline = Some(inline);
        }
        Footprint::rectangle(inline.x1, inline.y1, inline.x2, inline.y2)
    }

    /// Only for the wrong version that runs the rows together.
    fn inline_packed(&mut self, inline: &Inline, bit: usize, black: bool) {
        let width = inline.x2 as usize - inline.x1 as usize + 1;
        let (x, y) = (inline.x1 as usize + bit % width, inline.y1 as usize + bit / width);
        if y <= inline.y2 as usize {
            self.glass.set(x, y, black);
        }
    }
}
