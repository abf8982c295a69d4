//! Font and bitmap files: when they are well formed, and their dots.

use crate::mutants::{is, Mutant as M};

/// A font file that has passed its check.
#[derive(Clone, Debug)]
pub struct Font<'a> {
    pub bytes: &'a [u8],
    pub nominal: usize,
    pub height: usize,
    pub first: u8,
    pub last: u8,
}

impl<'a> Font<'a> {
    /// `None` when the file is malformed in any of its parts, on a glass of `rows`.
    pub fn open(bytes: &'a [u8], rows: u8) -> Option<Font<'a>> {
        if bytes.len() < 4 {
            return None;
        }
        let (nominal, height) = (bytes[0] as usize, bytes[1] as usize);
        let (first, last) = (bytes[2], bytes[3]);
        let tallest = if is(M::FontHeightUnlimited) {
            255
        } else if is(M::FontHeightLimitStays64) {
            64
        } else if is(M::FontHeightLimitAlways128) {
            128
        } else if is(M::FontMustBeLowerThanGlass) {
            rows as usize - 1
        } else {
            rows as usize
        };
        if nominal == 0 && !is(M::FontNominalZeroAllowed) || nominal > 240 && !is(M::FontNominalUnlimited) {
            return None;
        }
        if height == 0 || height > tallest || first > last {
            return None;
        }
        let font = Font { bytes, nominal, height, first, last };
        for character in first..=last {
            let entry = 4 + 3 * (character - first) as usize;
            if entry + 3 > bytes.len() {
                return None;
            }
            let width = font.width(character);
            if width == 0 || width > 240 && !is(M::FontWidthUnlimited) {
                return None;
            }
            let end = font.offset(character) + (width * height).div_ceil(8);
            let room = if is(M::FontLastByteUnused) { bytes.len() - 1 } else { bytes.len() };
            if end > room && !is(M::FontGlyphsUnchecked) {
                return None;
            }
        }
        Some(font)
    }

    pub fn has(&self, character: u8) -> bool {
        self.first <= character && character <= self.last
    }

    pub fn width(&self, character: u8) -> usize {
        self.bytes[4 + 3 * (character - self.first) as usize + 2] as usize
    }

    fn offset(&self, character: u8) -> usize {
        let entry = 4 + 3 * (character - self.first) as usize;
        let (high, low) = (self.bytes[entry] as usize, self.bytes[entry + 1] as usize);
        if is(M::FontOffsetLowFirst) {
            return low * 256 + high;
        }
        high * 256 + low
    }

    /// Row after row in one run of bits, each byte from its top bit down.
    pub fn dot(&self, character: u8, column: usize, row: usize) -> bool {
        let glyph = self.bytes.get(self.offset(character)..).unwrap_or(&[]);
        packed_dot(glyph, self.width(character), column, row)
    }
}

/// A bitmap file that has passed its check.
#[derive(Clone, Debug)]
pub struct Bitmap<'a> {
    pub bytes: &'a [u8],
    pub width: usize,
    pub height: usize,
}

impl<'a> Bitmap<'a> {
    pub fn open(bytes: &'a [u8]) -> Option<Bitmap<'a>> {
        if bytes.len() < 2 {
            return None;
        }
        let (width, height) = (bytes[0] as usize, bytes[1] as usize);
        if width == 0 || height == 0 {
            return None;
        }
        let needs = 2 + (width * height).div_ceil(8);
        let exact = bytes.len() == needs || (is(M::BitmapMayBeLonger) && bytes.len() > needs);
        exact.then_some(Bitmap { bytes, width, height })
    }

    pub fn dot(&self, column: usize, row: usize) -> bool {
        if is(M::BitmapRowsStartOnBytes) {
            let at = 2 + row * self.width.div_ceil(8) + column / 8;
            return self.bytes.get(at).is_some_and(|byte| byte >> (7 - column % 8) & 1 == 1);
        }
        packed_dot(&self.bytes[2..], self.width, column, row)
    }
}

fn packed_dot(bytes: &[u8], width: usize, column: usize, row: usize) -> bool {
    let bit = row * width + column;
    let shift = if is(M::PackedLowestBitFirst) { bit % 8 } else { 7 - bit % 8 };
    bytes.get(bit / 8).is_some_and(|byte| byte >> shift & 1 == 1)
}
