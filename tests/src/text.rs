//! Characters, the current font, and the text place by column and row.

use crate::edition::NUMBER_MOST;
use crate::font::Font;
use crate::footprint::Footprint;
use crate::glass::{Glass, WIDTH};
use crate::machine::Machine;
use crate::missing::{lacks, IGNORED};
use crate::mutants::{is, Mutant as M};
use crate::numbers::in_range;
use crate::state::{Sort, Text};

/// Where a character would go, and whether the glass moves up first.
pub struct Place {
    pub x: usize,
    pub y: usize,
    pub rows_up: usize,
}

impl Machine<'_> {
    /// The font of that number: 22 when it is not there, 23 when malformed.
    fn font_bytes(&self, number: u16) -> Result<Vec<u8>, u8> {
        if number == 1 {
            return Ok(self.font.to_vec());
        }
        if is(M::CurrentFontHeldToRange) && number > NUMBER_MOST {
            return Err(19);
        }
        let Some(file) = self.file(Sort::Font, number) else {
            return Err(22);
        };
        if Font::open(&file.bytes, self.tallest_font()).is_none() {
            return Err(23);
        }
        Ok(file.bytes.clone())
    }

    /// A font may be as high as the glass.
    fn tallest_font(&self) -> u8 {
        if is(M::FontHeightLimitIsScrollRow) {
            return self.state.text.scroll_row;
        }
        self.state.height
    }

    /// 49: 19, 22, 23.
    pub fn choose_font(&mut self, a: &[u8]) -> Result<Footprint, u8> {
        let (number, _) = self.number(49, a);
        in_range(49, number)?;
        if is(M::FontUncheckedWhenChosen) {
            if number != 1 && self.file(Sort::Font, number).is_none() {
                return Err(22);
            }
        } else {
            self.font_bytes(number)?;
        }
        self.state.text.font = number;
        Ok(Footprint::Nothing)
    }

    /// 71: columns and rows from 1, by the nominal width.
    pub fn text_place(&mut self, column: u8, row: u8) -> Result<Footprint, u8> {
        if is(M::PlaceBeforeFont) && (column == 0 || row == 0) {
            return Err(17);
        }
        let bytes = self.font_bytes(self.state.text.font)?;
        let font = Font::open(&bytes, self.tallest_font()).ok_or(23)?;
        let rows = if is(M::PlaceMustBeAboveRow64) { 64 } else { self.state.height as usize };
        let text = &mut self.state.text;
        if column == 0 || row == 0 {
            return Err(17);
        }
        let mut step_x = font.nominal + text.char_space as usize;
        let mut step_y = font.height + text.line_space as usize;
        if is(M::ColumnStepWithoutSpace) {
            step_x = font.nominal;
        }
        if is(M::RowStepWithoutSpace) {
            step_y = font.height;
        }
        let mut x = text.left as usize + (column as usize - 1) * step_x;
        let y = text.top as usize + (row as usize - 1) * step_y;
        if is(M::PlaceIgnoresMargins) {
            x -= text.left as usize;
        }
        let wide = if is(M::PlaceMustHoldNominal) { font.nominal } else { 1 };
        if x + wide > WIDTH || y >= rows {
            return Err(17);
        }
        (text.x, text.y) = (x as u16, y as u16);
        Ok(Footprint::Nothing)
    }

    /// A byte that belongs to nothing else: 22, 23, 29.
    pub fn character(&mut self, character: u8) -> Result<Footprint, u8> {
        let bytes = match self.font_bytes(self.state.text.font) {
            Err(22) if is(M::IgnoredBefore22) && IGNORED.contains(&character) => return Ok(Footprint::Nothing),
            Err(23) if is(M::IgnoredBefore23) && IGNORED.contains(&character) => return Ok(Footprint::Nothing),
            found => found?,
        };
        let font = Font::open(&bytes, self.tallest_font()).ok_or(23)?;
        if lacks(&font, character) {
            return self.missing(character, &font);
        }
        let width = font.width(character);
        let space = self.state.text.char_space as usize;
        let place = self.make_room(width, font.height)?;
        paint(self.glass, &font, character, &place, self.state.black);
        let grown = if is(M::AdvanceByNominalWidth) { font.nominal } else { width };
        let gap = if is(M::AdvanceWithoutSpace) { 0 } else { space };
        self.state.text.x = (place.x + grown + gap).min(495) as u16;
        self.state.text.y = place.y as u16;
        Ok(self.touched(&place, width, font.height))
    }

    /// Finds the place of a box and scrolls if it must; 29, and nothing moved, if there is no room.
    pub fn make_room(&mut self, width: usize, height: usize) -> Result<Place, u8> {
        let rows = if is(M::BoxMayNotPassRow64) { 64 } else { self.state.height as usize };
        let Some(place) = find_place(&self.state.text, rows, width, height) else {
            if is(M::ScrollsBeforeFindingRoom) {
                if let Some((_, _, rows)) = self.after_wrapping(width, height) {
                    self.glass.scroll_up(rows);
                }
            }
            if is(M::RefusedCharacterMovesPoint) {
                if let Some((x, y, _)) = self.after_wrapping(width, height) {
                    (self.state.text.x, self.state.text.y) = (x as u16, (y as u16).min(255));
                }
            }
            return Err(29);
        };
        if place.rows_up > 0 {
            self.glass.scroll_up(place.rows_up);
            self.scrolled = true;
        }
        Ok(place)
    }

    pub fn after_wrapping(&self, width: usize, height: usize) -> Option<(usize, usize, usize)> {
        wrapped(&self.state.text, width, height)
    }

    /// The box painted at a place, or the whole glass if it scrolled.
    pub fn touched(&self, place: &Place, width: usize, height: usize) -> Footprint {
        if self.scrolled && !is(M::ScrollTouchesOnlyTheBox) {
            return Footprint::Whole;
        }
        Footprint::Rectangle { x1: place.x, y1: place.y, x2: place.x + width - 1, y2: place.y + height - 1 }
    }
}

/// Every dot of the box is painted, black or white; the drawing colour is not asked.
fn paint(glass: &mut Glass, font: &Font, character: u8, place: &Place, drawing: bool) {
    for row in 0..font.height {
        for column in 0..font.width(character) {
            let mut black = font.dot(character, column, row);
            if is(M::GlyphClearBitsTransparent) && !black {
                continue;
            }
            if is(M::GlyphInDrawingColour) {
                black = black == drawing;
            }
            glass.set(place.x + column, place.y + row, black);
        }
    }
}

/// The point after wrapping, with the rows to scroll; `None` when wrap is off.
fn wrapped(text: &Text, width: usize, height: usize) -> Option<(usize, usize, usize)> {
    let (x, y) = (text.x as usize, text.y as usize);
    let mut passes = x + width > WIDTH;
    if is(M::WrapsOneColumnEarly) {
        passes = x + width >= WIDTH;
    }
    if !passes {
        return Some((x, y, 0));
    }
    if !text.wrap {
        return None;
    }
    let left = if is(M::WrapsToColumnZero) { 0 } else { text.left as usize };
    let mut line = height + text.line_space as usize;
    let next = y + line;
    let mut fits = next + height <= text.scroll_row as usize;
    if is(M::ScrollRowItselfTooLow) {
        fits = next + height < text.scroll_row as usize;
    }
    if is(M::ScrollRowAgainstTopOfLine) {
        fits = next <= text.scroll_row as usize;
    }
    if fits {
        return Some((left, next, 0));
    }
    if text.scroll {
        if is(M::ScrollsByHeightOnly) {
            line = height;
        }
        let y = if is(M::ScrollAlsoMovesPoint) { next } else { y };
        return Some((left, y, line));
    }
    let top = if is(M::WrapsToRowZero) { 0 } else { text.top as usize };
    Some((left, top, 0))
}

/// On a glass of `rows`; `None` stands for 29.
fn find_place(text: &Text, rows: usize, width: usize, height: usize) -> Option<Place> {
    let (x, y, rows_up) = wrapped(text, width, height)?;
    if x + width > WIDTH || y + height > rows {
        return None;
    }
    Some(Place { x, y, rows_up })
}
