//! A byte that the font lacks: a black box in the letter's place, or nothing at all.

use crate::font::Font;
use crate::footprint::Footprint;
use crate::glass::{Glass, WIDTH};
use crate::machine::Machine;
use crate::mutants::{is, Mutant as M};
use crate::text::Place;

/// Return, line feed and back space are no letters: a font without them has nothing to show.
pub const IGNORED: [u8; 3] = [13, 10, 8];

pub fn lacks(font: &Font, byte: u8) -> bool {
    let taken_for_missing = is(M::FirstIsMissing) && byte == font.first
        || is(M::LastIsMissing) && byte == font.last
        || is(M::ReturnIgnoredThoughThere) && byte == 13
        || is(M::LineFeedIgnoredThoughThere) && byte == 10
        || is(M::BackSpaceIgnoredThoughThere) && byte == 8;
    !font.has(byte) || taken_for_missing
}

impl Machine<'_> {
    /// The font is there and good: what is left is 29.
    pub fn missing(&mut self, byte: u8, font: &Font) -> Result<Footprint, u8> {
        if ignored(byte, font) {
            return self.ignore(byte, font);
        }
        if is(M::MissingRefused28) {
            return Err(28);
        }
        let (width, height) = box_size(font);
        if is(M::MissingNeverWraps) && self.state.text.x as usize + width > WIDTH {
            return Err(29);
        }
        let place = match self.make_room(width, height) {
            Err(_) if is(M::MissingScrollsBeforeFindingRoom) => {
                let rows_up = self.after_wrapping(width, height).map_or(0, |(_, _, rows)| rows);
                self.glass.scroll_up(rows_up);
                return Err(29);
            }
            Err(_) if is(M::MissingClippedNotRefused) => self.place_as_it_is(width, height),
            Err(_) if is(M::MissingWrapsThoughOff) && !self.state.text.wrap => {
                self.wrapped_all_the_same(width, height)?
            }
            found => found?,
        };
        paint(self.glass, &place, width, height, self.state.text.char_space as usize, self.state.black);
        if !is(M::MissingLeavesPoint) {
            let grown = if is(M::MissingMovesPointByGlyph) { font.width(font.first) } else { width };
            let gap = if is(M::MissingMovesPointWithoutSpace) { 0 } else { self.state.text.char_space as usize };
            self.state.text.x = (place.x + grown + gap).min(495) as u16;
            self.state.text.y = (place.y as u16).min(255);
        }
        Ok(footprint(self.touched(&place, width, height)))
    }

    /// Nothing changes; what a terminal would do with these bytes is wrong here.
    fn ignore(&mut self, byte: u8, font: &Font) -> Result<Footprint, u8> {
        if is(M::IgnoredRefused28) {
            return Err(28);
        }
        if is(M::IgnoredRefusedWithoutRoom) {
            self.make_room(font.nominal, font.height)?;
        }
        let text = &mut self.state.text;
        match byte {
            13 if is(M::ReturnGoesToMargin) => text.x = text.left as u16,
            10 if is(M::LineFeedGoesDown) => text.y = (text.y + font.height as u16 + text.line_space as u16).min(255),
            8 if is(M::BackSpaceGoesBack) => text.x = text.x.saturating_sub(font.nominal as u16),
            _ => {}
        }
        if is(M::IgnoredRaisesCount) {
            self.state.refusals = self.state.refusals.wrapping_add(1);
        }
        if is(M::IgnoredClearsLastRefusal) {
            self.state.last_refusal = 0;
        }
        if is(M::IgnoredHasFootprint) {
            return Ok(Footprint::Whole);
        }
        Ok(Footprint::Nothing)
    }

    /// For the wrong version that paints what is on the glass of a box without room.
    fn place_as_it_is(&self, width: usize, height: usize) -> Place {
        let (x, y, _) =
            self.after_wrapping(width, height).unwrap_or((self.state.text.x as usize, self.state.text.y as usize, 0));
        Place { x, y, rows_up: 0 }
    }

    /// For the wrong version that starts a new line even with wrap off.
    fn wrapped_all_the_same(&mut self, width: usize, height: usize) -> Result<Place, u8> {
        self.state.text.wrap = true;
        let place = self.make_room(width, height);
        self.state.text.wrap = false;
        place
    }
}

fn ignored(byte: u8, font: &Font) -> bool {
    let boxed =
        is(M::ReturnBoxed) && byte == 13 || is(M::LineFeedBoxed) && byte == 10 || is(M::BackSpaceBoxed) && byte == 8;
    let others = is(M::BellIgnored) && byte == 7
        || is(M::TabIgnored) && byte == 9
        || is(M::FormFeedIgnored) && byte == 12
        || is(M::ZeroIgnored) && byte == 0
        || is(M::DeleteIgnored) && byte == 127
        || is(M::AllControlsIgnored) && byte < 32
        || is(M::BelowFirstIgnored) && byte < font.first
        || is(M::AboveLastIgnored) && byte > font.last;
    IGNORED.contains(&byte) && !boxed || others
}

/// The nominal width and the font's height, whatever its glyphs measure.
fn box_size(font: &Font) -> (usize, usize) {
    if is(M::MissingAlwaysFiveBySeven) {
        return (5, 7);
    }
    if is(M::MissingAsWideAsFirst) {
        return (font.width(font.first), font.height);
    }
    if is(M::MissingAsWideAsWidest) {
        return ((font.first..=font.last).map(|c| font.width(c)).max().unwrap(), font.height);
    }
    (font.nominal, font.height)
}

/// Black, whatever the drawing colour and whatever was there.
fn paint(glass: &mut Glass, place: &Place, width: usize, height: usize, space: usize, drawing: bool) {
    let columns = if is(M::MissingOneColumnShort) {
        width - 1
    } else if is(M::MissingSpacePaintedToo) {
        width + space
    } else {
        width
    };
    let rows = if is(M::MissingOneRowShort) { height - 1 } else { height };
    for row in 0..rows {
        for column in 0..columns {
            let (x, y) = (place.x + column, place.y + row);
            let rim = row == 0 || row == height - 1 || column == 0 || column == width - 1;
            let mut black = !is(M::MissingWhite) && (rim || !is(M::MissingHollow));
            if is(M::MissingInDrawingColour) {
                black = drawing;
            }
            if is(M::MissingTurnsOver) && x < WIDTH && y < glass.rows() {
                black = !glass.get(x, y);
            }
            if is(M::MissingStopsAtRow64) && y >= 64 {
                continue;
            }
            glass.set(x, y, black);
        }
    }
}

/// The box and no more, or the whole glass; here only for the wrong versions.
fn footprint(right: Footprint) -> Footprint {
    match right {
        Footprint::Rectangle { x1, y1, x2, y2 } => {
            if is(M::MissingFootprintWhole) {
                return Footprint::Whole;
            }
            if is(M::MissingFootprintNothing) {
                return Footprint::Nothing;
            }
            let x2 = x2 + is(M::MissingFootprintColumnMore) as usize - is(M::MissingFootprintColumnShort) as usize;
            let y2 = y2 + is(M::MissingFootprintRowMore) as usize - is(M::MissingFootprintRowShort) as usize;
            Footprint::Rectangle { x1, y1, x2, y2 }
        }
        other => other,
    }
}
