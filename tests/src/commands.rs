//! Which commands there are, how many fixed arguments each needs, what each does.

use crate::colour::is_black;
use crate::edition::{number_bytes, size_bytes};
use crate::footprint::Footprint;
use crate::glass::on_glass;
use crate::line;
use crate::machine::Machine;
use crate::mutants::{is, Mutant as M};
use crate::numbers::in_range;
use crate::state::{Inline, Sort, Text};

/// Every code with the number of its fixed arguments in the older edition.
#[rustfmt::skip]
pub const COMMANDS: [(u8, usize); 32] = [
    (33, 2), (36, 3), (49, 1), (50, 5), (52, 2), (58, 2), (59, 0), (66, 1), (67, 0), (68, 0), (70, 0),
    (71, 2), (72, 0), (80, 1), (81, 0), (82, 0), (88, 0), (94, 3), (98, 3), (99, 1), (100, 4), (101, 2),
    (103, 6), (105, 2), (106, 5), (107, 1), (108, 4), (112, 2), (114, 5), (120, 5), (121, 2), (173, 2),
];

/// Those that name a file: in the newer edition its number has a byte more, and a size two.
pub const NAMING: [u8; 5] = [36, 94, 49, 98, 173];

/// `None` for an unknown code.
pub fn arguments(code: u8, edition: u8) -> Option<usize> {
    let &(_, older) = COMMANDS.iter().find(|&&(known, _)| known == code)?;
    let more = match code {
        36 | 94 => number_bytes(edition) + size_bytes(edition) - 3,
        49 if is(M::FontChoiceKeepsOneByte) => 0,
        98 if is(M::SavedBitmapKeepsOneByte) => 0,
        173 if is(M::DeleteKeepsOneByte) => 0,
        49 | 98 | 173 => number_bytes(edition) - 1,
        _ => 0,
    };
    Some(older + more)
}

impl Machine<'_> {
    /// A command that has all its fixed arguments.
    pub fn obey(&mut self, code: u8, a: &[u8]) -> Result<Footprint, u8> {
        match code {
            33 => self.purge(a),
            36 => self.upload_begins(Sort::Font, a),
            94 => self.upload_begins(Sort::Bitmap, a),
            49 => self.choose_font(a),
            50 => self.text_metrics(a),
            52 => self.serial(a),
            58 => self.flow_on(a),
            59 => self.set(|s| s.flow = false),
            66 => self.set(|s| (s.backlight, s.minutes) = (true, a[0])),
            70 => self.set(|s| s.backlight = false),
            67 => self.set(|s| s.text.wrap = true),
            68 => self.set(|s| s.text.wrap = false),
            81 => self.set(|s| s.text.scroll = true),
            82 => self.set(|s| s.text.scroll = false),
            71 => self.text_place(a[0], a[1]),
            72 => self.home(),
            121 if is(M::TextPointOffGlassRefused) && !on_glass(self.state.height, a[0], a[1]) => Err(17),
            121 => self.set(|s| (s.text.x, s.text.y) = (a[0] as u16, a[1] as u16)),
            80 => self.set(|s| s.contrast = a[0]),
            88 => self.clear(),
            98 => self.saved_bitmap(a),
            99 | 114 | 120 if is(M::ColourAboveOneRefused) && a[0] > 1 => Err(20),
            99 => self.drawing_colour(a[0]),
            100 => self.inline_begins(a),
            108 => self.line(a[0], a[1], a[2], a[3]),
            101 => self.line_on(a[0], a[1]),
            112 => self.pixel(a),
            114 => self.frame(a),
            120 => self.solid(a),
            103 => self.bar_set_up(a),
            105 => self.bar_write(a),
            106 => self.strip_set_up(a),
            107 => self.strip_shift(a),
            173 => self.delete(a),
            _ => unreachable!("only known codes are obeyed"),
        }
    }

    fn set(&mut self, change: impl FnOnce(&mut crate::state::State)) -> Result<Footprint, u8> {
        change(self.state);
        Ok(Footprint::Nothing)
    }

    fn home(&mut self) -> Result<Footprint, u8> {
        let text = &mut self.state.text;
        (text.x, text.y) = (text.left as u16, text.top as u16);
        if is(M::HomeIgnoresMargins) {
            (text.x, text.y) = (0, 0);
        }
        Ok(Footprint::Nothing)
    }

    fn clear(&mut self) -> Result<Footprint, u8> {
        let last = if is(M::ClearLeavesRow64) { 63 } else { self.state.height as usize - 1 };
        self.glass.fill(0, 0, 239, last, false);
        if !is(M::ClearLeavesTextPoint) {
            self.home()?;
        }
        Ok(Footprint::Whole)
    }

    fn text_metrics(&mut self, a: &[u8]) -> Result<Footprint, u8> {
        let text = &mut self.state.text;
        (text.left, text.top, text.char_space, text.line_space, text.scroll_row) = (a[0], a[1], a[2], a[3], a[4]);
        if is(M::MetricsGoHome) {
            return self.home();
        }
        Ok(Footprint::Nothing)
    }

    /// Stored the first time; the stored bytes are always the reply.
    fn serial(&mut self, a: &[u8]) -> Result<Footprint, u8> {
        if self.state.serial.is_none() || is(M::SerialStoredEveryTime) {
            self.state.serial = Some((a[0], a[1]));
        } else if is(M::SerialAnsweredOnce) {
            return Ok(Footprint::Nothing);
        }
        let (first, second) = self.state.serial.unwrap();
        self.replies.extend(if is(M::SerialAnswersWhatWasSent) { [a[0], a[1]] } else { [first, second] });
        Ok(Footprint::Nothing)
    }

    fn flow_on(&mut self, a: &[u8]) -> Result<Footprint, u8> {
        let sum = a[0] as usize + a[1] as usize;
        if sum > 80 || (sum == 80 && !is(M::FlowSumEightyAccepted)) {
            if is(M::RefusedFlowTurnsItOff) {
                self.state.flow = false;
            }
            return Err(27);
        }
        self.set(|s| (s.flow, s.full, s.empty) = (true, a[0], a[1]))
    }

    /// Kept as a colour, whatever byte stood for it.
    fn drawing_colour(&mut self, byte: u8) -> Result<Footprint, u8> {
        let taken_for_white = is(M::DrawingColourOneAloneIsBlack) && byte != 1;
        self.set(|s| s.black = is_black(byte) && !taken_for_white)
    }

    fn pixel(&mut self, a: &[u8]) -> Result<Footprint, u8> {
        if is(M::PixelOffGlassRefused) && !on_glass(self.state.height, a[0], a[1]) {
            return Err(17);
        }
        if is(M::PixelMovesLineEnd) {
            (self.state.line_x, self.state.line_y) = (a[0], a[1]);
        }
        let (x, y) = (a[0] as usize, a[1] as usize);
        self.glass.set(x, y, self.state.black);
        Ok(Footprint::Dots(vec![(x, y)]))
    }

    /// The end is kept as it came, even beyond the glass.
    fn line(&mut self, x1: u8, y1: u8, x2: u8, y2: u8) -> Result<Footprint, u8> {
        let dots = line::dots(x1, y1, x2, y2);
        let black = self.state.black || is(M::LineAlwaysBlack);
        for &(x, y) in &dots {
            self.glass.set(x, y, black);
        }
        if is(M::LineEndClipped) {
            (self.state.line_x, self.state.line_y) = (x2.min(239), y2.min(self.state.height - 1));
        } else {
            (self.state.line_x, self.state.line_y) = (x2, y2);
        }
        Ok(Footprint::Dots(dots))
    }

    fn line_on(&mut self, x: u8, y: u8) -> Result<Footprint, u8> {
        let end = (self.state.line_x, self.state.line_y);
        let drawn = self.line(end.0, end.1, x, y);
        if is(M::LineOnKeepsOldEnd) {
            (self.state.line_x, self.state.line_y) = end;
        }
        drawn
    }

    fn frame(&mut self, a: &[u8]) -> Result<Footprint, u8> {
        let black = is_black(a[0]) && !(is(M::FrameOneAloneIsBlack) && a[0] != 1);
        let (mut x2, mut y2) = (a[3] as usize, a[4] as usize);
        let (x1, y1) = (a[1] as usize, a[2] as usize);
        if x1 > x2 || y1 > y2 {
            return Err(18);
        }
        if is(M::FrameSidesMovedOntoGlass) {
            (x2, y2) = (x2.min(239), y2.min(self.state.height as usize - 1));
        }
        let mut dots = Vec::new();
        for y in y1..=y2 {
            for x in x1..=x2 {
                if x == x1 || x == x2 || y == y1 || y == y2 {
                    dots.push((x, y));
                    self.glass.set(x, y, black);
                }
            }
        }
        Ok(Footprint::Dots(dots))
    }

    fn inline_begins(&mut self, a: &[u8]) -> Result<Footprint, u8> {
        if a[0] > a[2] || a[1] > a[3] {
            return Err(18);
        }
        if is(M::InlineOffGlassRefused) && !on_glass(self.state.height, a[2], a[3]) {
            return Err(17);
        }
        self.state.inline = Some(Inline { x1: a[0], y1: a[1], x2: a[2], y2: a[3], come: 0 });
        Ok(Footprint::rectangle(a[0], a[1], a[2], a[3]))
    }

    /// 173: 20, 19, 22.
    fn delete(&mut self, a: &[u8]) -> Result<Footprint, u8> {
        let (number, _) = self.number(173, &a[1..]);
        if is(M::DeleteRangeBeforeType) {
            in_range(173, number)?;
        }
        let sort = match a[0] {
            1 if is(M::DeleteTypesFromOne) => Sort::Font,
            2 if is(M::DeleteTypesFromOne) => Sort::Bitmap,
            0 => Sort::Font,
            1 => Sort::Bitmap,
            _ => return Err(20),
        };
        in_range(173, number)?;
        if self.file(sort, number).is_none() {
            if is(M::UsedFallsAtARefusedDelete) {
                self.state.used = self.state.used.saturating_sub(1);
            }
            return Err(22);
        }
        let gone = self.files.delete(sort, number).ok_or(22)?;
        self.state.used_after_delete(&gone, self.files);
        let of_fonts = sort == Sort::Font || is(M::DeletedBitmapResetsFont);
        let current = self.state.text.font;
        let same = if is(M::DeletedFontComparedByLowByte) { number % 256 == current % 256 } else { number == current };
        if of_fonts && same && !is(M::DeletedFontStaysCurrent) {
            self.state.text.font = 1;
        }
        Ok(Footprint::Nothing)
    }

    /// The directory and the text settings; nothing else.
    fn purge(&mut self, a: &[u8]) -> Result<Footprint, u8> {
        if a != [89, 33] {
            if is(M::UsedClearedByARefusedPurge) {
                self.state.used = 0;
            }
            return Err(20);
        }
        self.files.purge();
        self.state.used_after_purge();
        if is(M::PurgeKeepsTextSettings) {
            self.state.text.font = 1;
            return self.home();
        }
        let (x, y) = (self.state.text.x, self.state.text.y);
        self.state.text = Text::at_start(self.state.height);
        if is(M::PurgeScrollRowStays64) {
            self.state.text.scroll_row = 64;
        }
        if is(M::PurgeKeepsTextPoint) {
            (self.state.text.x, self.state.text.y) = (x, y);
        }
        if is(M::PurgeRemovesBars) {
            self.state.bars = [None; 16];
        }
        if is(M::PurgeRestoresColour) {
            self.state.black = true;
        }
        Ok(Footprint::Nothing)
    }
}
