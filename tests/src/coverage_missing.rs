//! What a byte that the font lacks can meet, for the counts.

use crate::coverage::Coverage;
use crate::coverage_faults::no_room_of;
use crate::files::Files;
use crate::footprint::Footprint;
use crate::glass::{HEIGHTS, TALL, WIDTH};
use crate::machine::{Step, Subject};
use crate::measures::Measures;
use crate::missing::IGNORED;
use crate::state::{State, Text};

/// Each must be met on each glass.
#[rustfmt::skip]
const BOXES: [&str; 27] = [
    "in the built-in font", "in an uploaded font", "below the first", "above the last",
    "on the line with wrap on", "on the line with wrap off", "to the last column", "to the last row",
    "wrapped", "wrapped to the top margin", "scrolled",
    "wider than every glyph", "narrower than every glyph", "of 240 columns", "in white", "with character space",
    "refused: no room with wrap off", "refused: no room at the left margin", "refused: no room below after wrapping",
    "refused: no room below", "refused beside a sure bar",
    "on a sure bar", "beside a sure bar", "scrolled over a sure bar",
    "for 7", "for 9", "for 12",
];

/// Each must be met on each glass by each of the three bytes.
#[rustfmt::skip]
const SIGNS: [&str; 8] = [
    "ignored in the built-in font", "ignored in an uploaded font", "ignored where a box would wrap",
    "ignored where a box has no room", "ignored beside a sure bar", "is a glyph", "refused 22", "refused 23",
];

/// Only the rows below 63 bring these.
const TALL_BOXES: [&str; 3] = ["across rows 63 and 64", "to row 127", "of over 64 rows"];

pub fn wanted() -> Vec<String> {
    let mut wanted: Vec<String> = TALL_BOXES.iter().map(|what| box_name(TALL, what)).collect();
    for rows in HEIGHTS {
        wanted.extend(BOXES.iter().map(|what| box_name(rows, what)));
        for byte in IGNORED {
            wanted.extend(SIGNS.iter().map(|what| sign_name(rows, byte, what)));
        }
    }
    wanted
}

fn box_name(rows: u8, what: &str) -> String {
    format!("{rows} rows: missing letter {what}")
}

fn sign_name(rows: u8, byte: u8, what: &str) -> String {
    format!("{rows} rows: byte {byte:2} {what}")
}

impl Coverage {
    /// With the text settings and the sure bars before the step, and the bars that are sure after it.
    pub fn missing_letter(
        &mut self,
        step: &Step,
        files: &Files,
        state: &State,
        before: (&Text, [bool; 16]),
        sure_now: [bool; 16],
    ) {
        let Subject::Character(byte) = step.subject else {
            return;
        };
        let font = Measures::of_current(files, state);
        let (text, was_sure) = before;
        let sure = was_sure.contains(&true);
        if IGNORED.contains(&byte) {
            for what in sign(step, font, state, sure) {
                self.note(sign_name(state.height, byte, what));
            }
        } else if let Some(font) = font.filter(|font| font.lacks(byte)) {
            let mut all = match &step.outcome {
                Ok(footprint) => shown(byte, &font, footprint, text, state),
                Err(_) => refused(&font, state),
            };
            all.extend(match (&step.outcome, was_sure == sure_now) {
                _ if !sure => None,
                (Err(_), _) => Some("refused beside a sure bar"),
                (Ok(Footprint::Whole), _) => Some("scrolled over a sure bar"),
                (Ok(_), true) => Some("beside a sure bar"),
                (Ok(_), false) => Some("on a sure bar"),
            });
            all.into_iter().for_each(|what| self.note(box_name(state.height, what)));
        }
    }
}

fn sign(step: &Step, font: Option<Measures>, state: &State, sure: bool) -> Vec<&'static str> {
    match (&step.outcome, font) {
        (Err(22), _) => vec!["refused 22"],
        (Err(23), _) => vec!["refused 23"],
        (Ok(Footprint::Nothing), Some(font)) => {
            let (x, y) = (state.text.x as usize, state.text.y as usize);
            let passes = x + font.nominal > WIDTH;
            let no_room = if passes { !state.text.wrap } else { y + font.height > state.height as usize };
            let built_in = state.text.font == 1;
            when(&[
                (built_in, "ignored in the built-in font"),
                (!built_in, "ignored in an uploaded font"),
                (passes && state.text.wrap, "ignored where a box would wrap"),
                (no_room, "ignored where a box has no room"),
                (sure, "ignored beside a sure bar"),
            ])
        }
        (Ok(_), _) => vec!["is a glyph"],
        (Err(_), _) => Vec::new(),
    }
}

fn refused(font: &Measures, state: &State) -> Vec<&'static str> {
    let reason = no_room_of(font.nominal, state);
    BOXES.into_iter().filter(|what| what.strip_prefix("refused: ") == Some(reason)).collect()
}

/// `before` tells whether it wrapped; the text point stands behind the box by now.
fn shown(byte: u8, font: &Measures, footprint: &Footprint, before: &Text, state: &State) -> Vec<&'static str> {
    let text = &state.text;
    let (x, y) = (text.x as usize - font.nominal - text.char_space as usize, text.y as usize);
    let last = y + font.height - 1;
    let scrolled = *footprint == Footprint::Whole;
    let tall = state.height == TALL;
    let here = before.x as usize + font.nominal <= WIDTH;
    let next_line = before.y as usize + font.height + text.line_space as usize;
    let below = next_line + font.height <= text.scroll_row as usize;
    when(&[
        (text.font == 1, "in the built-in font"),
        (text.font != 1, "in an uploaded font"),
        (byte < font.first, "below the first"),
        (byte > font.last, "above the last"),
        (here && text.wrap, "on the line with wrap on"),
        (here && !text.wrap, "on the line with wrap off"),
        (!here && below, "wrapped"),
        (!here && !below && !scrolled, "wrapped to the top margin"),
        (x + font.nominal == WIDTH, "to the last column"),
        (last + 1 == state.height as usize, "to the last row"),
        (scrolled, "scrolled"),
        (font.nominal > font.widest, "wider than every glyph"),
        (font.nominal < font.narrowest, "narrower than every glyph"),
        (font.nominal == WIDTH, "of 240 columns"),
        (!state.black, "in white"),
        (text.char_space > 0, "with character space"),
        (byte == 7, "for 7"),
        (byte == 9, "for 9"),
        (byte == 12, "for 12"),
        (tall && !scrolled && y <= 63 && last >= 64, "across rows 63 and 64"),
        (tall && last == 127, "to row 127"),
        (font.height > 64, "of over 64 rows"),
    ])
}

fn when(reasons: &[(bool, &'static str)]) -> Vec<&'static str> {
    reasons.iter().filter(|(applies, _)| *applies).map(|(_, reason)| *reason).collect()
}
