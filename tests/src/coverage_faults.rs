//! Names for the several reasons of one refusal, for the counts.

use crate::coverage_edition::{named, split_size};
use crate::files::Files;
use crate::font::Font;
use crate::machine::{Step, Subject};
use crate::state::{Sort, State};

/// Every reason that the generated streams must reach.
#[rustfmt::skip]
pub const REASONS: [&str; 25] = [
    "font too short", "font nominal 0", "font nominal over 240", "font height 0", "font higher than the glass",
    "font first after last", "font table cut short", "font width 0", "font width over 240", "font glyph beyond",
    "bitmap too short", "bitmap width 0", "bitmap height 0", "bitmap longer", "bitmap shorter",
    "upload size 0", "upload records full", "upload no room", "upload font 1", "upload number held",
    "no room with wrap off", "no room at the left margin", "no room below after wrapping", "no room below",
    "broken upload with bytes confirmed",
];

/// Why a refused thing was refused, where the number alone does not say it.
pub fn reason(step: &Step, files: &Files, state: &State, confirmed: usize) -> Option<&'static str> {
    let refusal = step.outcome.clone().err()?;
    let number = named(step, state.edition);
    match (step.subject, refusal) {
        (Subject::Command(49), 23) => font_fault(&files.find(Sort::Font, number?)?.bytes, state.height),
        (Subject::Character(_) | Subject::Command(71), 23) => {
            font_fault(&files.find(Sort::Font, state.text.font)?.bytes, state.height)
        }
        (Subject::Command(98), 23) => bitmap_fault(&files.find(Sort::Bitmap, number?)?.bytes),
        (Subject::Command(36), 25) if number == Some(1) => Some("upload font 1"),
        (Subject::Command(36 | 94), 25) => Some("upload number held"),
        (Subject::Command(36 | 94), 24) if split_size(step, state.edition) == 0 => Some("upload size 0"),
        (Subject::Command(36 | 94), 24) if split_size(step, state.edition) as usize > files.unused() => {
            Some("upload no room")
        }
        (Subject::Command(36 | 94), 24) => Some("upload records full"),
        (Subject::UploadBroken, 26) if confirmed > 0 => Some("broken upload with bytes confirmed"),
        (Subject::Character(character), 29) => Some(no_room(character, files, state)),
        _ => None,
    }
}

fn font_fault(f: &[u8], rows: u8) -> Option<&'static str> {
    if f.len() < 4 {
        return Some("font too short");
    }
    match (f[0], f[1]) {
        (0, _) => return Some("font nominal 0"),
        (241.., _) => return Some("font nominal over 240"),
        (_, 0) => return Some("font height 0"),
        (_, height) if height > rows => return Some("font higher than the glass"),
        _ if f[2] > f[3] => return Some("font first after last"),
        _ => {}
    }
    let count = (f[3] - f[2]) as usize + 1;
    if f.len() < 4 + 3 * count {
        return Some("font table cut short");
    }
    for entry in f[4..4 + 3 * count].chunks(3) {
        match entry[2] {
            0 => return Some("font width 0"),
            241.. => return Some("font width over 240"),
            _ => {}
        }
    }
    Some("font glyph beyond")
}

fn bitmap_fault(f: &[u8]) -> Option<&'static str> {
    if f.len() < 2 {
        return Some("bitmap too short");
    }
    let needs = 2 + (f[0] as usize * f[1] as usize).div_ceil(8);
    Some(match (f[0], f[1]) {
        (0, _) => "bitmap width 0",
        (_, 0) => "bitmap height 0",
        _ if f.len() > needs => "bitmap longer",
        _ => "bitmap shorter",
    })
}

/// The refused character left the text point where it was.
fn no_room(character: u8, files: &Files, state: &State) -> &'static str {
    let file = files.find(Sort::Font, state.text.font).and_then(|file| Font::open(&file.bytes, state.height));
    let width = file.map_or(5, |font| if font.has(character) { font.width(character) } else { font.nominal });
    no_room_of(width, state)
}

/// Why a box of this width found none.
pub fn no_room_of(width: usize, state: &State) -> &'static str {
    let text = &state.text;
    if text.x as usize + width <= 240 {
        "no room below"
    } else if !text.wrap {
        "no room with wrap off"
    } else if text.left as usize + width > 240 {
        "no room at the left margin"
    } else {
        "no room below after wrapping"
    }
}
