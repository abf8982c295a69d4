//! What the current font measures, as the generator, the book and the counts ask for it.

use crate::files::Files;
use crate::font::Font;
use crate::state::{Sort, State};

#[derive(Clone, Copy, Debug, PartialEq, Eq)]
pub struct Measures {
    pub nominal: usize,
    pub height: usize,
    pub first: u8,
    pub last: u8,
    /// The least and the greatest width of its glyphs.
    pub narrowest: usize,
    pub widest: usize,
}

const BUILT_IN: Measures = Measures { nominal: 5, height: 7, first: 32, last: 126, narrowest: 5, widest: 5 };

impl Measures {
    /// `None` where the current font is not there, or malformed.
    pub fn of_current(files: &Files, state: &State) -> Option<Measures> {
        if state.text.font == 1 {
            return Some(BUILT_IN);
        }
        let font = Font::open(&files.find(Sort::Font, state.text.font)?.bytes, state.height)?;
        let widths = (font.first..=font.last).map(|character| font.width(character));
        Some(Measures {
            nominal: font.nominal,
            height: font.height,
            first: font.first,
            last: font.last,
            narrowest: widths.clone().min()?,
            widest: widths.max()?,
        })
    }

    pub fn lacks(&self, byte: u8) -> bool {
        byte < self.first || byte > self.last
    }
}
