//! The number by which a command names a file: read by the edition, held to its range, looked up.

use crate::edition::{number_bytes, split_number, NEWER, NUMBER_MOST, OLDER};
use crate::files::File;
use crate::machine::Machine;
use crate::mutants::{is, Mutant as M};
use crate::state::Sort;

impl Machine<'_> {
    /// The number at the front of these arguments of a command, and what follows it.
    pub fn number<'a>(&self, code: u8, arguments: &'a [u8]) -> (u16, &'a [u8]) {
        let narrow = is(M::FontChoiceKeepsOneByte) && code == 49
            || is(M::SavedBitmapKeepsOneByte) && code == 98
            || is(M::MissingBitmapEndsAtFirstByte) && arguments.len() == 1
            || is(M::DeleteKeepsOneByte) && code == 173;
        split_number(if narrow { OLDER } else { self.state.edition }, arguments)
    }

    /// How many arguments of 98 its number takes up.
    pub fn bitmap_number_bytes(&self) -> usize {
        if is(M::SavedBitmapKeepsOneByte) || is(M::MissingBitmapEndsAtFirstByte) {
            return 1;
        }
        number_bytes(self.state.edition)
    }

    /// A file by sort and number, whichever kind holds it and whichever edition asks.
    pub fn file(&self, sort: Sort, number: u16) -> Option<&File> {
        let file = self.files.find(sort, number)?;
        let blind = is(M::OlderBlindToNewerKinds) && self.state.edition == OLDER && file.kind.edition() == NEWER
            || is(M::NewerBlindToOlderKinds) && self.state.edition == NEWER && file.kind.edition() == OLDER;
        (!blind).then_some(file)
    }
}

/// 19 for a number that no file may have.
pub fn in_range(code: u8, number: u16) -> Result<(), u8> {
    let unlimited = is(M::NumberAboveRangeIsNoFile)
        || is(M::FontChoiceRangeUnchecked) && code == 49
        || is(M::SavedBitmapRangeUnchecked) && code == 98
        || is(M::DeleteRangeUnchecked) && code == 173;
    let most = if is(M::Number1023Refused) {
        NUMBER_MOST - 1
    } else if is(M::Number1024Taken) {
        NUMBER_MOST + 1
    } else if is(M::NumberAbove255Refused) {
        255
    } else {
        NUMBER_MOST
    };
    if number > most && !unlimited {
        return Err(19);
    }
    Ok(())
}
