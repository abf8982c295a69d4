//! The one rule from a colour byte to a colour, for the three commands that read one.

use crate::mutants::{is, Mutant as M};

/// Drawing colour, frame and solid: the first argument of each is a colour byte, and no other argument is.
pub const COLOURED: [u8; 3] = [99, 114, 120];

/// 0 is white, any other byte black.
pub fn is_black(byte: u8) -> bool {
    let taken_for_white = is(M::OneAloneIsBlack) && byte != 1
        || is(M::ColourTwoIsWhite) && byte == 2
        || is(M::Colour254IsWhite) && byte == 254
        || is(M::Colour255IsWhite) && byte == 255
        || is(M::ColourByLowBit) && byte & 1 == 0
        || is(M::ColourByLowSevenBits) && byte & 127 == 0
        || is(M::ColourWithASign) && byte >= 128;
    if is(M::ColoursChangedRound) {
        return byte == 0;
    }
    byte != 0 && !taken_for_white || is(M::ZeroIsBlackToo)
}

/// For the wrong versions that take 254 for a prefix in the place of this command's colour.
pub fn restarts_at_colour(code: u8) -> bool {
    is(M::EscapeRestartsAtDrawingColour) && code == 99
        || is(M::EscapeRestartsAtFrameColour) && code == 114
        || is(M::EscapeRestartsAtSolidColour) && code == 120
}
