//! The solid rectangle. Most of its wrong versions are those of a painter that goes by whole bytes, with masks at both
//! ends.

use crate::colour::is_black;
use crate::footprint::Footprint;
use crate::glass::{on_glass, Glass, WIDTH};
use crate::machine::Machine;
use crate::mutants::{is, Mutant as M};

impl Machine<'_> {
    /// 120.
    pub fn solid(&mut self, a: &[u8]) -> Result<Footprint, u8> {
        if a[1] > a[3] || a[2] > a[4] {
            return Err(18);
        }
        if is(M::SolidOffGlassRefused) && !on_glass(self.state.height, a[3], a[4]) {
            return Err(17);
        }
        if is(M::SolidNeedsTwoByTwo) && (a[1] == a[3] || a[2] == a[4]) {
            return Err(18);
        }
        let mut black = is_black(a[0]) && !(is(M::SolidOneAloneIsBlack) && a[0] != 1);
        if is(M::SolidUsesDrawingColour) {
            black = self.state.black;
        }
        for y in a[2] as usize..=a[4] as usize {
            paint_row(self.glass, y, a[1] as usize, a[3] as usize, black);
        }
        Ok(Footprint::rectangle(a[1], a[2], a[3], a[4]))
    }
}

/// The bytes of both ends and those between: no wrong version but the last goes beyond them.
fn paint_row(glass: &mut Glass, y: usize, x1: usize, x2: usize, black: bool) {
    for x in x1 / 8 * 8..(x2 / 8 * 8 + 8).min(WIDTH) {
        if covers(x1, x2, x) {
            glass.set(x, y, black || is(M::SolidWholeBytesAlwaysBlack) && between(x1, x2, x));
        } else if wipes(x1, x2, x, black) {
            glass.set(x, y, false);
        }
    }
    if is(M::SolidGoesOnInTheNextRow) {
        (x1.max(WIDTH)..=x2).for_each(|x| glass.set(x - WIDTH, y + 1, black));
    }
}

/// The columns from one corner to the other. The wrong versions clip first, and go by bytes then.
fn covers(x1: usize, x2: usize, x: usize) -> bool {
    let (right, here) = (x2.min(WIDTH - 1), x / 8);
    let (first, last) = (x1 / 8, right / 8);
    let turned = is(M::SolidMasksLowestBitFirst) && (here == first || here == last);
    let x = if turned { 8 * here + 7 - x % 8 } else { x };
    let inside = x1 <= x && x <= x2;
    let too_much = is(M::SolidLeftEndRoundedDown) && here == first && x < x1
        || is(M::SolidRightEndRoundedUp) && here == last && x > right
        || is(M::SolidLeftMaskOneMore) && x1 % 8 != 0 && x + 1 == x1
        || is(M::SolidRightMaskOneMore) && right % 8 != 7 && x == right + 1
        || is(M::SolidInOneByteToItsEnd) && first == last && here == last && x > right
        || is(M::SolidInOneByteFromItsStart) && first == last && here == first && x < x1;
    let too_little = is(M::SolidLeftMaskOneShort) && x1 % 8 != 0 && x == x1
        || is(M::SolidRightMaskOneShort) && right % 8 != 7 && x == right
        || is(M::SolidRightMaskUnclipped) && x2 > right && here == last && x % 8 > x2 % 8
        || is(M::SolidLeavesOutWholeBytes) && between(x1, x2, x)
        || is(M::SolidLeavesOutLastWholeByte) && between(x1, x2, x) && here + 1 == last;
    (inside || too_much) && !too_little
}

/// Whether a column lies in a byte between those of the two ends.
fn between(x1: usize, x2: usize, x: usize) -> bool {
    x1 / 8 < x / 8 && x / 8 < x2.min(WIDTH - 1) / 8
}

/// For the wrong versions that write the bytes of both ends without looking at what was there.
fn wipes(x1: usize, x2: usize, x: usize, black: bool) -> bool {
    let wrong = if black { is(M::SolidBlackWipesTheRestOfItsEnds) } else { is(M::SolidWhiteWipesTheRestOfItsEnds) };
    wrong && (x / 8 == x1 / 8 || x / 8 == x2 / 8)
}
