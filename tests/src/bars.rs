//! Bars by their full picture, and strips.

use crate::footprint::Footprint;
use crate::glass::on_glass;
use crate::machine::{BarEvent, Machine};
use crate::mutants::{is, Mutant as M};
use crate::state::{Bar, Strip};

impl Bar {
    pub fn length(&self) -> usize {
        let length = match self.side {
            0 | 2 => self.y2 as usize - self.y1 as usize + 1,
            _ => self.x2 as usize - self.x1 as usize + 1,
        };
        if is(M::BarLengthOneShort) {
            return length - 1;
        }
        length
    }

    pub fn holds(&self, x: usize, y: usize) -> bool {
        (self.x1 as usize..=self.x2 as usize).contains(&x) && (self.y1 as usize..=self.y2 as usize).contains(&y)
    }

    /// Whether this dot is black when `value` is shown in full.
    pub fn shows_black(&self, value: usize, x: usize, y: usize) -> bool {
        let from_side = match self.side {
            0 => self.y2 as usize - y,
            1 => x - self.x1 as usize,
            2 => y - self.y1 as usize,
            _ => self.x2 as usize - x,
        };
        if is(M::BarBottomAndTopSwapped) && self.side % 2 == 0 {
            return (self.y2 as usize - self.y1 as usize) - from_side < value;
        }
        if is(M::BarLeftAndRightSwapped) && self.side % 2 == 1 {
            return (self.x2 as usize - self.x1 as usize) - from_side < value;
        }
        from_side < value
    }
}

/// The refusals that a bar's and a strip's corners can meet, 17 before 18.
fn corners_refused(height: u8, x1: u8, y1: u8, x2: u8, y2: u8) -> Option<u8> {
    let off = !on_glass(height, x1, y1) || !on_glass(height, x2, y2);
    let order = if is(M::BarCornersMayBeEqual) { x1 <= x2 && y1 <= y2 } else { x1 < x2 && y1 < y2 };
    if is(M::CornerOrderBeforeGlass) && !order {
        return Some(18);
    }
    if off {
        return Some(17);
    }
    if !order {
        return Some(18);
    }
    None
}

impl Machine<'_> {
    /// 103: kept with value 0, nothing painted.
    pub fn bar_set_up(&mut self, a: &[u8]) -> Result<Footprint, u8> {
        let (n, side) = (a[0] as usize, a[1]);
        let height = if is(M::BarMustBeAboveRow64) { 64 } else { self.state.height };
        let corners = corners_refused(height, a[2], a[3], a[4], a[5]);
        if is(M::BarTypeBeforeNumber) && side > 3 {
            return Err(20);
        }
        let last_number = if is(M::BarNumbersEndAt14) { 14 } else { 15 };
        if n > last_number {
            return Err(19);
        }
        if is(M::BarGlassBeforeType) && corners == Some(17) {
            return Err(17);
        }
        if side > 3 {
            return Err(20);
        }
        if let Some(refusal) = corners {
            return Err(refusal);
        }
        let mut bar = Bar { side, x1: a[2], y1: a[3], x2: a[4], y2: a[5], value: 0 };
        if is(M::BarSetUpWhitens) {
            self.glass.fill(a[2] as usize, a[3] as usize, a[4] as usize, a[5] as usize, false);
        }
        if is(M::BarSetUpKeepsValue) {
            if let Some(old) = self.state.bars[n] {
                bar.value = old.value.min(bar.length() as u8);
            }
        }
        self.state.bars[n] = Some(bar);
        self.bar_event = Some(BarEvent::SetUp { number: n, bar });
        Ok(Footprint::Nothing)
    }

    /// 105: zero whitens all; any other value paints where the pictures differ.
    pub fn bar_write(&mut self, a: &[u8]) -> Result<Footprint, u8> {
        let n = a[0] as usize;
        if n > 15 {
            return Err(if is(M::NotSetUpBeforeNumber) { 21 } else { 19 });
        }
        let Some(bar) = self.state.bars[n] else {
            return Err(21);
        };
        let value = (a[1] as usize).min(bar.length());
        let old = bar.value as usize;
        for y in bar.y1 as usize..=bar.y2 as usize {
            for x in bar.x1 as usize..=bar.x2 as usize {
                let was = bar.shows_black(old, x, y);
                let will = bar.shows_black(value, x, y);
                let whole = if is(M::BarZeroWhitensOldPartOnly) { false } else { value == 0 };
                let more = is(M::BarWritePaintsWholeRectangle)
                    || is(M::BarGrowthPaintsFromTheSide) && value > old && will
                    || is(M::BarShrinkingWhitensTheRest) && value < old && !will;
                if whole || was != will || more {
                    self.glass.set(x, y, will);
                }
            }
        }
        let kept = if is(M::BarKeepsValueUnheld) { a[1] } else { value as u8 };
        self.state.bars[n] = Some(Bar { value: kept, ..bar });
        self.bar_event = Some(BarEvent::Write { number: n, asked: a[1] });
        Ok(Footprint::rectangle(bar.x1, bar.y1, bar.x2, bar.y2))
    }

    /// 106.
    pub fn strip_set_up(&mut self, a: &[u8]) -> Result<Footprint, u8> {
        let height = if is(M::StripMustBeAboveRow64) { 64 } else { self.state.height };
        let corners = corners_refused(height, a[1], a[2], a[3], a[4]);
        if is(M::StripCornersBeforeNumber) && corners.is_some() {
            return Err(corners.unwrap());
        }
        if a[0] > 7 {
            return Err(19);
        }
        if let Some(refusal) = corners {
            return Err(refusal);
        }
        self.state.strips[a[0] as usize] = Some(Strip { x1: a[1], y1: a[2], x2: a[3], y2: a[4] });
        Ok(Footprint::Nothing)
    }

    /// 107: one column left, or right with bit 7 set.
    pub fn strip_shift(&mut self, a: &[u8]) -> Result<Footprint, u8> {
        let n = if is(M::StripNumberTakesAllBits) { a[0] } else { a[0] & 127 } as usize;
        if n > 7 {
            return Err(19);
        }
        let Some(strip) = self.state.strips[n] else {
            return Err(21);
        };
        let right = (a[0] & 128 != 0) != is(M::StripShiftsTheOtherWay);
        let step = if is(M::StripShiftsByEight) { 8 } else { 1 };
        let old = self.glass.clone();
        let (x1, x2) = (strip.x1 as usize, strip.x2 as usize);
        for y in strip.y1 as usize..=strip.y2 as usize {
            for x in x1..=x2 {
                let from = if right { x.checked_sub(step) } else { Some(x + step) };
                let inside = from.filter(|&from| x1 <= from && from <= x2);
                let black = match inside {
                    Some(from) => old.get(from, y),
                    None => is(M::StripEnteringColumnKept) && old.get(x, y),
                };
                self.glass.set(x, y, black);
            }
        }
        Ok(Footprint::rectangle(strip.x1, strip.y1, strip.x2, strip.y2))
    }
}
