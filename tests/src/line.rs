//! Lines by the division rule.

use crate::mutants::{is, Mutant as M};

/// The dots of a line, in order from its start, not clipped.
pub fn dots(x1: u8, y1: u8, x2: u8, y2: u8) -> Vec<(usize, usize)> {
    if is(M::LineFromSmallerEnd) && (x2, y2) < (x1, y1) {
        return dots(x2, y2, x1, y1);
    }
    let (x1, y1, x2, y2) = (x1 as i64, y1 as i64, x2 as i64, y2 as i64);
    let (dx, dy) = ((x2 - x1).abs(), (y2 - y1).abs());
    let (step_x, step_y) = ((x2 - x1).signum(), (y2 - y1).signum());
    let mut all = Vec::new();
    if dx == 0 && dy == 0 {
        all.push((x1, y1));
    } else if dx >= dy {
        for i in 0..=dx {
            all.push((x1 + i * step_x, y1 + across(i, dy, dx) * step_y));
        }
    } else {
        for i in 0..=dy {
            all.push((x1 + across(i, dx, dy) * step_x, y1 + i * step_y));
        }
    }
    all.into_iter().map(|(x, y)| (x as usize, y as usize)).collect()
}

/// How far the short axis has come after `i` steps of the long one.
fn across(i: i64, short: i64, long: i64) -> i64 {
    if is(M::LineRoundsDown) {
        return (2 * i * short) / (2 * long);
    }
    if is(M::LineHalvesRoundDown) {
        return (2 * i * short + long - 1) / (2 * long);
    }
    (2 * i * short + long) / (2 * long)
}
