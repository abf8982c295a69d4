//! What must hold of every character: a box for what the font lacks, nothing for what is ignored, never 28.

use crate::coverage::GIVEN_NO_MORE;
use crate::files::Files;
use crate::footprint::Footprint;
use crate::glass::{Glass, WIDTH};
use crate::machine::{Step, Subject};
use crate::measures::Measures;
use crate::missing::IGNORED;
use crate::state::State;

/// Glass, raw store and state.
pub type Seen<'a> = (&'a Glass, &'a [u8], &'a State);

pub fn missing_holds(step: &Step, before: Seen, after: Seen, files: &Files) -> Result<(), String> {
    if step.outcome == Err(GIVEN_NO_MORE) {
        return Err("28 is given no more".into());
    }
    let Subject::Character(byte) = step.subject else {
        return Ok(());
    };
    let Some(font) = Measures::of_current(files, before.2) else {
        return if matches!(step.outcome, Err(22 | 23)) {
            Ok(())
        } else {
            Err(format!("{byte} without a font was taken"))
        };
    };
    if !font.lacks(byte) || step.outcome == Err(29) && !IGNORED.contains(&byte) {
        return Ok(());
    }
    let Ok(footprint) = &step.outcome else {
        return Err(format!("missing {byte} was refused"));
    };
    if IGNORED.contains(&byte) {
        let same = *footprint == Footprint::Nothing && before == after;
        return if same { Ok(()) } else { Err(format!("ignored {byte} changed something")) };
    }
    box_holds(&font, footprint, before, after)
}

/// Where the box must be is read from the point after it.
fn box_holds(font: &Measures, footprint: &Footprint, before: Seen, after: Seen) -> Result<(), String> {
    let text = &after.2.text;
    let grown = font.nominal + text.char_space as usize;
    let x1 = (text.x as usize).checked_sub(grown).ok_or("a missing letter moved the point too little")?;
    let y1 = text.y as usize;
    let (x2, y2) = (x1 + font.nominal - 1, y1 + font.height - 1);
    if x2 >= WIDTH || y2 >= after.0.rows() {
        return Err("the box of a missing letter passes the glass".into());
    }
    let up = match footprint {
        Footprint::Whole => font.height + text.line_space as usize,
        _ if *footprint == (Footprint::Rectangle { x1, y1, x2, y2 }) => 0,
        _ => return Err("the footprint of a missing letter is not its box".into()),
    };
    for y in 0..after.0.rows() {
        for x in 0..WIDTH {
            let inside = (x1..=x2).contains(&x) && (y1..=y2).contains(&y);
            let black = inside || y + up < before.0.rows() && before.0.get(x, y + up);
            if after.0.get(x, y) != black {
                return Err(format!("pixel {x} {y} is wrong after a missing letter"));
            }
        }
    }
    let mut expected = before.2.clone();
    (expected.text.x, expected.text.y) = (text.x, text.y);
    if expected != *after.2 || before.1 != after.1 {
        return Err("a missing letter changed more than glass and point".into());
    }
    Ok(())
}
