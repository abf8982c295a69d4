//! What must hold of every colour: the drawing colour is that of the last 99, and what is drawn has one colour all over.

use crate::book_missing::Seen;
use crate::glass::WIDTH;
use crate::machine::{Step, Subject};

pub fn colour_holds(step: &Step, before: Seen, after: Seen) -> Result<(), String> {
    let drawing = before.2.black;
    let said = step.arguments.first().is_some_and(|byte| (1..=255).contains(byte));
    let (kept, drawn) = match (step.subject, &step.outcome) {
        (Subject::Command(99), Ok(_)) => (said, None),
        (Subject::Command(114 | 120), Ok(footprint)) => (drawing, Some((said, footprint))),
        (Subject::Command(101 | 108 | 112), Ok(footprint)) => (drawing, Some((drawing, footprint))),
        (Subject::Command(99), Err(_)) => return Err("a drawing colour was refused".into()),
        (Subject::Command(114 | 120), Err(refusal)) if *refusal != 18 => return Err("a colour was refused".into()),
        _ => (drawing, None),
    };
    if after.2.black != kept {
        return Err(format!("the drawing colour is wrong after {:?}", step.subject));
    }
    let Some((black, footprint)) = drawn else {
        return Ok(());
    };
    let cover = footprint.cover(after.0.rows());
    match (0..cover.len()).find(|&k| cover[k] && after.0.get(k % WIDTH, k / WIDTH) != black) {
        Some(k) => Err(format!("pixel {} {} is not in the colour of {:?}", k % WIDTH, k / WIDTH, step.subject)),
        None => Ok(()),
    }
}
