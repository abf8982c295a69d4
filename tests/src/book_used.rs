//! What must hold of the used room: it is the sum of the sizes in the directory's raw bytes, and only a file that came
//! or went has changed it.

use crate::book_missing::Seen;
use crate::directory::DIRECTORY;
use crate::machine::{Step, Subject};
use crate::state::State;

pub fn used_holds(step: &Step, before: Seen, after: Seen) -> Result<(), String> {
    sum_is_true(after.1, after.2).map_err(|message| format!("{message} after {:?}", step.subject))?;
    let (old, new) = (before.2.used, after.2.used);
    let right = match (step.subject, &step.outcome) {
        (Subject::UploadFinished, Ok(_)) => before.2.upload.is_some_and(|upload| new == old + upload.size),
        (Subject::Command(173), Ok(_)) => new < old,
        (Subject::Command(33), Ok(_)) => new == 0,
        _ => new == old,
    };
    if right {
        Ok(())
    } else {
        Err(format!("the used room went from {old} to {new} with {:?}", step.subject))
    }
}

/// After a call too that was answered 0 or 5.
pub fn sum_is_true(store: &[u8], state: &State) -> Result<(), String> {
    match sizes(&store[..DIRECTORY]) {
        own if own == state.used as u64 => Ok(()),
        own => Err(format!("the used room is kept as {} and not {own}", state.used)),
    }
}

/// Byte by byte: the size is in the last two of the four bytes of kinds 1 and 2, in the last four of the others' seven.
pub fn sizes(directory: &[u8]) -> u64 {
    let (mut sum, mut at) = (0, 0);
    while at < directory.len() && directory[at] != 0 {
        let (number, size) = if directory[at] <= 2 { (1, 2) } else { (2, 4) };
        let first = at + 1 + number;
        for place in 0..size {
            sum += (directory[first + place] as u64) << (8 * place);
        }
        at = first + size;
    }
    sum
}
