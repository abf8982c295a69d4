//! What must hold of every number and record: 19 for what is above the range, and a directory that changes by whole records.

use crate::book_missing::Seen;
use crate::directory::DIRECTORY;
use crate::machine::{Step, Subject};
use crate::state::{Sort, State, Upload};

pub fn editions_hold(step: &Step, before: Seen, after: Seen) -> Result<(), String> {
    if (before.2.height, before.2.edition) != (after.2.height, after.2.edition) {
        return Err("the height or the edition changed".into());
    }
    if let Some(above) = above_range(step, before.2.edition) {
        if above != (step.outcome == Err(19)) {
            return Err(format!("{:?} of {:?} gave {:?}", step.subject, step.arguments, step.outcome));
        }
    }
    if directory_holds(step, &before.1[..DIRECTORY], &after.1[..DIRECTORY], before.2) {
        Ok(())
    } else {
        Err(format!("the directory is wrong after {:?}", step.subject))
    }
}

/// A finished upload adds its record behind the others, a delete takes one out, a purge all; else it stays.
fn directory_holds(step: &Step, old: &[u8], new: &[u8], state: &State) -> bool {
    match (step.subject, &step.outcome) {
        (Subject::UploadFinished, Ok(_)) => {
            let mut expected = records(old);
            expected.extend(state.upload.map(|upload| record(state.edition, &upload)));
            records(new) == expected
        }
        (Subject::Command(173), Ok(_)) => {
            let (mut was, is) = (records(old), records(new));
            let gone = (0..was.len()).find(|&k| was.get(k) != is.get(k));
            gone.is_some_and(|place| {
                was.remove(place);
                was == is
            })
        }
        (Subject::Command(33), Ok(_)) => new.iter().all(|&byte| byte == 0),
        _ => old == new,
    }
}

/// The record of a file just finished, by the edition alone.
fn record(edition: u8, upload: &Upload) -> Vec<u8> {
    let sort = match upload.sort {
        Sort::Font => 1,
        Sort::Bitmap => 2,
    };
    let ([low, high], [size_low, size_high]) = (upload.number.to_le_bytes(), upload.size.to_le_bytes());
    match edition {
        1 => vec![sort, low, size_low, size_high],
        _ => vec![sort + 2, low, high, size_low, size_high, 0, 0],
    }
}

/// Whether the number of a command that names a file is above 1,023; `None` where another refusal comes before it.
fn above_range(step: &Step, edition: u8) -> Option<bool> {
    let a = &step.arguments;
    let high = match step.subject {
        Subject::Command(36 | 94 | 49 | 98) => a.get(1),
        Subject::Command(173) if a[0] <= 1 => a.get(2),
        _ => return None,
    };
    Some(edition == 2 && high.is_some_and(|&high| high > 3))
}

/// The directory cut into its records, by the first byte of each.
fn records(directory: &[u8]) -> Vec<Vec<u8>> {
    let mut all = Vec::new();
    let mut left = directory;
    while let Some(kind @ 1..=4) = left.first() {
        let (record, rest) = left.split_at(if *kind <= 2 { 4 } else { 7 }.min(left.len()));
        all.push(record.to_vec());
        left = rest;
    }
    all
}
