//! What the two editions and the times bring, for the counts: each in each edition and on each glass.

use crate::commands::NAMING;
use crate::coverage::Coverage;
use crate::directory::{Kind, RECORDS_MOST};
use crate::edition::{split_number, EDITIONS, NEWER, NUMBER_MOST, OLDER};
use crate::files::Files;
use crate::glass::HEIGHTS;
use crate::machine::{Step, Subject};
use crate::state::{Sort, State};

/// Met in both editions.
#[rustfmt::skip]
const BOTH: [&str; 17] = [
    "font of the older kind chosen", "font of the newer kind chosen",
    "bitmap of the older kind shown", "bitmap of the newer kind shown",
    "file of the older kind deleted", "file of the newer kind deleted",
    "file of the newer kind deleted before one of the older", "file of the older kind deleted before one of the newer",
    "current font of the older kind deleted", "current font of the newer kind deleted",
    "number held by the other kind", "number held by the same kind",
    "records full with both kinds", "records of 255 bytes", "records of 252 bytes",
    "character in a font above 255", "character refused with a font above 1023",
];

/// Met in the newer alone, which has the bytes for them.
#[rustfmt::skip]
const NEWER_ONLY: [&str; 6] = [
    "size above 65535 refused", "size of 4294967295 refused", "font 1 refused", "file of a number above 255 finished",
    "file of number 1023 finished", "bitmap 1024 ended at its number",
];

/// Each by each command that names a file, in the newer.
const BY_COMMAND: [&str; 4] =
    ["number above 255 taken", "number 1023 not above", "number 1024 refused", "number 65535 refused"];

pub fn wanted() -> Vec<String> {
    let mut wanted = Vec::new();
    for rows in HEIGHTS {
        for edition in EDITIONS {
            wanted.extend(BOTH.map(|what| name(rows, edition, what)));
        }
        wanted.extend(NEWER_ONLY.map(|what| name(rows, NEWER, what)));
        for code in NAMING {
            wanted.extend(BY_COMMAND.map(|what| name(rows, NEWER, &format!("{what} by command {code:3}"))));
        }
    }
    wanted
}

/// How the counts of an edition on a glass begin.
pub fn name(rows: u8, edition: u8, what: &str) -> String {
    format!("{rows} rows, edition {edition}: {what}")
}

/// The number that a command names a file by; `None` for any other step.
pub fn named(step: &Step, edition: u8) -> Option<u16> {
    let a = match step.subject {
        Subject::Command(36 | 94 | 49 | 98) => &step.arguments[..],
        Subject::Command(173) => &step.arguments[1..],
        _ => return None,
    };
    Some(split_number(edition, a).0)
}

impl Coverage {
    /// With the store and the state before the step, and the files after it.
    pub fn edition(&mut self, step: &Step, before: (&[u8], &State), files: &Files) {
        let (rows, edition) = (before.1.height, before.1.edition);
        let mut all = Vec::new();
        match step.subject {
            Subject::Character(_) => all.extend(character(step, before.1)),
            Subject::UploadFinished => all.extend(finished(files)),
            _ => {}
        }
        if let (Subject::Command(code), Some(number)) = (step.subject, named(step, edition)) {
            let Some(old) = Files::read(before.0) else {
                return;
            };
            all.extend(command(code, number, step, before.1, &old));
            if edition == NEWER {
                by_command(number, &step.outcome)
                    .into_iter()
                    .for_each(|what| all.push(format!("{what} by command {code:3}")));
            }
        }
        all.into_iter().for_each(|what| self.note(name(rows, edition, &what)));
    }
}

fn character(step: &Step, state: &State) -> Option<String> {
    let what = match (state.text.font, &step.outcome) {
        (256.., Ok(_)) => "character in a font above 255",
        (1024.., Err(22)) => "character refused with a font above 1023",
        _ => return None,
    };
    Some(what.into())
}

/// The last record is the new one.
fn finished(files: &Files) -> Vec<String> {
    let number = files.list.last().map_or(0, |file| file.number);
    when(&[
        (files.record_bytes() == 255, "records of 255 bytes"),
        (files.record_bytes() == 252, "records of 252 bytes"),
        (number > 255, "file of a number above 255 finished"),
        (number == NUMBER_MOST, "file of number 1023 finished"),
    ])
}

fn command(code: u8, number: u16, step: &Step, state: &State, old: &Files) -> Vec<String> {
    let sort = match code {
        36 | 49 => Sort::Font,
        173 if step.arguments[0] == 0 => Sort::Font,
        _ => Sort::Bitmap,
    };
    let held = old.list.iter().position(|file| file.sort() == sort && file.number == number);
    match (code, &step.outcome) {
        (36 | 94, Err(refusal)) => refused_upload(*refusal, number, sort, step, state.edition, old),
        (49, Ok(_)) => kind_of(held, old, "font of the older kind chosen", "font of the newer kind chosen"),
        (98, Ok(_)) => kind_of(held, old, "bitmap of the older kind shown", "bitmap of the newer kind shown"),
        (98, Err(19)) if number == 1024 && step.arguments.len() == 2 => vec!["bitmap 1024 ended at its number".into()],
        (173, Ok(_)) => deleted(held, sort == Sort::Font && state.text.font == number, old),
        _ => Vec::new(),
    }
}

fn refused_upload(refusal: u8, number: u16, sort: Sort, step: &Step, edition: u8, old: &Files) -> Vec<String> {
    let own = Kind::written_by(edition, sort);
    let size = split_size(step, edition);
    let held = old.find(sort, number).map(|file| file.kind);
    let both = EDITIONS.iter().all(|&edition| old.list.iter().any(|file| file.kind.edition() == edition));
    let full = old.record_bytes() + own.record_bytes() > RECORDS_MOST;
    when(&[
        (refusal == 25 && held == Some(own), "number held by the same kind"),
        (refusal == 25 && held.is_some_and(|kind| kind != own), "number held by the other kind"),
        (refusal == 25 && (sort, number) == (Sort::Font, 1), "font 1 refused"),
        (refusal == 24 && full && both, "records full with both kinds"),
        (refusal == 24 && size > 65535 && !full, "size above 65535 refused"),
        (refusal == 24 && size == u32::MAX && !full, "size of 4294967295 refused"),
    ])
}

/// The size that an upload asks for.
pub fn split_size(step: &Step, edition: u8) -> u32 {
    crate::edition::low_first(split_number(edition, &step.arguments).1)
}

fn kind_of(held: Option<usize>, old: &Files, older: &str, newer: &str) -> Vec<String> {
    let edition = held.map_or(0, |place| old.list[place].kind.edition());
    when(&[(edition == OLDER, older), (edition == NEWER, newer)])
}

fn deleted(held: Option<usize>, current: bool, old: &Files) -> Vec<String> {
    let edition = held.map_or(0, |place| old.list[place].kind.edition());
    let next = held.and_then(|place| old.list.get(place + 1)).map_or(0, |file| file.kind.edition());
    when(&[
        (edition == OLDER, "file of the older kind deleted"),
        (edition == NEWER, "file of the newer kind deleted"),
        (edition == NEWER && next == OLDER, "file of the newer kind deleted before one of the older"),
        (edition == OLDER && next == NEWER, "file of the older kind deleted before one of the newer"),
        (edition == OLDER && current, "current font of the older kind deleted"),
        (edition == NEWER && current, "current font of the newer kind deleted"),
    ])
}

fn by_command(number: u16, outcome: &Result<crate::footprint::Footprint, u8>) -> Vec<String> {
    when(&[
        (number > 255 && outcome.is_ok(), "number above 255 taken"),
        (number == NUMBER_MOST && *outcome != Err(19), "number 1023 not above"),
        (number == NUMBER_MOST + 1 && *outcome == Err(19), "number 1024 refused"),
        (number == u16::MAX && *outcome == Err(19), "number 65535 refused"),
    ])
}

fn when(reasons: &[(bool, &str)]) -> Vec<String> {
    reasons.iter().filter(|(applies, _)| *applies).map(|(_, reason)| reason.to_string()).collect()
}
