//! What the used room meets, for the counts: each in each edition and on each glass.

use crate::calls_used::{Beside, Wrong, BESIDE, WRONG};
use crate::coverage::Coverage;
use crate::coverage_edition::{name, named};
use crate::directory::DIRECTORY;
use crate::edition::{EDITIONS, NEWER};
use crate::files::Files;
use crate::glass::HEIGHTS;
use crate::machine::{Step, Subject};
use crate::state::{Sort, State};

pub const PHASES: [&str; 6] =
    ["nothing", "a prefix", "a command", "data in line", "an upload", "an upload with a byte waiting"];

const CALLS: [&str; 5] = ["a piece", "an empty piece", "a starved piece", "a time", "a starved time"];

/// What an input does to the sum, or leaves it; beside other files where it says so.
#[rustfmt::skip]
const STEPS: [&str; 19] = [
    "used room grows from nothing", "used room grows beside files", "used room passes 255",
    "used room becomes the whole area", "used room with both its bytes over 0",
    "used room of a data byte in an upload", "used room of a confirmation that is not the last",
    "used room less the first file", "used room less a file in the middle", "used room less the last file",
    "used room less the only file", "used room falls below 256", "used room of a delete refused 22",
    "used room of a delete refused 20", "used room gone with a purge", "used room of a refused purge",
    "used room of a broken upload", "used room of a dropped upload", "used room of a refused upload",
];

/// What is under way.
pub fn phase(state: &State) -> &'static str {
    match (&state.gathering, &state.inline, &state.upload) {
        (Some(gathering), ..) if gathering.bytes.is_empty() => "a prefix",
        (Some(_), ..) => "a command",
        (_, Some(_), _) => "data in line",
        (.., Some(upload)) if upload.echoed.is_some() => "an upload with a byte waiting",
        (.., Some(_)) => "an upload",
        _ => "nothing",
    }
}

fn wrong_name(state: &State, wrong: Wrong, what: &str) -> String {
    name(state.height, state.edition, &format!("wrong sum {wrong:?} {what}"))
}

pub fn refused_name(state: &State, wrong: Wrong, call: &str) -> String {
    wrong_name(state, wrong, &format!("in {} for {call}", phase(state)))
}

pub fn behind_name(state: &State, wrong: Wrong, beside: Beside, call: &str) -> String {
    wrong_name(state, wrong, &format!("behind {beside:?} for {call}"))
}

pub fn unminded_name(state: &State, wrong: Wrong) -> String {
    wrong_name(state, wrong, &format!("in {} for arriving and taking", phase(state)))
}

pub fn starts_name(state: &State, wrong: Wrong) -> String {
    wrong_name(state, wrong, "before a start")
}

pub fn wanted() -> Vec<String> {
    let mut wanted = Vec::new();
    for (rows, edition) in HEIGHTS.into_iter().flat_map(|rows| EDITIONS.map(|edition| (rows, edition))) {
        wanted.extend(STEPS.map(|what| name(rows, edition, what)));
        if edition == NEWER {
            wanted.push(name(rows, edition, "used room of a delete refused 19"));
        }
        for wrong in WRONG {
            let mut all = vec!["before a start".to_string()];
            for phase in PHASES {
                all.extend(CALLS.iter().chain(&["arriving and taking"]).map(|call| format!("in {phase} for {call}")));
            }
            for beside in BESIDE {
                all.extend(CALLS.map(|call| format!("behind {beside:?} for {call}")));
            }
            wanted.extend(all.iter().map(|what| name(rows, edition, &format!("wrong sum {wrong:?} {what}"))));
        }
    }
    wanted
}

impl Coverage {
    /// With the store and the state before the step, and the state after it.
    pub fn used(&mut self, step: &Step, before: (&[u8], &State), after: &State) {
        let (old, new) = (before.1.used, after.used);
        let stored = before.1.upload.map_or(0, |upload| upload.stored);
        let beside = |kept: &'static str| vec![(old > 0, kept)];
        let what = match (step.subject, &step.outcome) {
            (Subject::UploadFinished, Ok(_)) => vec![
                (old == 0, "used room grows from nothing"),
                (old > 0, "used room grows beside files"),
                (old < 256 && new >= 256, "used room passes 255"),
                (new as usize == before.0.len() - DIRECTORY, "used room becomes the whole area"),
                (new > 256 && new % 256 > 0, "used room with both its bytes over 0"),
            ],
            (Subject::UploadByte, _) => beside("used room of a data byte in an upload"),
            (Subject::UploadConfirmed, _) => beside("used room of a confirmation that is not the last"),
            (Subject::Command(173), Ok(_)) => {
                let mut what = vec![(old >= 256 && new < 256, "used room falls below 256")];
                what.extend(deleted(before.0, old.abs_diff(new) as usize, step, before.1).map(|what| (true, what)));
                what
            }
            (Subject::Command(173), Err(22)) => beside("used room of a delete refused 22"),
            (Subject::Command(173), Err(20)) => beside("used room of a delete refused 20"),
            (Subject::Command(173), Err(19)) => beside("used room of a delete refused 19"),
            (Subject::Command(33), Ok(_)) => beside("used room gone with a purge"),
            (Subject::Command(33), Err(_)) => beside("used room of a refused purge"),
            (Subject::UploadBroken, _) if stored > 0 => beside("used room of a broken upload"),
            (Subject::UploadDropped, _) if stored > 0 => beside("used room of a dropped upload"),
            (Subject::Command(36 | 94), Err(_)) => beside("used room of a refused upload"),
            _ => return,
        };
        for (_, what) in what.into_iter().filter(|(applies, _)| *applies) {
            self.note(name(after.height, after.edition, what));
        }
    }
}

/// Where the deleted file stood, if the sum fell by its size.
fn deleted(store: &[u8], size: usize, step: &Step, state: &State) -> Option<&'static str> {
    let files = Files::read(store)?;
    let number = named(step, state.edition)?;
    let sort = if step.arguments[0] == 0 { Sort::Font } else { Sort::Bitmap };
    let place = files.list.iter().position(|file| file.sort() == sort && file.number == number)?;
    let last = files.list.len() - 1;
    (files.list[place].bytes.len() == size).then_some(match place {
        0 if last == 0 => "used room less the only file",
        0 => "used room less the first file",
        _ if place == last => "used room less the last file",
        _ => "used room less a file in the middle",
    })
}
