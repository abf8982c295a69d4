//! How often each command, refusal, answer and signal was reached; what an input did is counted for each height and
//! edition by itself.

use crate::calls_refused;
use crate::commands::{COMMANDS, NAMING};
use crate::coverage_colour;
use crate::coverage_edition::{self, named, split_size};
use crate::coverage_faults::{reason, REASONS};
use crate::coverage_heights::{height_reasons, HEIGHT_REASONS};
use crate::coverage_missing;
use crate::coverage_times;
use crate::coverage_used;
use crate::directory::{Kind, RECORDS_MOST};
use crate::edition::{EDITIONS, NEWER, NUMBER_MOST};
use crate::files::Files;
use crate::glass::{on_glass, HEIGHTS};
use crate::machine::{Step, Subject};
use crate::state::{Sort, State};
use std::collections::BTreeMap;

/// Refusals that can apply together, by command; 0 stands for a character.
#[rustfmt::skip]
pub const PAIRS: [(u8, u8, u8); 18] = [
    (103, 19, 20), (103, 19, 17), (103, 19, 18), (103, 20, 17), (103, 20, 18), (103, 17, 18),
    (106, 19, 17), (106, 19, 18), (106, 17, 18), (105, 19, 21), (107, 19, 21),
    (36, 25, 24), (94, 25, 24), (71, 22, 17), (71, 23, 17), (173, 20, 22),
    (0, 22, 29), (0, 23, 29),
];

/// Those that only the newer edition's numbers bring; what is above the range is never held.
pub const NEWER_PAIRS: [(u8, u8, u8); 6] =
    [(36, 19, 24), (94, 19, 24), (49, 19, 22), (98, 19, 22), (173, 20, 19), (173, 19, 22)];

/// The number that stood for a character outside the font.
pub const GIVEN_NO_MORE: u8 = 28;

/// Every call with the answers it can give.
#[rustfmt::skip]
pub const ANSWERS: [(&str, &[u8]); 5] = [
    ("start", &[0, 1, 2, 3, 4]), ("feed", &[0, 1, 2, 3, 4, 5]), ("time", &[0, 1, 2, 3, 4, 5]), ("arrive", &[0, 3, 7]),
    ("take", &[0, 3, 6]),
];

/// Each refusal that each command can meet in either edition; 0 stands for a character, 1 for an upload's bytes,
/// 2 for its time.
#[rustfmt::skip]
pub const REFUSALS: [(u8, &[u8]); 18] = [
    (33, &[20]), (36, &[24, 25]), (94, &[24, 25]), (49, &[22, 23]), (58, &[27]), (71, &[17, 22, 23]),
    (98, &[22, 23]), (100, &[18]), (103, &[17, 18, 19, 20]), (105, &[19, 21]), (106, &[17, 18, 19]),
    (107, &[19, 21]), (114, &[18]), (120, &[18]), (173, &[20, 22]), (0, &[22, 23, 29]), (1, &[26]),
    (2, &[26]),
];

#[derive(Clone, Debug, Default)]
pub struct Coverage {
    pub counts: BTreeMap<String, usize>,
    /// Bytes confirmed to the upload under way.
    confirmed: usize,
}

impl Coverage {
    /// Counts one thing more.
    pub fn note(&mut self, what: String) {
        *self.counts.entry(what).or_default() += 1;
    }

    pub fn answer(&mut self, call: &str, answer: u8) {
        self.note(format!("answer {answer} of {call}"));
    }

    pub fn signal(&mut self, call: &str, signal: u8) {
        self.note(format!("signal {signal} of {call}"));
    }

    pub fn step(&mut self, step: &Step, files: &Files, state: &State) {
        let name = match step.subject {
            Subject::Gathered => return,
            Subject::Command(code) => format!("command {code:3}"),
            Subject::UnknownCode(_) => "unknown code".into(),
            Subject::Character(_) => "character".into(),
            Subject::InlineByte => "byte in line".into(),
            Subject::UploadByte => "upload byte echoed".into(),
            Subject::UploadConfirmed => "upload byte confirmed".into(),
            Subject::UploadFinished => "upload finished".into(),
            Subject::UploadBroken => "upload".into(),
            Subject::Waited => return,
            Subject::UploadDropped => "time".into(),
        };
        let place = at(state.height, state.edition);
        match step.outcome {
            Ok(_) => self.note(format!("{place} {name} done")),
            Err(refusal) => {
                self.note(format!("{place} {name} refused {refusal}"));
                self.note(format!("{place} refusal {refusal}"));
                self.pairs(step, files, state);
                if let Some(reason) = reason(step, files, state, self.confirmed) {
                    self.note(format!("{place} reason {reason}"));
                }
            }
        }
        height_reasons(step, files, state).into_iter().for_each(|reason| self.note(format!("reason {reason}")));
        self.confirmed = match step.subject {
            Subject::UploadConfirmed => self.confirmed + 1,
            Subject::UploadByte => self.confirmed,
            _ => 0,
        };
        if step.scrolled {
            self.note(format!("{place} character scrolled"));
        }
    }

    fn pairs(&mut self, step: &Step, files: &Files, state: &State) {
        let a = &step.arguments;
        let (subject, applying) = match step.subject {
            Subject::Command(code @ (103 | 105 | 106 | 107)) => (code, numbers_applying(code, a, state.height)),
            Subject::Command(code @ (36 | 94 | 49 | 98 | 173)) => {
                (code, file_refusals_applying(code, step, files, state))
            }
            Subject::Command(71) => {
                let refusal = step.outcome.clone().unwrap_err();
                (71, if a[0] == 0 || a[1] == 0 { vec![refusal, 17] } else { vec![refusal] })
            }
            Subject::Character(_) => {
                let refusal = step.outcome.clone().unwrap_err();
                let no_place = state.text.x >= 240 && !state.text.wrap;
                (0, if no_place { vec![refusal, 29] } else { vec![refusal] })
            }
            _ => return,
        };
        for (code, first, second) in PAIRS.into_iter().chain(NEWER_PAIRS) {
            if code == subject && applying.contains(&first) && applying.contains(&second) {
                self.note(format!("{} {}", at(state.height, state.edition), pair_name(code, first, second)));
            }
        }
    }

    /// What should be counted and was not.
    pub fn missing(&self) -> Vec<String> {
        let mut wanted = calls_refused::wanted();
        wanted.extend(coverage_missing::wanted());
        wanted.extend(coverage_colour::wanted());
        wanted.extend(coverage_edition::wanted());
        wanted.extend(coverage_times::wanted());
        wanted.extend(coverage_used::wanted());
        for rows in HEIGHTS {
            for edition in EDITIONS {
                wanted.extend(wanted_of_steps(edition).iter().map(|what| format!("{} {what}", at(rows, edition))));
            }
        }
        wanted.extend(HEIGHT_REASONS.map(|reason| format!("reason {reason}")));
        for (call, answers) in ANSWERS {
            wanted.extend(answers.iter().map(|answer| format!("answer {answer} of {call}")));
        }
        for what in ["signal 0 of arrive", "signal 254 of arrive", "signal 0 of take", "signal 255 of take"] {
            wanted.push(what.into());
        }
        wanted.retain(|what| !self.counts.contains_key(what));
        wanted
    }

    pub fn report(&self) -> String {
        self.counts.iter().map(|(what, count)| format!("{count:9}  {what}\n")).collect()
    }
}

/// How the counts of a height and an edition begin.
fn at(rows: u8, edition: u8) -> String {
    format!("{rows} rows, edition {edition}:")
}

/// What the steps of one edition must reach.
fn wanted_of_steps(edition: u8) -> Vec<String> {
    let mut wanted = Vec::new();
    wanted.extend(COMMANDS.map(|(code, _)| format!("command {code:3} done")));
    for refusal in (16..=29).filter(|&refusal| refusal != GIVEN_NO_MORE) {
        wanted.push(format!("refusal {refusal}"));
    }
    for (code, refusals) in REFUSALS {
        wanted.extend(refusals.iter().map(|&refusal| refusal_name(code, refusal)));
    }
    for what in ["character done", "character scrolled", "byte in line done", "unknown code refused 16"] {
        wanted.push(what.into());
    }
    for what in ["upload byte echoed done", "upload byte confirmed done", "upload finished done"] {
        wanted.push(what.into());
    }
    wanted.extend(PAIRS.map(|(code, first, second)| pair_name(code, first, second)));
    wanted.extend(REASONS.map(|reason| format!("reason {reason}")));
    if edition == NEWER {
        wanted.extend(NAMING.map(|code| refusal_name(code, 19)));
        wanted.extend(NEWER_PAIRS.map(|(code, first, second)| pair_name(code, first, second)));
    }
    wanted
}

fn refusal_name(code: u8, refusal: u8) -> String {
    match code {
        0 => format!("character refused {refusal}"),
        1 => format!("upload refused {refusal}"),
        2 => format!("time refused {refusal}"),
        _ => format!("command {code:3} refused {refusal}"),
    }
}

fn pair_name(code: u8, first: u8, second: u8) -> String {
    match code {
        0 => format!("pair {first} with {second} of a character"),
        _ => format!("pair {first} with {second} of command {code:3}"),
    }
}

/// Every refusal that applies by itself, whatever comes first.
fn numbers_applying(code: u8, a: &[u8], height: u8) -> Vec<u8> {
    let mut all = Vec::new();
    match code {
        103 | 106 => {
            let c = if code == 103 { &a[2..] } else { &a[1..] };
            if a[0] > if code == 103 { 15 } else { 7 } {
                all.push(19);
            }
            if code == 103 && a[1] > 3 {
                all.push(20);
            }
            if !on_glass(height, c[0], c[1]) || !on_glass(height, c[2], c[3]) {
                all.push(17);
            }
            if c[0] >= c[2] || c[1] >= c[3] {
                all.push(18);
            }
        }
        105 if a[0] > 15 => all.extend([19, 21]),
        107 if a[0] & 127 > 7 => all.extend([19, 21]),
        _ => {}
    }
    all
}

/// The same for the commands that name a file.
fn file_refusals_applying(code: u8, step: &Step, files: &Files, state: &State) -> Vec<u8> {
    let number = named(step, state.edition).unwrap_or(0);
    let font = code == 36 || code == 49 || code == 173 && step.arguments[0] == 0;
    let sort = if font { Sort::Font } else { Sort::Bitmap };
    let held = files.find(sort, number).is_some();
    let mut all = Vec::new();
    all.extend((code == 173 && step.arguments[0] > 1).then_some(20));
    all.extend((number > NUMBER_MOST).then_some(19));
    match code {
        36 | 94 => {
            let size = split_size(step, state.edition) as usize;
            let record = Kind::written_by(state.edition, sort).record_bytes();
            let no_room = size == 0 || size > files.unused() || files.record_bytes() + record > RECORDS_MOST;
            all.extend((held || (sort, number) == (Sort::Font, 1)).then_some(25));
            all.extend(no_room.then_some(24));
        }
        _ => all.extend((!held && (code, number) != (49, 1)).then_some(22)),
    }
    all
}
