//! What a time call can meet, for the counts: each in each edition and on each glass.

use crate::coverage::Coverage;
use crate::coverage_edition::name;
use crate::edition::EDITIONS;
use crate::glass::HEIGHTS;
use crate::state::State;

#[rustfmt::skip]
const TIMES: [&str; 22] = [
    "time outside everything", "time in a command", "time in data in line", "long time in a command",
    "long time in data in line", "long time outside everything",
    "upload waits at its start", "upload waits for a confirmation", "upload waits for data",
    "upload has waited 2099", "upload waits for 0", "upload waits in several calls",
    "upload dropped at its start", "upload dropped before a confirmation", "upload dropped before data",
    "upload dropped at 2100", "upload dropped at 2101 or above", "upload dropped in a second call",
    "upload dropped by 1", "upload dropped by 65536 or more", "upload dropped by 4294967295",
    "upload dropped with bytes confirmed",
];

/// Without two free reply bytes.
#[rustfmt::skip]
const STARVED: [&str; 5] = [
    "time starved outside everything", "time starved in a command", "time starved in data in line",
    "time starved in an upload", "time starved where an upload would be dropped",
];

pub fn wanted() -> Vec<String> {
    let mut wanted = Vec::new();
    for rows in HEIGHTS {
        for edition in EDITIONS {
            wanted.extend(TIMES.iter().chain(&STARVED).map(|what| name(rows, edition, what)));
        }
    }
    wanted
}

impl Coverage {
    /// One call that was answered 0 or 5, with the state before it.
    pub fn time_call(&mut self, before: &State, milliseconds: u32, answer: u8) {
        let all = if answer == 5 { starved(before, milliseconds) } else { passed(before, milliseconds) };
        all.into_iter().for_each(|what| self.note(name(before.height, before.edition, what)));
    }
}

fn starved(before: &State, milliseconds: u32) -> Vec<&'static str> {
    let upload = before.upload.map(|upload| upload.waited as u64 + milliseconds as u64);
    let outside = before.gathering.is_none() && before.inline.is_none() && before.upload.is_none();
    when(&[
        (outside, "time starved outside everything"),
        (before.gathering.is_some(), "time starved in a command"),
        (before.inline.is_some(), "time starved in data in line"),
        (upload.is_some_and(|sum| sum < 2100), "time starved in an upload"),
        (upload.is_some_and(|sum| sum >= 2100), "time starved where an upload would be dropped"),
    ])
}

fn passed(before: &State, milliseconds: u32) -> Vec<&'static str> {
    let long = milliseconds >= 2100;
    let Some(upload) = before.upload else {
        let outside = before.gathering.is_none() && before.inline.is_none();
        return when(&[
            (outside, "time outside everything"),
            (outside && long, "long time outside everything"),
            (before.gathering.is_some(), "time in a command"),
            (before.gathering.is_some() && long, "long time in a command"),
            (before.inline.is_some(), "time in data in line"),
            (before.inline.is_some() && long, "long time in data in line"),
        ]);
    };
    let sum = upload.waited as u64 + milliseconds as u64;
    let (start, echoed) = (upload.stored == 0 && upload.echoed.is_none(), upload.echoed.is_some());
    let data = upload.stored > 0 && !echoed;
    let before_this = upload.waited > 0;
    if sum < 2100 {
        return when(&[
            (start, "upload waits at its start"),
            (echoed, "upload waits for a confirmation"),
            (data, "upload waits for data"),
            (sum == 2099, "upload has waited 2099"),
            (milliseconds == 0, "upload waits for 0"),
            (before_this && milliseconds > 0, "upload waits in several calls"),
        ]);
    }
    when(&[
        (start, "upload dropped at its start"),
        (echoed, "upload dropped before a confirmation"),
        (data, "upload dropped before data"),
        (sum == 2100, "upload dropped at 2100"),
        (sum > 2100, "upload dropped at 2101 or above"),
        (before_this, "upload dropped in a second call"),
        (milliseconds == 1, "upload dropped by 1"),
        (milliseconds >= 65536, "upload dropped by 65536 or more"),
        (milliseconds == u32::MAX, "upload dropped by 4294967295"),
        (upload.stored > 0, "upload dropped with bytes confirmed"),
    ])
}

fn when(reasons: &[(bool, &'static str)]) -> Vec<&'static str> {
    reasons.iter().filter(|(applies, _)| *applies).map(|(_, reason)| *reason).collect()
}
