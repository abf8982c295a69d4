//! What the rows below 64 add to the counts, on each glass.

use crate::coverage_edition::named;
use crate::files::Files;
use crate::footprint::Footprint;
use crate::machine::{BarEvent, Step, Subject};
use crate::state::{Sort, State};

/// Every one of these must be met by the generated streams.
pub const HEIGHT_REASONS: [&str; 30] = [
    "pixel clipped below row 63",
    "pixel at row 64 or below",
    "pixel clipped below row 127",
    "line across rows 63 and 64",
    "frame across rows 63 and 64",
    "solid across rows 63 and 64",
    "solid across the lower edge of the tall glass",
    "bar set up at row 64 or below",
    "bar set up to row 127",
    "bar of over 64 rows written",
    "bar at row 64 refused on the low glass",
    "bar at row 128 refused on the tall glass",
    "strip set up at row 64 or below",
    "strip across rows 63 and 64 shifted",
    "strip at row 64 refused on the low glass",
    "strip at row 128 refused on the tall glass",
    "text place at row 64 or below",
    "text place below row 63 refused on the low glass",
    "character across rows 63 and 64",
    "character to row 127",
    "character of over 64 rows",
    "scrolled on the tall glass with a scroll row of 1 to 64",
    "scrolled on the tall glass at scroll row 128",
    "bitmap across rows 63 and 64 of the tall glass",
    "bitmap across row 127",
    "data in line across rows 63 and 64 of the tall glass",
    "data in line across row 127",
    "font of 65 to 128 rows chosen",
    "font of 65 to 128 rows refused on the low glass",
    "font of over 128 rows refused on the tall glass",
];

/// All that apply to a step.
pub fn height_reasons(step: &Step, files: &Files, state: &State) -> Vec<&'static str> {
    let mut all = match &step.outcome {
        Ok(footprint) => done(step, footprint, state),
        Err(refusal) => refused(step, *refusal, state),
    };
    if let (Subject::Command(49), Some(number)) = (step.subject, named(step, state.edition)) {
        let rows = files.find(Sort::Font, number).and_then(|file| file.bytes.get(1).copied()).unwrap_or(0);
        match (state.height, rows, step.outcome.is_ok()) {
            (128, 65..=128, true) => all.push("font of 65 to 128 rows chosen"),
            (64, 65..=128, false) => all.push("font of 65 to 128 rows refused on the low glass"),
            (128, 129.., false) => all.push("font of over 128 rows refused on the tall glass"),
            _ => {}
        }
    }
    all
}

fn refused(step: &Step, refusal: u8, state: &State) -> Vec<&'static str> {
    let a = &step.arguments;
    let row = match (step.subject, refusal) {
        (Subject::Command(103), 17) => a[3].max(a[5]),
        (Subject::Command(106), 17) => a[2].max(a[4]),
        (Subject::Command(71), 17) if a[0] == 1 && a[1] > 1 => {
            return when(&[(state.height == 64, "text place below row 63 refused on the low glass")]);
        }
        _ => return Vec::new(),
    };
    let bar = step.subject == Subject::Command(103);
    when(&[
        (bar && state.height == 64 && row == 64, "bar at row 64 refused on the low glass"),
        (bar && state.height == 128 && row == 128, "bar at row 128 refused on the tall glass"),
        (!bar && state.height == 64 && row == 64, "strip at row 64 refused on the low glass"),
        (!bar && state.height == 128 && row == 128, "strip at row 128 refused on the tall glass"),
    ])
}

fn done(step: &Step, footprint: &Footprint, state: &State) -> Vec<&'static str> {
    let a = &step.arguments;
    let tall = state.height == 128;
    let (first, last) = rows(footprint);
    let seam = tall && first <= 63 && last >= 64;
    let edge = tall && first <= 127 && last >= 128;
    match step.subject {
        Subject::Command(112) => when(&[
            (!tall && (64..128).contains(&first), "pixel clipped below row 63"),
            (tall && (64..128).contains(&first), "pixel at row 64 or below"),
            (tall && first >= 128, "pixel clipped below row 127"),
        ]),
        Subject::Command(108 | 101) => when(&[(seam, "line across rows 63 and 64")]),
        Subject::Command(114) => when(&[(seam, "frame across rows 63 and 64")]),
        Subject::Command(120) => {
            when(&[(seam, "solid across rows 63 and 64"), (edge, "solid across the lower edge of the tall glass")])
        }
        Subject::Command(103 | 105) => bar(step),
        Subject::Command(106) => when(&[(a[2] >= 64, "strip set up at row 64 or below")]),
        Subject::Command(107) => when(&[(seam, "strip across rows 63 and 64 shifted")]),
        Subject::Command(71) => when(&[(state.text.y >= 64, "text place at row 64 or below")]),
        Subject::Command(98) => {
            when(&[(seam, "bitmap across rows 63 and 64 of the tall glass"), (edge, "bitmap across row 127")])
        }
        Subject::InlineByte => when(&[
            (seam, "data in line across rows 63 and 64 of the tall glass"),
            (edge, "data in line across row 127"),
        ]),
        Subject::Character(_) if step.scrolled => {
            let row = state.text.scroll_row;
            when(&[
                (tall && (1..=64).contains(&row), "scrolled on the tall glass with a scroll row of 1 to 64"),
                (tall && row == 128, "scrolled on the tall glass at scroll row 128"),
            ])
        }
        Subject::Character(_) => when(&[
            (seam, "character across rows 63 and 64"),
            (tall && last == 127, "character to row 127"),
            (last - first >= 64, "character of over 64 rows"),
        ]),
        _ => Vec::new(),
    }
}

fn bar(step: &Step) -> Vec<&'static str> {
    let a = &step.arguments;
    match (step.bar, &step.outcome) {
        (Some(BarEvent::SetUp { bar, .. }), _) => {
            when(&[(bar.y1 >= 64, "bar set up at row 64 or below"), (bar.y2 == 127, "bar set up to row 127")])
        }
        (Some(BarEvent::Write { .. }), Ok(footprint)) => {
            let (first, last) = rows(footprint);
            when(&[(last - first >= 64 && a[1] > 0, "bar of over 64 rows written")])
        }
        _ => Vec::new(),
    }
}

fn when(reasons: &[(bool, &'static str)]) -> Vec<&'static str> {
    reasons.iter().filter(|(applies, _)| *applies).map(|(_, reason)| *reason).collect()
}

/// The first and the last row that a footprint touches, beyond the glass too.
fn rows(footprint: &Footprint) -> (usize, usize) {
    match footprint {
        Footprint::Dots(dots) => {
            let rows = dots.iter().map(|&(_, y)| y);
            (rows.clone().min().unwrap_or(0), rows.max().unwrap_or(0))
        }
        Footprint::Rectangle { y1, y2, .. } => (*y1, *y2),
        Footprint::Nothing | Footprint::Whole => (0, 0),
    }
}
