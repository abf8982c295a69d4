//! Which colour bytes each command read, and what showed them, for the counts.

use crate::colour::COLOURED;
use crate::coverage::Coverage;
use crate::glass::{Glass, HEIGHTS};
use crate::machine::{Step, Subject};

/// White, the usual black, and the blacks that a wrong rule would take for something else.
const KINDS: [&str; 8] = ["0", "1", "2", "3 to 127", "128", "129 to 253", "254", "255"];

/// Each must have turned a pixel into the colour of each kind: line on, line and pixel into the drawing colour.
const SHOWING: [u8; 5] = [101, 108, 112, 114, 120];

pub fn wanted() -> Vec<String> {
    let mut wanted = Vec::new();
    for rows in HEIGHTS {
        for kind in KINDS {
            wanted.extend(COLOURED.map(|code| read_name(rows, kind, code)));
            wanted.extend(SHOWING.map(|code| shown_name(rows, kind, code)));
        }
    }
    wanted
}

fn kind(byte: u8) -> &'static str {
    KINDS[match byte {
        0..=2 => byte as usize,
        3..=127 => 3,
        128 => 4,
        129..=253 => 5,
        254 => 6,
        255 => 7,
    }]
}

fn read_name(rows: u8, kind: &str, code: u8) -> String {
    format!("{rows} rows: colour {kind} of command {code:3}")
}

fn shown_name(rows: u8, kind: &str, code: u8) -> String {
    format!("{rows} rows: colour {kind} shown by command {code:3}")
}

impl Coverage {
    /// With the glass before and after the step, and the byte that the list's last 99 had.
    pub fn colour(&mut self, step: &Step, before: &Glass, after: &Glass, rows: u8, drawing: Option<u8>) {
        let (Subject::Command(code), Ok(_)) = (step.subject, &step.outcome) else {
            return;
        };
        let own = step.arguments.first().copied().filter(|_| COLOURED.contains(&code));
        if let Some(byte) = own {
            self.note(read_name(rows, kind(byte), code));
        }
        if let Some(byte) = own.or(drawing).filter(|_| SHOWING.contains(&code) && before != after) {
            self.note(shown_name(rows, kind(byte), code));
        }
    }
}
