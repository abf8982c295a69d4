//! The book of the third demand, and what else must hold of every input.

use crate::book_colour::colour_holds;
use crate::book_editions::editions_hold;
use crate::book_missing::missing_holds;
use crate::book_times::times_hold;
use crate::book_used::used_holds;
use crate::files::Files;
use crate::footprint::Footprint;
use crate::glass::{Glass, WIDTH};
use crate::machine::{BarEvent, Step, Subject};
use crate::mutants::{is, Mutant as M};
use crate::state::{Bar, State};

/// One bar as the book knows it.
#[derive(Clone, Copy, Debug)]
struct Entry {
    side: u8,
    x1: usize,
    y1: usize,
    x2: usize,
    y2: usize,
    value: usize,
    sure: bool,
}

impl Entry {
    fn new(bar: &Bar) -> Entry {
        let (x1, y1, x2, y2) = (bar.x1 as usize, bar.y1 as usize, bar.x2 as usize, bar.y2 as usize);
        Entry { side: bar.side, x1, y1, x2, y2, value: bar.value as usize, sure: false }
    }

    fn length(&self) -> usize {
        if self.side == 0 || self.side == 2 {
            self.y2 - self.y1 + 1
        } else {
            self.x2 - self.x1 + 1
        }
    }

    /// The full picture of a value at one pixel of the rectangle.
    fn black(&self, value: usize, x: usize, y: usize) -> bool {
        match self.side {
            0 => y + value > self.y2,
            1 => x < self.x1 + value,
            2 => y < self.y1 + value,
            _ => x + value > self.x2,
        }
    }

    fn pixels(&self) -> impl Iterator<Item = (usize, usize)> {
        let (x1, x2) = (self.x1, self.x2);
        (self.y1..=self.y2).flat_map(move |y| (x1..=x2).map(move |x| (x, y)))
    }
}

/// What was there before the input.
#[derive(Clone)]
struct Before {
    glass: Glass,
    store: Vec<u8>,
    state: State,
}

pub struct Book {
    bars: [Option<Entry>; 16],
    before: Before,
    /// The byte of the list's last 99, for the counts.
    colour_byte: Option<u8>,
    /// How often a sure bar was looked at with a value over 0.
    pub sure_looks: usize,
}

impl Book {
    /// At the list's start nothing is sure.
    pub fn open(glass: &Glass, store: &[u8], state: &State) -> Book {
        Book {
            bars: std::array::from_fn(|n| state.bars[n].as_ref().map(Entry::new)),
            before: Before { glass: glass.clone(), store: store.to_vec(), state: state.clone() },
            colour_byte: None,
            sure_looks: 0,
        }
    }

    /// Which bars are sure now.
    pub fn sure(&self) -> [bool; 16] {
        self.bars.map(|entry| entry.is_some_and(|entry| entry.sure))
    }

    /// The glass as of the last input.
    pub fn glass(&self) -> &Glass {
        &self.before.glass
    }

    pub fn colour_byte(&self) -> Option<u8> {
        self.colour_byte
    }

    /// The state as of the last input.
    pub fn state(&self) -> &State {
        &self.before.state
    }

    /// The store as of the last input.
    pub fn store(&self) -> &[u8] {
        &self.before.store
    }

    /// One byte was consumed, or time passed, which is nothing to the bars; an error says what does not hold.
    pub fn input(&mut self, step: &Step, glass: &Glass, files: &Files, state: &State) -> Result<(), String> {
        let refused = if is(M::RefusedCharacterTouches) && step.outcome == Err(29) {
            Footprint::Whole
        } else {
            Footprint::Nothing
        };
        let touched = step.outcome.clone().unwrap_or(refused);
        let changed = changed(&self.before.glass, glass);
        if !changed.is_empty() {
            let cover = touched.cover(state.height as usize);
            if let Some((x, y)) = changed.iter().find(|&&(x, y)| !cover[y * WIDTH + x]) {
                return Err(format!("pixel {x} {y} changed outside the footprint of {:?}", step.subject));
            }
        }
        if step.outcome.is_err() {
            self.refusal_changes_nothing_else(step, files, state)?;
        }
        self.write_is_thrifty(step, &changed)?;
        let before = (&self.before.glass, &self.before.store[..], &self.before.state);
        let after = (glass, &files.raw[..], state);
        missing_holds(step, before, after, files)?;
        colour_holds(step, before, after)?;
        times_hold(step, before, after)?;
        editions_hold(step, before, after)?;
        used_holds(step, before, after)?;
        self.enter(step, &touched, state.height as usize);
        if step.subject == Subject::Command(99) {
            self.colour_byte = step.arguments.first().copied();
        }
        if !changed.is_empty() || step.bar.is_some() {
            self.sure_bars_are_whole(glass)?;
        }
        if state.sound() && state.thresholds_fit() {
            self.before.glass = glass.clone();
            self.before.state = state.clone();
        } else {
            return Err("the state after the input is not sound".into());
        }
        if self.before.store != files.raw {
            if Files::read(&files.raw).as_ref() != Some(files) {
                return Err("the raw store does not hold the files".into());
            }
            self.before.store.copy_from_slice(&files.raw);
        }
        Ok(())
    }

    /// No pixel, no byte of the store; of the state only the refusal and the end of what was under way.
    fn refusal_changes_nothing_else(&self, step: &Step, files: &Files, state: &State) -> Result<(), String> {
        if files.raw != self.before.store {
            return Err(format!("the refusal of {:?} changed the store", step.subject));
        }
        let mut expected = self.before.state.clone();
        expected.gathering = None;
        if let Subject::UploadBroken | Subject::UploadDropped = step.subject {
            expected.upload = None;
        }
        expected.refusals = expected.refusals.wrapping_add(1);
        expected.last_refusal = step.outcome.clone().unwrap_err();
        if *state != expected {
            return Err(format!("the refusal of {:?} changed more of the state", step.subject));
        }
        Ok(())
    }

    /// No pixel may change where the old and the new picture agree, unless zero was sent.
    fn write_is_thrifty(&self, step: &Step, changed: &[(usize, usize)]) -> Result<(), String> {
        let Some(BarEvent::Write { number, asked }) = step.bar else {
            return Ok(());
        };
        let entry = self.bars[number].ok_or("a write to a bar the book does not know")?;
        let new = (asked as usize).min(entry.length());
        if asked == 0 {
            return Ok(());
        }
        for &(x, y) in changed {
            if entry.black(entry.value, x, y) == entry.black(new, x, y) {
                return Err(format!("writing {asked} to bar {number} changed pixel {x} {y} without need"));
            }
        }
        Ok(())
    }

    fn enter(&mut self, step: &Step, touched: &Footprint, rows: usize) {
        let own = match step.bar {
            Some(BarEvent::SetUp { number, bar }) => {
                self.bars[number] = Some(Entry { value: 0, ..Entry::new(&bar) });
                number
            }
            Some(BarEvent::Write { number, asked }) => {
                let entry = self.bars[number].as_mut().expect("a known bar");
                entry.value = (asked as usize).min(entry.length());
                entry.sure |= asked == 0;
                number
            }
            None => 99,
        };
        if *touched == Footprint::Nothing || self.bars.iter().flatten().all(|entry| !entry.sure) {
            return;
        }
        let cover = touched.cover(rows);
        for (number, entry) in self.bars.iter_mut().enumerate() {
            if let Some(entry) = entry.as_mut().filter(|entry| entry.sure && number != own) {
                entry.sure = !entry.pixels().any(|(x, y)| cover[y * WIDTH + x]);
            }
        }
    }

    fn sure_bars_are_whole(&mut self, glass: &Glass) -> Result<(), String> {
        for (number, entry) in self.bars.iter().enumerate() {
            let Some(entry) = entry.as_ref().filter(|entry| entry.sure) else {
                continue;
            };
            self.sure_looks += (entry.value > 0) as usize;
            for (x, y) in entry.pixels() {
                if glass.get(x, y) != entry.black(entry.value, x, y) {
                    return Err(format!("sure bar {number} with {} is wrong at {x} {y}", entry.value));
                }
            }
        }
        Ok(())
    }
}

fn changed(before: &Glass, after: &Glass) -> Vec<(usize, usize)> {
    if before == after {
        return Vec::new();
    }
    let mut all = Vec::new();
    for y in 0..after.rows() {
        for x in 0..WIDTH {
            if before.get(x, y) != after.get(x, y) {
                all.push((x, y));
            }
        }
    }
    all
}
