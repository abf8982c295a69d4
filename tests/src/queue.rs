//! The queue: arriving, taking, and flow control.

use crate::mutants::{is, Mutant as M};
use crate::state::State;
use crate::used::beyond_every_area;

pub const RING: usize = 80;

#[derive(Clone, Debug, PartialEq, Eq)]
pub struct Queue {
    pub ring: Vec<u8>,
    pub place: usize,
    pub held: usize,
    pub mark: bool,
    pub lost: u16,
}

impl Queue {
    pub fn at_start() -> Queue {
        Queue { ring: vec![0; RING], place: 0, held: 0, mark: false, lost: 0 }
    }

    pub fn sound(&self) -> bool {
        self.place < RING && self.held <= RING
    }
}

/// The answer with its signal: 0, 254 or 255.
#[derive(Clone, Copy, Debug, PartialEq, Eq)]
pub struct Arrived {
    pub answer: u8,
    pub signal: u8,
}

#[derive(Clone, Copy, Debug, PartialEq, Eq)]
pub struct Taken {
    pub answer: u8,
    pub byte: u8,
    pub signal: u8,
}

/// `None` stands for a record of the wrong length.
fn records_refused(state: Option<&State>, queue: &Option<&mut Queue>) -> bool {
    let sound = if is(M::QueueCallsTakeAnyHeight) {
        State::sound_but_for_height
    } else if is(M::QueueCallsTakeAnyEdition) {
        State::sound_but_for_choices
    } else {
        State::sound
    };
    let state_good = state.is_some_and(|s| sound(s) && s.thresholds_fit());
    let queue_good = queue.as_ref().is_some_and(|q| q.sound());
    !(state_good && queue_good)
}

pub fn arrive(state: Option<&State>, queue: Option<&mut Queue>, byte: u8) -> Arrived {
    let held_to_an_area = is(M::ArriveHoldsUsedToAnArea) && state.is_some_and(beyond_every_area);
    if records_refused(state, &queue) || held_to_an_area {
        return Arrived { answer: 3, signal: 0 };
    }
    let (state, queue) = (state.unwrap(), queue.unwrap());
    if queue.held == RING || is(M::QueueFullAtSeventyNine) && queue.held == 79 {
        queue.lost = if is(M::LostCountSaturates) { queue.lost.saturating_add(1) } else { queue.lost.wrapping_add(1) };
        if is(M::FullQueueOverwrites) {
            queue.ring[queue.place] = byte;
        }
        return Arrived { answer: 7, signal: 0 };
    }
    let free_before = RING - queue.held;
    queue.ring[(queue.place + queue.held) % RING] = byte;
    queue.held += 1;
    if !state.flow {
        lower_silently(queue);
        return Arrived { answer: 0, signal: 0 };
    }
    let free = if is(M::FullLooksBeforeTheByte) { free_before } else { RING - queue.held };
    let full = state.full as usize;
    let reached = if is(M::FullNeedsLessRoom) { free < full } else { free <= full };
    if reached && (!queue.mark || is(M::FullSignalsEveryByte)) {
        queue.mark = true;
        return Arrived { answer: 0, signal: 254 };
    }
    Arrived { answer: 0, signal: 0 }
}

pub fn take(state: Option<&State>, queue: Option<&mut Queue>) -> Taken {
    let held_to_an_area = is(M::TakeHoldsUsedToAnArea) && state.is_some_and(beyond_every_area);
    if records_refused(state, &queue) || held_to_an_area {
        return Taken { answer: 3, byte: 0, signal: 0 };
    }
    let (state, queue) = (state.unwrap(), queue.unwrap());
    if queue.held == 0 {
        return Taken { answer: 6, byte: 0, signal: 0 };
    }
    let held_before = queue.held;
    let byte = queue.ring[queue.place];
    queue.place = (queue.place + 1) % RING;
    queue.held -= 1;
    if !state.flow {
        lower_silently(queue);
        return Taken { answer: 0, byte, signal: 0 };
    }
    let held = if is(M::EmptyLooksBeforeTheTake) { held_before } else { queue.held };
    let empty = state.empty as usize;
    let reached = if is(M::EmptyNeedsFewerHeld) { held < empty } else { held <= empty };
    if reached && (queue.mark || is(M::EmptySignalsWithoutMark)) {
        queue.mark = false;
        return Taken { answer: 0, byte, signal: 255 };
    }
    Taken { answer: 0, byte, signal: 0 }
}

fn lower_silently(queue: &mut Queue) {
    if !is(M::FlowOffKeepsMark) {
        queue.mark = false;
    }
}
