//! The call start, with its answers in order.

use crate::edition::{EDITIONS, OLDER};
use crate::files::Files;
use crate::glass::{Glass, HEIGHTS, LOW, WIDTH};
use crate::lending::{no_glass_at_all, store_fits};
use crate::mutants::{is, Mutant as M};
use crate::queue::Queue;
use crate::state::State;

/// What start is given to choose: a height and an edition, any numbers.
#[derive(Clone, Copy, Debug, PartialEq, Eq)]
pub struct Choice {
    pub height: u32,
    pub edition: u32,
}

impl Choice {
    pub fn of(height: u8, edition: u8) -> Choice {
        Choice { height: height as u32, edition: edition as u32 }
    }

    fn known_height(&self) -> Option<u8> {
        let given = if is(M::StartHeightCutToAByte) { self.height % 256 } else { self.height };
        let known = HEIGHTS.into_iter().find(|&known| known as u32 == given);
        if is(M::StartHeightOtherThan128Is64) {
            return known.or(Some(LOW));
        }
        if is(M::StartHeightTiedToGlassOnly) && self.height < 256 {
            return Some(self.height as u8);
        }
        known
    }

    fn known_edition(&self) -> Option<u8> {
        let given = if is(M::StartEditionCutToAByte) { self.edition % 256 } else { self.edition };
        let known = EDITIONS.into_iter().find(|&known| known as u32 == given);
        if is(M::StartEditionOtherThanNewerIsOlder) {
            return known.or(Some(OLDER));
        }
        known
    }
}

/// `None` stands for a record of the wrong length; what a record holds is not looked at. The store stays as it is.
pub fn start(
    given: Choice,
    glass: &mut Glass,
    store: &[u8],
    state: Option<&mut State>,
    queue: Option<&mut Queue>,
) -> u8 {
    let (known, edition) = (given.known_height(), given.known_edition());
    if let Some(answer) = wrong_order(known, edition, glass, store, state.is_some(), queue.is_some()) {
        return answer;
    }
    let (Some(height), Some(state), Some(queue)) = (known, state, queue) else {
        return 3;
    };
    if is(M::StartWantsKnownHeightInRecord) && !state.height_known() {
        return 3;
    }
    if is(M::StartStoreBeforeGlass) && !store_fits(store) {
        return 2;
    }
    if !glass.suits(height) && !(is(M::StartTakesEitherGlass) && !no_glass_at_all(glass)) {
        return 1;
    }
    if !store_fits(store) {
        return 2;
    }
    if is(M::StartWantsSoundRecords) && !(state.sound() && queue.sound()) {
        return 3;
    }
    if is(M::StartDirectoryBeforeEdition) && Files::read(store).is_none() {
        return 4;
    }
    let Some(edition) = edition else {
        return 3;
    };
    let Some(files) = Files::read(store) else {
        return 4;
    };
    if is(M::StartChecksTheUsedRoom) && state.used as usize != files.used() {
        return 3;
    }
    begun(height, edition, glass, &files, state, queue);
    0
}

fn begun(height: u8, edition: u8, glass: &mut Glass, files: &Files, state: &mut State, queue: &mut Queue) {
    crate::mutants::forget();
    if is(M::StartLeavesGlass) {
        // the old picture stays
    } else if is(M::StartLeavesRow64) {
        glass.fill(0, 0, WIDTH - 1, 63, false);
    } else {
        *glass = Glass::white(height);
    }
    let (old_height, old_edition, old_used) = (state.height, state.edition, state.used);
    *state = State::at_start(height, edition);
    state.used_at_start(files, old_used);
    if is(M::StartScrollRowStays64) {
        state.text.scroll_row = 64;
    }
    if is(M::StartKeepsRecordHeight) {
        state.height = old_height;
    }
    if is(M::StartKeepsRecordEdition) {
        state.edition = old_edition;
    }
    // the ring's bytes are content that only an arrival writes
    *queue = Queue { ring: std::mem::take(&mut queue.ring), ..Queue::at_start() };
}

/// The answer of a wrong version that looks at something else before the height and the lengths.
fn wrong_order(
    height: Option<u8>,
    edition: Option<u8>,
    glass: &Glass,
    store: &[u8],
    state_fits: bool,
    queue_fits: bool,
) -> Option<u8> {
    if is(M::StartGlassBeforeHeight) && height.is_none() && no_glass_at_all(glass) {
        return Some(1);
    }
    if is(M::StartStoreBeforeHeight) && height.is_none() && !store_fits(store) {
        return Some(2);
    }
    let unsuited = height.is_some_and(|height| !glass.suits(height));
    if is(M::StartGlassBeforeStateLength) && !state_fits && unsuited {
        return Some(1);
    }
    if is(M::StartGlassBeforeQueueLength) && !queue_fits && unsuited {
        return Some(1);
    }
    if is(M::StartStoreBeforeLengths) && !(state_fits && queue_fits) && !store_fits(store) {
        return Some(2);
    }
    (is(M::StartEditionBeforeGlass) && edition.is_none()).then_some(3)
}
