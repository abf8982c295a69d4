//! What a piece and a time call ask of the memory lent to them: the answers 1 to 4, in order, and 3 for the used room.

use crate::directory::DIRECTORY;
use crate::files::{Files, STORE_LEAST, STORE_MOST};
use crate::glass::{Glass, HEIGHTS, LOW};
use crate::mutants::{is, Mutant as M};
use crate::state::{Lent, State, Upload};
use crate::used::{self, Asking};

pub fn store_fits(store: &[u8]) -> bool {
    (STORE_LEAST..=STORE_MOST).contains(&store.len())
}

/// For the wrong versions that look at the glass before they know its height.
pub fn no_glass_at_all(glass: &Glass) -> bool {
    HEIGHTS.iter().all(|&height| !glass.suits(height))
}

/// The files and the state of memory that holds to the rules; else the answer.
pub fn accepted<'a>(
    glass: &Glass,
    store: &[u8],
    state: Lent<'a>,
    asking: Asking,
) -> Result<(Files, &'a mut State), u8> {
    if let Some(answer) = wrong_order(glass, store, &state) {
        return Err(answer);
    }
    let height = state.known_height().or(unchecked_height(glass, &state)).ok_or(3)?;
    if is(M::StoreBeforeGlass) && !store_fits(store) {
        return Err(2);
    }
    if !glass.suits(height) && !(is(M::FeedTakesEitherGlass) && !no_glass_at_all(glass)) {
        return Err(1);
    }
    if is(M::UsedBeforeStore) && sum_differs(store, &state) {
        return Err(3);
    }
    if !store_fits(store) {
        return Err(2);
    }
    if is(M::DirectoryBeforeRecord) && Files::read(store).is_none() {
        return Err(4);
    }
    let Lent::State(state) = state else {
        return Err(3);
    };
    if is(M::RecordEditionAfterDirectory) && !state.edition_known() && Files::read(store).is_none() {
        return Err(4);
    }
    if !state.sound_but_for_height() || (!state.thresholds_fit() && !is(M::ThresholdsUncheckedInRecord)) {
        return Err(3);
    }
    if is(M::UsedBeforeDirectory) && used::differs_from_any(state, &store[..DIRECTORY]) {
        return Err(3);
    }
    let files = Files::read(store).ok_or(4)?;
    if is(M::UsedBeforeRunningUpload) && state.used as usize != files.used() {
        return Err(3);
    }
    if state.upload.is_some_and(|upload| impossible(&files, state, &upload)) {
        return Err(4);
    }
    if is(M::UsedMendedInsteadOfRefused) {
        state.used = files.used() as u16;
    }
    match used::refused(state, &files, asking) {
        Some(answer) => Err(answer),
        None => Ok((files, state)),
    }
}

/// By the directory's own sum, whatever the record says.
fn impossible(files: &Files, state: &State, upload: &Upload) -> bool {
    if is(M::RunningUploadRoomByTheUsedRoom) {
        let room = (files.raw.len() - DIRECTORY).saturating_sub(state.used as usize);
        let of_one_byte = Upload { size: 1, ..*upload };
        return files.upload_impossible(state.edition, &of_one_byte) || upload.size as usize > room;
    }
    files.upload_impossible(state.edition, upload)
}

/// For the wrong versions that look at the sum before they know that the store has a length for it.
fn sum_differs(store: &[u8], state: &Lent) -> bool {
    matches!(state, Lent::State(state) if used::differs_in(state, store))
}

/// The answer of a wrong version that looks at something else before the record's length and height.
fn wrong_order(glass: &Glass, store: &[u8], state: &Lent) -> Option<u8> {
    let wrong_length = matches!(state, Lent::WrongLength);
    let unknown_height = !wrong_length && state.known_height().is_none();
    if is(M::FeedGlassBeforeLength) && wrong_length && no_glass_at_all(glass) {
        return Some(1);
    }
    if is(M::FeedGlassBeforeHeight) && unknown_height && no_glass_at_all(glass) {
        return Some(1);
    }
    if is(M::FeedStoreBeforeLength) && wrong_length && !store_fits(store) {
        return Some(2);
    }
    if is(M::FeedStoreBeforeHeight) && unknown_height && !store_fits(store) {
        return Some(2);
    }
    let (unsound, unknown_edition) = match state {
        Lent::State(state) => (!state.sound() || !state.thresholds_fit(), !state.edition_known()),
        _ => (true, false),
    };
    let too_early = is(M::FeedAllOfTheRecordFirst) && unsound
        || is(M::RecordEditionBeforeGlass) && unknown_edition
        || is(M::UsedBeforeGlass) && sum_differs(store, state);
    too_early.then_some(3)
}

/// For the wrong versions that obey a record of any height, or of any that suits the glass.
fn unchecked_height(glass: &Glass, state: &Lent) -> Option<u8> {
    let Lent::State(state) = state else {
        return None;
    };
    let other_than_128 = is(M::RecordHeightOtherThan128Is64) && glass.suits(LOW);
    if other_than_128 {
        return Some(LOW);
    }
    (is(M::RecordHeightTiedToGlassOnly) && glass.suits(state.height)).then_some(state.height)
}
