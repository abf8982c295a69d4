//! The calls for a piece and for time, with their answers in order.

use crate::files::Files;
use crate::glass::Glass;
use crate::lending::accepted;
use crate::machine::{Machine, Step};
use crate::mutants::{is, Mutant as M};
use crate::state::{Lent, State};
use crate::used::Asking;

/// What a call hands back; a time call consumes nothing.
#[derive(Clone, Debug, PartialEq, Eq)]
pub struct Fed {
    pub answer: u8,
    pub consumed: usize,
    pub replies: Vec<u8>,
}

impl Fed {
    fn refused(answer: u8) -> Fed {
        Fed { answer, consumed: 0, replies: Vec::new() }
    }
}

/// Shown each step with the glass, the files and the state after it.
pub type Watch<'a> = dyn FnMut(&Step, &Glass, &Files, &State) + 'a;

/// Before each byte and each time so many reply bytes must be free.
const ROOM_LEAST: usize = 2;

/// Feeds a piece; `room` is the number of reply bytes free at the call.
pub fn feed(font: &[u8], glass: &mut Glass, store: &mut [u8], state: Lent, piece: &[u8], room: usize) -> Fed {
    feed_watched(font, glass, store, state, piece, room, &mut |_, _, _, _| {})
}

/// As `feed`, showing each byte's step.
pub fn feed_watched(
    font: &[u8],
    glass: &mut Glass,
    store: &mut [u8],
    state: Lent,
    piece: &[u8],
    room: usize,
    watch: &mut Watch,
) -> Fed {
    if is(M::EmptyPieceUnchecked) && piece.is_empty() {
        return Fed::refused(0);
    }
    let (mut files, state) = match accepted(glass, store, state, Asking::Piece { bytes: piece.len(), room }) {
        Ok(lent) => lent,
        Err(answer) => return Fed::refused(answer),
    };
    let used_before = state.used;
    let mut replies = Vec::new();
    let mut consumed = 0;
    let least = if is(M::OneReplyByteIsEnough) { 1 } else { ROOM_LEAST };
    let mut answer = 0;
    for &byte in piece {
        if room.saturating_sub(replies.len()) < least {
            answer = 5;
            break;
        }
        let step = Machine::new(font, glass, &mut files, state, &mut replies).byte(byte);
        consumed += 1;
        watch(&step, glass, &files, state);
    }
    if is(M::FiveWithoutByteLeft) && !piece.is_empty() && room.saturating_sub(replies.len()) < least {
        answer = 5;
    }
    if is(M::UsedIsOldAfterFive) && answer == 5 {
        state.used = used_before;
    }
    store.copy_from_slice(&files.raw);
    Fed { answer, consumed, replies }
}

/// Lets time pass: milliseconds since the last such call, any number. Glass and store are only read.
pub fn time(font: &[u8], glass: &Glass, store: &[u8], state: Lent, milliseconds: u32, room: usize) -> Fed {
    time_watched(font, glass, store, state, milliseconds, room, &mut |_, _, _, _| {})
}

/// As `time`, showing its step.
pub fn time_watched(
    font: &[u8],
    glass: &Glass,
    store: &[u8],
    state: Lent,
    milliseconds: u32,
    room: usize,
    watch: &mut Watch,
) -> Fed {
    if let Some(answer) = wrong_order(&state, room) {
        return Fed::refused(answer);
    }
    let (mut files, state) = match accepted(glass, store, state, Asking::Time { room }) {
        Ok(lent) => lent,
        Err(answer) => return Fed::refused(answer),
    };
    if room < ROOM_LEAST && !room_unasked(state, milliseconds, room) {
        return Fed::refused(5);
    }
    let mut glass = glass.clone();
    let mut replies = Vec::new();
    let step = Machine::new(font, &mut glass, &mut files, state, &mut replies).time(milliseconds);
    watch(&step, &glass, &files, state);
    Fed { answer: 0, consumed: 0, replies }
}

/// For the wrong versions that ask for room only where it matters to them.
fn room_unasked(state: &State, milliseconds: u32, room: usize) -> bool {
    is(M::TimeWantsRoomInAnUploadOnly) && state.upload.is_none()
        || is(M::TimeWantsRoomForItsRepliesOnly)
            && state.upload.is_none_or(|upload| (upload.waited as u32).saturating_add(milliseconds) < 2100)
        || is(M::TimeOfZeroWantsNoRoom) && milliseconds == 0
        || is(M::TimeWantsOneReplyByte) && room == 1
}

/// The answer of a wrong version that asks for room, or for an upload, before all else.
fn wrong_order(state: &Lent, room: usize) -> Option<u8> {
    if is(M::TimeRoomBeforeMemory) && room < ROOM_LEAST {
        return Some(5);
    }
    match state {
        Lent::State(state) if is(M::TimeUncheckedOutsideAnUpload) && state.upload.is_none() => Some(0),
        _ => None,
    }
}
