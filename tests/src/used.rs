//! The used room: the sum of the files' sizes, kept in the record. It changes where a file comes or goes; a piece or a
//! time call that finds it other than the directory's own sum is refused.

use crate::directory::{read_records, Record, DIRECTORY};
use crate::edition::{NEWER, OLDER};
use crate::files::{File, Files, STORE_MOST};
use crate::mutants::{is, Mutant as M};
use crate::state::{Sort, State, Upload};

/// What can happen to an upload.
#[derive(Clone, Copy, Debug, PartialEq, Eq)]
pub enum Moment {
    Begun,
    Data,
    Confirmed,
    Ended,
    Broken,
    Dropped,
}

impl State {
    /// Start finds the files that are there.
    pub fn used_at_start(&mut self, files: &Files, old: u16) {
        self.used = files.list.iter().filter(|file| found_by_start(file)).map(|file| file.bytes.len() as u16).sum();
        if is(M::StartKeepsTheUsedRoom) {
            self.used = old;
        }
    }

    /// An upload adds its size at its end, and nothing before or without it.
    pub fn used_by_upload(&mut self, moment: Moment, upload: &Upload) {
        self.used += wrongly_added(moment, upload).unwrap_or(match moment {
            Moment::Ended => upload.size,
            _ => 0,
        });
    }

    /// A deleted file takes its own size with it, whatever the files that are left.
    pub fn used_after_delete(&mut self, gone: &File, left: &Files) {
        if is(M::UsedStaysAtADelete)
            || is(M::UsedStaysAtAFontsDelete) && gone.sort() == Sort::Font
            || is(M::UsedStaysAtABitmapsDelete) && gone.sort() == Sort::Bitmap
            || is(M::UsedStaysAtANewerKindsDelete) && gone.kind.edition() == NEWER
        {
            return;
        }
        let (first, last) = (left.list.first().unwrap_or(gone), left.list.last().unwrap_or(gone));
        self.used -= match () {
            () if is(M::UsedLosesTheFirstFilesSize) => first.bytes.len(),
            () if is(M::UsedLosesTheLastFilesSize) => last.bytes.len(),
            () if is(M::UsedLosesTheLowByteOnly) => gone.bytes.len() % 256,
            () => gone.bytes.len(),
        } as u16;
    }

    pub fn used_after_purge(&mut self) {
        if !is(M::UsedKeptAtAPurge) {
            self.used = 0;
        }
    }
}

/// Who asks whether the sum is true: a piece of so many bytes or a time call, with so much reply room.
#[derive(Clone, Copy, Debug, PartialEq, Eq)]
pub enum Asking {
    Piece { bytes: usize, room: usize },
    Time { room: usize },
}

/// The answer where the kept sum is not the directory's own: both calls ask, an empty piece too, whatever is under way.
pub fn refused(state: &State, files: &Files, asking: Asking) -> Option<u8> {
    if !differs(state, files) || unasked(state, asking) {
        return None;
    }
    match asking {
        Asking::Piece { bytes: 1.., room: 0..2 } if is(M::UsedAfterFiveInAPiece) => Some(5),
        Asking::Time { room: 0..2 } if is(M::UsedAfterFiveInATimeCall) => Some(5),
        _ if is(M::UsedDifferingIsFour) => Some(4),
        _ => Some(3),
    }
}

fn differs(state: &State, files: &Files) -> bool {
    let (kept, mut own) = (state.used as usize, files.used());
    if is(M::UsedComparedWithStoredBytesToo) {
        own += state.upload.map_or(0, |upload| upload.stored as usize);
    }
    match () {
        () if is(M::UsedLowByteComparedOnly) => kept % 256 != own % 256,
        () if is(M::UsedHighByteComparedOnly) => kept / 256 != own / 256,
        () if is(M::UsedMayBeMore) => kept < own,
        () if is(M::UsedMayBeLess) => kept > own,
        () if is(M::UsedOfZeroIsUnknown) => kept != own && kept != 0,
        () if is(M::UsedOf65535IsUnknown) => kept != own && kept != 65535,
        () => kept != own,
    }
}

/// Only for the wrong versions: whether this call does not ask.
fn unasked(state: &State, asking: Asking) -> bool {
    let piece = matches!(asking, Asking::Piece { .. });
    let under_way = state.gathering.is_some() || state.inline.is_some() || state.upload.is_some();
    is(M::UsedUncheckedInAPiece) && piece
        || is(M::UsedUncheckedInATimeCall) && !piece
        || is(M::UsedUncheckedInAnEmptyPiece) && matches!(asking, Asking::Piece { bytes: 0, .. })
        || is(M::UsedUncheckedInATimeCallOutsideAnUpload) && !piece && state.upload.is_none()
        || is(M::UsedCheckedWhenIdleOnly) && under_way
        || is(M::UsedUncheckedInTheOlder) && state.edition == OLDER
        || is(M::UsedUncheckedInTheNewer) && state.edition == NEWER
        || is(M::UsedUncheckedInACommand) && state.gathering.is_some()
        || is(M::UsedUncheckedInDataInLine) && state.inline.is_some()
        || is(M::UsedUncheckedInAnUpload) && state.upload.is_some()
        || is(M::UsedUncheckedBeforeAConfirmation) && state.upload.is_some_and(|upload| upload.echoed.is_some())
}

/// Only for the wrong versions: another addition of an upload than the right one.
fn wrongly_added(moment: Moment, upload: &Upload) -> Option<u16> {
    let last = upload.stored + 1 == upload.size;
    match moment {
        Moment::Begun if is(M::UsedGrowsAtAnUploadsStart) => Some(upload.size),
        Moment::Data if is(M::UsedGrowsAtTheLastData) && last => Some(upload.size),
        Moment::Confirmed | Moment::Ended if is(M::UsedGrowsByEachConfirmedByte) => Some(1),
        Moment::Ended if is(M::UsedGrowsAtAnUploadsStart) || is(M::UsedGrowsAtTheLastData) => Some(0),
        Moment::Ended if is(M::UsedStaysAtAnUploadsEnd) => Some(0),
        Moment::Ended if is(M::UsedGrowsByTheLowByteOnly) => Some(upload.size % 256),
        Moment::Ended if is(M::UsedGrowsByOneMore) => Some(upload.size + 1),
        Moment::Broken if is(M::UsedKeepsABrokenUploadsBytes) => Some(upload.stored),
        Moment::Broken if is(M::UsedKeepsABrokenUploadsSize) => Some(upload.size),
        Moment::Dropped if is(M::UsedKeepsADroppedUploadsBytes) => Some(upload.stored),
        Moment::Dropped if is(M::UsedKeepsADroppedUploadsSize) => Some(upload.size),
        _ => None,
    }
}

/// Every file, but for the wrong versions.
fn found_by_start(file: &File) -> bool {
    let newer = file.kind.edition() == NEWER;
    !(is(M::StartFindsNothingUsed)
        || is(M::StartFindsTheOlderKindsOnly) && newer
        || is(M::StartFindsTheNewerKindsOnly) && !newer
        || is(M::StartFindsFontsOnly) && file.sort() == Sort::Bitmap)
}

/// For the wrong versions that ask too early: whether the sum differs from that of a store of any length.
pub fn differs_in(state: &State, store: &[u8]) -> bool {
    let records = store.get(..DIRECTORY).and_then(read_records);
    records.is_some_and(|records| sum(&records) != state.used as u64)
}

/// The same for a directory that may break its rules: the records up to the first byte that is no kind.
pub fn differs_from_any(state: &State, directory: &[u8]) -> bool {
    let mut records = Vec::new();
    let mut left = directory;
    while let Some(record) = Record::read(left) {
        left = &left[record.kind.record_bytes()..];
        records.push(record);
    }
    sum(&records) != state.used as u64
}

fn sum(records: &[Record]) -> u64 {
    records.iter().map(|record| record.size as u64).sum()
}

/// For the wrong versions that hold the sum to what any store can hold.
pub fn beyond_every_area(state: &State) -> bool {
    state.used as usize > STORE_MOST - DIRECTORY
}
