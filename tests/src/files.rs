//! The store: its raw bytes, and beside them the list of files they hold.

use crate::directory::{read_records, Kind, Record, DIRECTORY, RECORDS_MOST};
use crate::edition::{nameable_most, NEWER, NUMBER_MOST, OLDER};
use crate::mutants::{is, Mutant as M};
use crate::state::{Sort, Upload};

pub const STORE_LEAST: usize = 1024;
pub const STORE_MOST: usize = 32768;

#[derive(Clone, Debug, PartialEq, Eq)]
pub struct File {
    pub kind: Kind,
    pub number: u16,
    pub bytes: Vec<u8>,
}

impl File {
    pub fn sort(&self) -> Sort {
        self.kind.sort()
    }

    fn is_named(&self, sort: Sort, number: u16) -> bool {
        self.sort() == sort && self.number == number
    }
}

#[derive(Clone, Debug, PartialEq, Eq)]
pub struct Files {
    pub raw: Vec<u8>,
    pub list: Vec<File>,
}

impl Files {
    /// Reads the directory; `None` when it breaks a rule.
    pub fn read(raw: &[u8]) -> Option<Files> {
        let records = read_records(&raw[..DIRECTORY])?;
        let mut list = Vec::new();
        let mut start = DIRECTORY;
        for Record { kind, number, size } in records {
            let size = if is(M::DirectorySizeLowBytesOnly) { size % 65536 } else { size } as usize;
            if size > raw.len() - start {
                return None;
            }
            list.push(File { kind, number, bytes: raw[start..start + size].to_vec() });
            start += size;
        }
        Some(Files { raw: raw.to_vec(), list })
    }

    /// By sort and number, over both editions' kinds.
    pub fn find(&self, sort: Sort, number: u16) -> Option<&File> {
        self.list.iter().find(|file| file.is_named(sort, number))
    }

    pub fn used(&self) -> usize {
        self.list.iter().map(|file| file.bytes.len()).sum()
    }

    pub fn unused(&self) -> usize {
        self.raw.len() - DIRECTORY - self.used()
    }

    /// All records together.
    pub fn record_bytes(&self) -> usize {
        self.list.iter().map(|file| file.kind.record_bytes()).sum()
    }

    /// Why an edition's upload may not begin: 19, 25, 24.
    pub fn upload_refused(&self, edition: u8, sort: Sort, number: u16, size: usize) -> Option<u8> {
        let no_room = self.no_room(Kind::written_by(edition, sort), size);
        if is(M::UploadRoomBeforeRange) && no_room && number > NUMBER_MOST {
            return Some(24);
        }
        let most = if is(M::UploadNumberTo1022) {
            NUMBER_MOST - 1
        } else if is(M::UploadNumberTo1024) {
            NUMBER_MOST + 1
        } else {
            NUMBER_MOST
        };
        if number > most && !is(M::UploadNumberUnlimited) {
            return Some(19);
        }
        if is(M::UploadRoomBeforeNumber) && no_room {
            return Some(24);
        }
        if self.in_use(edition, sort, number) {
            return Some(25);
        }
        no_room.then_some(24)
    }

    /// Font 1 always is.
    fn in_use(&self, edition: u8, sort: Sort, number: u16) -> bool {
        let allowed = is(M::UploadFontOneAllowed) || is(M::UploadFontOneAllowedInTheNewer) && edition == NEWER;
        let built_in = match sort {
            Sort::Font => number == 1 && !allowed,
            Sort::Bitmap => number == 1 && is(M::UploadBitmapOneInUse),
        };
        if is(M::UploadNumberSharedBySorts) {
            return built_in || self.list.iter().any(|file| file.number == number);
        }
        if is(M::UploadNumberFreeInOtherKind) {
            let kind = Kind::written_by(edition, sort);
            return built_in || self.list.iter().any(|file| file.kind == kind && file.number == number);
        }
        built_in || self.find(sort, number).is_some()
    }

    /// Size 0, records that would pass 255 bytes, or more than the unused room.
    fn no_room(&self, kind: Kind, size: usize) -> bool {
        let most = if is(M::UploadRecordsTo256Bytes) {
            256
        } else if is(M::UploadRecordsTo254Bytes) {
            254
        } else {
            RECORDS_MOST
        };
        let record = if is(M::UploadRecordCountedAsFour) { 4 } else { kind.record_bytes() };
        let full = if is(M::UploadCounts63FilesOnly) {
            self.list.len() >= 63
        } else if is(M::UploadCounts36FilesInTheNewer) && kind.edition() == NEWER {
            self.list.len() >= 36
        } else {
            self.record_bytes() + record > most
        };
        let mut room = self.unused();
        if is(M::UploadRoomOneShort) {
            room = room.saturating_sub(1);
        }
        if is(M::UploadRoomAfterOldEnd) {
            room = room.min(self.raw.len() - DIRECTORY - crate::mutants::highest_end().min(self.raw.len() - DIRECTORY));
        }
        let size = if is(M::UploadSizeLowBytesOnly) { size % 65536 } else { size };
        size == 0 || full || size > room
    }

    /// Whether an upload found in a record could not be under way with this directory.
    pub fn upload_impossible(&self, edition: u8, upload: &Upload) -> bool {
        let most = if is(M::RunningUploadNumberUnlimited) { u16::MAX } else { nameable_most(edition) };
        let refused = self.upload_refused(edition, upload.sort, upload.number, upload.size as usize);
        let unchecked = is(M::RunningUploadUnchecked) || is(M::RunningUploadRangeUnchecked) && refused == Some(19);
        upload.number > most || refused.is_some() && !unchecked
    }

    /// A confirmed byte goes to the next free place.
    pub fn keep(&mut self, upload: &Upload, byte: u8) {
        let at = DIRECTORY + self.used() + upload.stored as usize;
        self.raw[at] = byte;
    }

    /// The record comes with the last confirmation, in the kind of the edition that is running then.
    pub fn finish(&mut self, edition: u8, upload: &Upload) {
        let start = DIRECTORY + self.used();
        let bytes = self.raw[start..start + upload.size as usize].to_vec();
        let narrow = is(M::KindByNumber) && upload.number <= 255;
        let edition = if narrow {
            OLDER
        } else if is(M::KindAlwaysNewer) {
            NEWER
        } else {
            edition
        };
        let kind = Kind::written_by(edition, upload.sort);
        self.list.push(File { kind, number: upload.number, bytes });
        crate::mutants::note_end(self.used());
        self.write_directory();
    }

    /// What lies behind closes up; old copies past the new end are left there. `None` where there is no such file.
    pub fn delete(&mut self, sort: Sort, number: u16) -> Option<File> {
        let place = self.list.iter().position(|file| file.is_named(sort, number))?;
        let old_end = DIRECTORY + self.used();
        let gone =
            if is(M::DeleteMovesLastFileIntoTheGap) { self.list.swap_remove(place) } else { self.list.remove(place) };
        let mut at = DIRECTORY;
        for file in &self.list {
            for &byte in &file.bytes {
                self.raw[at] = byte;
                at += 1;
            }
        }
        if is(M::DeleteClearsTheTail) {
            self.raw[at..old_end].fill(0);
        }
        if is(M::DeleteClosesOverFourBytes) {
            self.close_over(place, 4);
        } else if is(M::DeleteClosesOverSevenBytes) {
            self.close_over(place, 7);
        } else {
            self.write_directory();
        }
        Some(gone)
    }

    /// For the wrong versions that close a gap of one length whatever the record's was; the file is gone from the list.
    fn close_over(&mut self, place: usize, gap: usize) {
        let at: usize = self.list[..place].iter().map(|file| file.kind.record_bytes()).sum();
        self.raw.copy_within(at + gap..DIRECTORY, at);
        self.raw[DIRECTORY - gap..DIRECTORY].fill(0);
    }

    pub fn purge(&mut self) {
        self.list.retain(|file| is(M::PurgeLeavesNewerKinds) && file.kind.edition() == NEWER);
        if is(M::PurgeClearsTheFileArea) {
            self.raw.fill(0);
        }
        self.write_directory();
    }

    fn write_directory(&mut self) {
        let mut directory = Vec::new();
        for file in &self.list {
            let record = Record { kind: file.kind, number: file.number, size: file.bytes.len() as u32 };
            directory.extend(record.bytes());
        }
        directory.resize(DIRECTORY, 0);
        self.raw[..DIRECTORY].copy_from_slice(&directory);
    }
}
