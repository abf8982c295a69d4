//! The directory's records: a byte of kind, then a number and a size whose widths the kind fixes.

use crate::edition::{low_first, number_bytes, number_sent, size_bytes, size_sent, NEWER, NUMBER_MOST, OLDER};
use crate::mutants::{is, Mutant as M};
use crate::state::Sort;

pub const DIRECTORY: usize = 256;
/// All records together are at most so many bytes, whatever their kinds.
pub const RECORDS_MOST: usize = 255;

/// What a record's first byte says: the sort of the file, and which edition wrote it.
#[derive(Clone, Copy, Debug, PartialEq, Eq)]
pub enum Kind {
    Font = 1,
    Bitmap = 2,
    NewerFont = 3,
    NewerBitmap = 4,
}

use Kind as K;

pub const KINDS: [Kind; 4] = [K::Font, K::Bitmap, K::NewerFont, K::NewerBitmap];

impl Kind {
    /// `None` for a byte that is no kind; 0, which ends the records, is none either.
    pub fn from_byte(byte: u8) -> Option<Kind> {
        KINDS.into_iter().find(|&kind| kind as u8 == byte)
    }

    /// The kind that an edition writes, whatever the file's number and size.
    pub fn written_by(edition: u8, sort: Sort) -> Kind {
        match (edition == NEWER, sort) {
            (false, Sort::Font) => K::Font,
            (false, Sort::Bitmap) => K::Bitmap,
            (true, Sort::Font) => K::NewerFont,
            (true, Sort::Bitmap) => K::NewerBitmap,
        }
    }

    pub fn sort(self) -> Sort {
        match self {
            K::Font | K::NewerFont => Sort::Font,
            K::Bitmap | K::NewerBitmap => Sort::Bitmap,
        }
    }

    /// The edition whose numbers and sizes its records hold.
    pub fn edition(self) -> u8 {
        match self {
            K::Font | K::Bitmap => OLDER,
            K::NewerFont | K::NewerBitmap => NEWER,
        }
    }

    pub fn record_bytes(self) -> usize {
        1 + number_bytes(self.edition()) + size_bytes(self.edition())
    }
}

#[derive(Clone, Copy, Debug, PartialEq, Eq)]
pub struct Record {
    pub kind: Kind,
    pub number: u16,
    pub size: u32,
}

impl Record {
    /// The record that begins here; `None` for an unknown kind, or where it is cut short.
    pub fn read(bytes: &[u8]) -> Option<Record> {
        let kind = Kind::from_byte(*bytes.first()?)?;
        let body = bytes.get(1..kind.record_bytes())?;
        let (number, size) = body.split_at(number_bytes(kind.edition()));
        Some(Record { kind, number: low_first(number) as u16, size: low_first(size) })
    }

    pub fn bytes(&self) -> Vec<u8> {
        let edition = self.kind.edition();
        let (mut number, mut size) = (number_sent(edition, self.number), size_sent(edition, self.size));
        if is(M::RecordNumberHighByteFirst) {
            number.reverse();
        }
        if is(M::RecordSizeHighByteFirst) {
            size.reverse();
        }
        [vec![self.kind as u8], number, size].concat()
    }

    /// What no record may be, whatever stands beside it.
    pub fn broken(&self) -> bool {
        let font_one = self.kind.sort() == Sort::Font && self.number == 1;
        let let_through = is(M::DirectoryFontOneByKindThree) && self.kind == K::NewerFont;
        let most = if is(M::DirectoryNumberUnlimited) {
            u16::MAX
        } else if is(M::DirectoryNumberTo1024) {
            NUMBER_MOST + 1
        } else if is(M::DirectoryNumberTo1022) {
            NUMBER_MOST - 1
        } else {
            NUMBER_MOST
        };
        self.size == 0 && !is(M::DirectorySizeZeroAllowed) || font_one && !let_through || self.number > most
    }
}

/// The records of a directory that holds to its rules, as far as they need no file area.
pub fn read_records(directory: &[u8]) -> Option<Vec<Record>> {
    let mut records: Vec<Record> = Vec::new();
    let mut at = 0;
    let most = if is(M::DirectoryTo256Bytes) {
        256
    } else if is(M::DirectoryTo254Bytes) {
        254
    } else {
        RECORDS_MOST
    };
    while at < DIRECTORY && directory[at] != 0 {
        let record = Record::read(&directory[at..])?;
        at += record.kind.record_bytes();
        let twice = records.iter().any(|other| same_file(other, &record));
        if at > most || record.broken() || twice {
            return None;
        }
        records.push(record);
    }
    if directory[at..].iter().any(|&byte| byte != 0) && !is(M::DirectoryTailUnchecked) {
        return None;
    }
    Some(records)
}

/// One number names one font and one bitmap, whichever kind holds it.
fn same_file(one: &Record, other: &Record) -> bool {
    let sorts = one.kind.sort() == other.kind.sort();
    let alike = if is(M::DirectoryTwiceByKindOnly) { one.kind == other.kind } else { sorts };
    alike && one.number == other.number
}
