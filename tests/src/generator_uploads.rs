//! Pieces of streams about files: uploads of every fate, uses, deletes, and numbers of any size.

use crate::case_file::{upload, upload_begun};
use crate::directory::{Kind, RECORDS_MOST};
use crate::edition::{number_sent, NEWER};
use crate::font::Bitmap;
use crate::generator::Maker;
use crate::generator_files::{bad_bitmap, bad_font, good_bitmap, good_font};
use crate::state::Sort;

/// About one byte, about the range, and those that are good ones in their low byte.
#[rustfmt::skip]
pub const NUMBERS: [u16; 20] = [
    0, 1, 2, 3, 254, 255, 256, 257, 258, 259, 511, 512, 1022, 1023, 1024, 1025, 1026, 2047, 65534, 65535,
];

impl Maker {
    fn sort_code(&mut self) -> (Sort, u8) {
        if self.rng.percent(50) {
            (Sort::Font, 36)
        } else {
            (Sort::Bitmap, 94)
        }
    }

    /// One of these, or in the newer edition one that takes two bytes.
    fn number(&mut self, of_one_byte: &[u16]) -> u16 {
        if self.edition() == NEWER && self.rng.percent(40) {
            return self.rng.pick(&[256, 257, 258, 259, 300, 511, 512, 1022, 1023]);
        }
        self.rng.pick(of_one_byte)
    }

    /// A command up to its file's number.
    fn naming(&self, code: u8, number: u16) -> Vec<u8> {
        [vec![254, code], number_sent(self.edition(), number)].concat()
    }

    fn deleting(&self, sort: Sort, number: u16) -> Vec<u8> {
        [vec![254, 173, (sort == Sort::Bitmap) as u8], number_sent(self.edition(), number)].concat()
    }

    fn refuses(&self, sort: Sort, number: u16, size: usize) -> bool {
        self.files().upload_refused(self.edition(), sort, number, size).is_some()
    }

    pub fn good_upload(&mut self) -> Vec<u8> {
        let (sort, code) = self.sort_code();
        let number = self.number(&[0, 1, 2, 3, 4, 5, 254, 255]);
        let file = match sort {
            Sort::Font => good_font(&mut self.rng, self.board.state.height),
            Sort::Bitmap => good_bitmap(&mut self.rng),
        };
        if self.refuses(sort, number, file.len()) {
            // its data would only be read as characters
            return upload_begun(self.edition(), code, number, file.len());
        }
        let mut bytes = upload(self.edition(), code, number, &file);
        if sort == Sort::Font && self.rng.percent(60) {
            bytes.extend(self.naming(49, number));
        }
        bytes
    }

    pub fn bad_upload(&mut self) -> Vec<u8> {
        let (sort, code) = self.sort_code();
        let number = self.number(&[2, 3, 6, 7]);
        let file = match sort {
            Sort::Font => bad_font(&mut self.rng, self.board.state.height),
            Sort::Bitmap => bad_bitmap(&mut self.rng),
        };
        if self.refuses(sort, number, file.len()) {
            return self.deleting(sort, number);
        }
        let mut bytes = upload(self.edition(), code, number, &file);
        match sort {
            Sort::Font => bytes.extend(self.naming(49, number)),
            Sort::Bitmap => {
                bytes.extend(self.naming(98, number));
                bytes.extend([self.column(), self.row()]);
            }
        }
        bytes
    }

    /// Some bytes confirmed, then another byte than 1.
    pub fn broken_upload(&mut self) -> Vec<u8> {
        let (_, code) = self.sort_code();
        let size = self.rng.between(1, 20);
        let number = self.number(&[10, 11, 12, 13, 14]);
        let mut bytes = upload_begun(self.edition(), code, number, size);
        for _ in 0..self.rng.below(size) {
            bytes.extend([self.rng.byte(), 1]);
        }
        bytes.extend([self.rng.byte(), self.rng.pick(&[0, 2, 8, 254, 255])]);
        bytes
    }

    pub fn refused_upload(&mut self) -> Vec<u8> {
        let files = self.files();
        let (_, code) = self.sort_code();
        let taken = files.list.first().map_or(1, |file| file.number);
        let huge = if self.edition() == NEWER { u32::MAX as usize } else { 65535 };
        let above = self.rng.pick(&[1024, 1025, 1024 + taken, 65535]);
        let (code, number, size) = match self.rng.below(8) {
            0 => (36, 1, self.rng.pick(&[0, 1, 9, 1000, 65535])),
            1 => (code, taken, self.rng.below(2)),
            2 => (code, 20, 0),
            3 => (code, taken, huge),
            4 => (code, 20, huge),
            // right in its two low bytes
            5 => (code, 20, if self.edition() == NEWER { 65536 + self.rng.below(9) } else { 0 }),
            6 => (code, above, self.rng.pick(&[0, 1, 40, huge])),
            _ => (code, 20, files.unused() + 1),
        };
        upload_begun(self.edition(), code, number, size)
    }

    /// Chooses fonts and paints bitmaps that are there, or are not.
    pub fn use_files(&mut self) -> Vec<u8> {
        let files = self.files();
        if files.list.is_empty() || self.rng.percent(10) {
            let (code, number) = (self.rng.pick(&[49, 98]), self.edge());
            return self.naming(code, number as u16);
        }
        let file = &files.list[self.rng.below(files.list.len())];
        match file.sort() {
            Sort::Font => self.naming(49, file.number),
            Sort::Bitmap => {
                let (mut x, mut y) = (self.column(), self.row());
                if let Some(bitmap) = Bitmap::open(&file.bytes).filter(|_| self.rng.percent(40)) {
                    // across the right and lower edge
                    x = (240 - bitmap.width.min(240) / 2).min(255) as u8;
                    let edge = self.above_the_edge(0) as usize;
                    y = (edge - bitmap.height.min(edge) / 2) as u8;
                }
                [self.naming(98, file.number), vec![x, y]].concat()
            }
        }
    }

    pub fn delete(&mut self) -> Vec<u8> {
        let files = self.files();
        if files.list.is_empty() || self.rng.percent(20) {
            let number = self.edge() as u16;
            return [vec![254, 173, self.rng.below(4) as u8], number_sent(self.edition(), number)].concat();
        }
        let file = &files.list[self.rng.below(files.list.len())];
        self.deleting(file.sort(), file.number)
    }

    /// Any number in any command that names a file, good ones in their low byte too.
    pub fn any_number(&mut self) -> Vec<u8> {
        let held = self.files().list.iter().map(|file| file.number).collect::<Vec<_>>();
        let known = if held.is_empty() { 2 } else { self.rng.pick(&held) };
        let any = self.rng.next() as u16;
        let near = [known.wrapping_add(256), known ^ 1024, known.swap_bytes(), any][self.rng.below(4)];
        let number = if self.rng.percent(70) { self.rng.pick(&NUMBERS) } else { near };
        match self.rng.below(6) {
            0 => self.naming(49, number),
            1 => self.naming(98, number),
            2 => [self.naming(98, number), vec![self.column(), self.row()]].concat(),
            3 => {
                let sort = self.rng.below(3) as u8;
                [vec![254, 173, sort], number_sent(self.edition(), number)].concat()
            }
            _ => {
                let (_, code) = self.sort_code();
                let size = self.rng.below(3);
                let mut bytes = upload_begun(self.edition(), code, number, size);
                // enough for it to end, if it begins
                bytes.extend([7, 1, 7, 1]);
                bytes
            }
        }
    }

    /// One-byte files until no record fits in, then one more of each sort.
    pub fn fill_directory(&mut self) -> Vec<u8> {
        let files = self.files();
        let record = Kind::written_by(self.edition(), Sort::Bitmap).record_bytes();
        let mut bytes = Vec::new();
        let mut held = files.record_bytes();
        for number in 30..=200 {
            if held + record <= RECORDS_MOST && files.find(Sort::Bitmap, number).is_none() {
                bytes.extend(upload(self.edition(), 94, number, &[number as u8]));
                held += record;
            }
        }
        for (code, number) in [(94, 250), (36, 250), (94, 30)] {
            bytes.extend(upload_begun(self.edition(), code, number, 1));
        }
        bytes
    }

    /// One file for all the room that is left, when that is not much.
    pub fn fill_area(&mut self) -> Vec<u8> {
        let unused = self.files().unused();
        let number = self.rng.between(21, 25) as u16;
        if unused == 0 || unused > 900 || self.refuses(Sort::Bitmap, number, unused) {
            return self.deleting(Sort::Bitmap, number);
        }
        let file: Vec<u8> = (0..unused).map(|_| self.rng.byte()).collect();
        let mut bytes = upload(self.edition(), 94, number, &file);
        bytes.extend(upload_begun(self.edition(), 94, 26, 1));
        bytes
    }
}
