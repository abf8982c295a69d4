//! Directories of mixed kinds: what breaks them, how long they may be, and their raw bytes after uploads and deletes.

use crate::board::Board;
use crate::case_file::{upload, upload_begun};
use crate::checks::board_of;
use crate::directory::{Kind, Record, DIRECTORY, KINDS};
use crate::edition::{number_sent, EDITIONS, NEWER, OLDER};
use crate::files::Files;
use crate::generator_start::put_records;
use crate::glass::LOW;
use crate::start::Choice;
use crate::state::Sort;

use Kind as K;

fn record(kind: Kind, number: u16, size: u32) -> Record {
    Record { kind, number, size }
}

/// Whether a store of so many bytes with these records is good.
fn good_in(store: usize, records: &[Record]) -> bool {
    let mut store = vec![0; store];
    put_records(&mut store, records);
    Files::read(&store).is_some()
}

fn good(records: &[Record]) -> bool {
    good_in(1024, records)
}

/// Bitmaps 100, 101 and so on of one byte each: so many records of seven bytes and so many of four.
fn many(newer: usize, older: usize, newer_first: bool) -> Vec<u8> {
    let mut kinds = [vec![K::NewerBitmap; newer], vec![K::Bitmap; older]].concat();
    if !newer_first {
        kinds.reverse();
    }
    kinds.iter().zip(100..).flat_map(|(&kind, number)| record(kind, number, 1).bytes()).collect()
}

/// A store with these raw bytes at its front; `None` where they do not fit the directory.
fn with_bytes(bytes: &[u8]) -> Option<Vec<u8>> {
    let mut store = vec![0; 1024];
    store[..DIRECTORY].get_mut(..bytes.len())?.copy_from_slice(bytes);
    Some(store)
}

/// Every answer to this store: of start, of a piece and of a time call.
fn answers(store: &[u8]) -> [u8; 3] {
    let mut board = board_of(LOW, OLDER);
    board.store = store.to_vec();
    board.recount();
    let before = board.clone();
    let of_calls = [board.feed(&[], 0).answer, board.time(1, 2).answer];
    assert_eq!(board, before);
    [board.start(Choice::of(LOW, NEWER)), of_calls[0], of_calls[1]]
}

fn sent(board: &mut Board, bytes: &[u8]) -> Vec<u8> {
    let fed = board.feed(bytes, 2 * bytes.len());
    assert_eq!((fed.answer, fed.consumed), (0, bytes.len()));
    fed.replies
}

checks! {
    fn kinds_and_their_lengths() {
        assert_eq!(KINDS.map(|kind| (kind as u8, kind.record_bytes())), [(1, 4), (2, 4), (3, 7), (4, 7)]);
        for byte in 0..=255 {
            let known = (1..=4).contains(&byte);
            let mut store = vec![0; 1024];
            store[..7].copy_from_slice(&[byte, 9, 0, 3, 0, 0, 0]);
            // the older kinds read the third byte as a size
            if byte == 1 || byte == 2 {
                store[2..4].copy_from_slice(&[3, 0]);
            }
            assert_eq!(Files::read(&store).is_some(), known || byte == 0 && store[1] == 0, "kind {byte}");
        }
    }

    /// Number and size low byte first.
    fn newer_records_byte_by_byte() {
        let files = Files::read(&with_bytes(&[3, 44, 1, 8, 0, 0, 0, 4, 255, 3, 1, 1, 0, 0]).unwrap()).unwrap();
        let seen: Vec<_> = files.list.iter().map(|file| (file.kind, file.number, file.bytes.len())).collect();
        assert_eq!(seen, [(K::NewerFont, 300, 8), (K::NewerBitmap, 1023, 257)]);
        assert_eq!(record(K::NewerFont, 0x0201, 0x06050403).bytes(), [3, 1, 2, 3, 4, 5, 6]);
        assert_eq!(record(K::Bitmap, 7, 0x0201).bytes(), [2, 7, 1, 2]);
    }

    /// One number names one font and one bitmap, whichever kinds hold them.
    fn one_number_in_two_kinds() {
        for (one, other) in KINDS.into_iter().flat_map(|one| KINDS.map(|other| (one, other))) {
            let alike = one.sort() == other.sort();
            assert_eq!(good(&[record(one, 9, 1), record(other, 9, 1)]), !alike, "{one:?} and {other:?}");
            let apart = [record(one, 9, 1), record(K::Font, 30, 1), record(K::NewerBitmap, 31, 1), record(other, 9, 1)];
            assert_eq!(good(&apart), !alike, "{one:?} and {other:?} apart");
            assert!(good(&[record(one, 9, 1), record(other, 10, 1)]));
        }
        assert!(good(&[record(K::Font, 9, 1), record(K::NewerFont, 265, 1), record(K::NewerFont, 521, 1)]));
        assert!(good(&[record(K::Font, 9, 1), record(K::Bitmap, 9, 1)]));
        assert!(good(&[record(K::NewerFont, 9, 1), record(K::NewerBitmap, 9, 1)]));
        assert_eq!(answers(&with_bytes(&[1, 9, 1, 0, 3, 9, 0, 1, 0, 0, 0]).unwrap()), [4; 3]);
    }

    fn font_one_is_never_there() {
        for kind in KINDS {
            assert_eq!(good(&[record(kind, 1, 1)]), kind.sort() == Sort::Bitmap, "{kind:?}");
            assert_eq!(good(&[record(K::NewerBitmap, 5, 1), record(kind, 1, 1)]), kind.sort() == Sort::Bitmap);
        }
        assert!(good(&[record(K::NewerFont, 257, 1)]));
        assert_eq!(answers(&with_bytes(&[3, 1, 0, 1, 0, 0, 0]).unwrap()), [4; 3]);
    }

    fn numbers_above_the_range() {
        for kind in [K::NewerFont, K::NewerBitmap] {
            for number in [0, 2, 255, 256, 1022, 1023] {
                assert!(good(&[record(kind, number, 1)]), "{kind:?} {number}");
            }
            for number in [1024, 1025, 1280, 2047, 32768, 65535] {
                assert!(!good(&[record(kind, number, 1)]), "{kind:?} {number}");
                assert!(!good(&[record(K::Bitmap, 9, 1), record(kind, number, 1)]));
            }
        }
        assert_eq!(answers(&with_bytes(&[4, 0, 4, 1, 0, 0, 0]).unwrap()), [4; 3]);
    }

    /// Sums that no 32 bits hold are more than the area too.
    fn sizes_of_four_bytes() {
        for kind in [K::NewerFont, K::NewerBitmap] {
            for (size, expected) in [(0, false), (1, true), (767, true), (768, true), (769, false)] {
                assert_eq!(good(&[record(kind, 9, size)]), expected, "{size}");
            }
            for size in [65535, 65536, 65537, 65536 + 768, 1 << 24, (1 << 24) + 1, 1 << 31, u32::MAX - 767, u32::MAX] {
                assert!(!good(&[record(kind, 9, size)]), "{size}");
                assert!(!good(&[record(K::Bitmap, 8, 1), record(kind, 9, size), record(K::Font, 8, 1)]), "{size} between");
            }
        }
        let pair = |one, other| [record(K::NewerBitmap, 8, one), record(K::NewerFont, 8, other)];
        for (one, other) in [(u32::MAX, 1), (u32::MAX, 2), (1 << 31, 1 << 31), (u32::MAX, u32::MAX), (1, u32::MAX)] {
            assert!(!good(&pair(one, other)), "{one} and {other}");
        }
        assert!(good(&pair(767, 1)) && good(&pair(1, 767)) && !good(&pair(768, 1)) && !good(&pair(1, 768)));
        assert!(good_in(32768, &pair(32511, 1)) && !good_in(32768, &pair(32512, 1)));
        let many: Vec<Record> = (0..36).map(|k| record(K::NewerBitmap, k, u32::MAX)).collect();
        assert!(!good(&many));
    }

    /// Up to 255 bytes of records, in every mixture that comes to just so many.
    fn how_long_records_may_be() {
        let mut met = [0; 7];
        for (newer, older) in (0..=36).flat_map(|newer| (0..=64).map(move |older| (newer, older))) {
            let length = 7 * newer + 4 * older;
            if !(250..=256).contains(&length) {
                continue;
            }
            for newer_first in [true, false] {
                let store = with_bytes(&many(newer, older, newer_first)).unwrap();
                assert_eq!(Files::read(&store).is_some(), length <= 255, "{newer} of seven and {older} of four");
            }
            met[length - 250] += 1;
        }
        assert!(met.iter().all(|&count| count >= 8), "{met:?}");
        for (newer, older, answer) in [(36, 0, 0), (0, 63, 0), (1, 62, 0), (33, 6, 0), (0, 64, 4), (36, 1, 4), (4, 57, 4)] {
            assert_eq!(answers(&with_bytes(&many(newer, older, true)).unwrap()), [answer; 3], "{newer} and {older}");
        }
    }

    /// A kind in the last bytes whose record would reach beyond the directory, into files that would make it a good one.
    fn record_across_the_end() {
        for (newer, older) in [(36, 0), (0, 63), (0, 62), (35, 1), (1, 61), (28, 14)] {
            let bytes = many(newer, older, true);
            for kind in KINDS {
                let mut store = with_bytes(&bytes).unwrap();
                store[bytes.len()] = kind as u8;
                store[bytes.len() + 1..bytes.len() + 7].copy_from_slice(&[9, 1, 0, 0, 0, 0]);
                if kind.edition() == NEWER {
                    store[bytes.len() + 2..bytes.len() + 4].copy_from_slice(&[0, 1]);
                }
                let fits = bytes.len() + kind.record_bytes() <= 255;
                assert_eq!(Files::read(&store).is_some(), fits, "{kind:?} at {}", bytes.len());
            }
        }
    }

    fn bytes_after_the_last_record() {
        for records in [&[][..], &[record(K::NewerFont, 300, 1)], &[record(K::Font, 3, 1), record(K::NewerBitmap, 300, 1)]] {
            let length: usize = records.iter().map(|record| record.kind.record_bytes()).sum();
            for place in length + 1..DIRECTORY {
                let mut store = vec![0; 1024];
                put_records(&mut store, records);
                store[place] = 1;
                assert!(Files::read(&store).is_none(), "byte {place}");
            }
        }
    }

    /// The kind is the edition's, whatever the number and size; files lie end to end.
    fn raw_bytes_after_uploads() {
        let mut board = board_of(LOW, NEWER);
        sent(&mut board, &upload(NEWER, 94, 9, &[50, 60]));
        sent(&mut board, &upload(NEWER, 36, 300, &[70]));
        board.state.edition = OLDER;
        sent(&mut board, &upload(OLDER, 36, 9, &[80, 90, 100]));
        assert_eq!(board.store[..19], [4, 9, 0, 2, 0, 0, 0, 3, 44, 1, 1, 0, 0, 0, 1, 9, 3, 0, 0]);
        assert_eq!(board.store[256..263], [50, 60, 70, 80, 90, 100, 0]);
        let mut board = board_of(LOW, NEWER);
        sent(&mut board, &upload(NEWER, 94, 1023, &[5; 258]));
        assert_eq!(board.store[..8], [4, 255, 3, 2, 1, 0, 0, 0]);
        assert_eq!(board.store[256..515], [&[5; 258][..], &[0]].concat());
    }

    /// Over the record's own length, whichever edition deletes.
    fn raw_bytes_after_deletes() {
        let records = [record(K::Bitmap, 3, 2), record(K::NewerFont, 5, 3), record(K::Bitmap, 6, 1), record(K::NewerBitmap, 300, 2)];
        for edition in EDITIONS {
            let mut board = board_of(LOW, edition);
            put_records(&mut board.store, &records);
            board.state.used = 8;
            board.store[256..265].copy_from_slice(&[1, 2, 3, 4, 5, 6, 7, 8, 99]);
            let with_number = |sort: u8, number: u16| [vec![254, 173, sort], number_sent(edition, number)].concat();
            sent(&mut board, &with_number(0, 5));
            assert_eq!(board.store[..16], [2, 3, 2, 0, 2, 6, 1, 0, 4, 44, 1, 2, 0, 0, 0, 0]);
            assert_eq!(board.store[256..265], [1, 2, 6, 7, 8, 6, 7, 8, 99]);
            sent(&mut board, &with_number(1, 3));
            assert_eq!(board.store[..12], [2, 6, 1, 0, 4, 44, 1, 2, 0, 0, 0, 0]);
            assert_eq!(board.store[256..265], [6, 7, 8, 7, 8, 6, 7, 8, 99]);
            assert!(board.store[11..256].iter().all(|&byte| byte == 0));
            sent(&mut board, &with_number(1, 6));
            assert_eq!(board.store[..8], [4, 44, 1, 2, 0, 0, 0, 0]);
        }
    }

    /// From 255 bytes down: how much is free after a delete goes by the record that went.
    fn room_for_records_after_deletes() {
        let mut full = board_of(LOW, OLDER);
        full.store = with_bytes(&many(1, 62, true)).unwrap();
        full.state.used = 63;
        let begun = |board: &Board, edition: u8| {
            let mut board = board.clone();
            board.state.edition = edition;
            sent(&mut board, &upload_begun(edition, 36, 9, 1))
        };
        assert_eq!((begun(&full, OLDER), begun(&full, NEWER)), (vec![8], vec![8]));
        let mut without_four = full.clone();
        sent(&mut without_four, &[254, 173, 1, 101]);
        assert_eq!((begun(&without_four, OLDER), begun(&without_four, NEWER)), (vec![1], vec![8]));
        let mut without_seven = full.clone();
        sent(&mut without_seven, &[254, 173, 1, 100]);
        assert_eq!((begun(&without_seven, OLDER), begun(&without_seven, NEWER)), (vec![1], vec![1]));
    }

    /// Neither 63 nor 36 files are a limit of their own.
    fn records_are_counted_in_bytes() {
        let full = [(36, 0), (0, 63), (20, 28), (1, 62)].map(|mixture| (mixture, false, false));
        let for_four = [(35, 1), (29, 12), (3, 57), (1, 61)].map(|mixture| (mixture, true, false));
        let for_seven = [(35, 0), (0, 62), (30, 9), (20, 27)].map(|mixture| (mixture, true, true));
        for ((newer, older), small, wide) in full.into_iter().chain(for_four).chain(for_seven) {
            for (edition, expected) in [(OLDER, small), (NEWER, wide)] {
                let mut board = board_of(LOW, edition);
                board.store = with_bytes(&many(newer, older, false)).unwrap();
                board.state.used = (newer + older) as u16;
                let replies = sent(&mut board, &upload_begun(edition, 36, 9, 1));
                assert_eq!(replies, [if expected { 1 } else { 8 }], "{newer} of seven and {older} of four in {edition}");
                assert_eq!(board.state.last_refusal, if expected { 0 } else { 24 });
            }
        }
    }

    fn purge_clears_records_of_all_kinds() {
        for edition in EDITIONS {
            let mut board = board_of(LOW, edition);
            put_records(&mut board.store, &KINDS.map(|kind| record(kind, 40 + kind as u16, 1)));
            board.state.used = 4;
            board.store[256..260].copy_from_slice(&[1, 2, 3, 4]);
            sent(&mut board, &[254, 33, 89, 33]);
            assert_eq!(board.store[..256], [0; 256]);
            assert_eq!(board.store[256..260], [1, 2, 3, 4]);
        }
    }
}
