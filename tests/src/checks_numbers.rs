//! Numbers about one byte and about the range, in every command that names a file and in the record.

use crate::board::Board;
use crate::case_file::{upload, upload_begun};
use crate::checks::board_of;
use crate::directory::{Kind, Record, DIRECTORY};
use crate::edition::{number_sent, EDITIONS, NEWER, OLDER};
use crate::generator_start::put_records;
use crate::glass::{HEIGHTS, LOW};
use crate::state::{Sort, Upload};

const FONT: [u8; 8] = [4, 1, 65, 65, 0, 7, 2, 192];
const BITMAP: [u8; 3] = [8, 1, 129];

/// With these files, each by kind and number.
fn holding(edition: u8, files: &[(Kind, u16)]) -> Board {
    let mut board = board_of(LOW, edition);
    let mut at = DIRECTORY;
    let mut records = Vec::new();
    for &(kind, number) in files {
        let file: &[u8] = if kind.sort() == Sort::Font { &FONT } else { &BITMAP };
        board.store[at..at + file.len()].copy_from_slice(file);
        at += file.len();
        records.push(Record { kind, number, size: file.len() as u32 });
    }
    put_records(&mut board.store, &records);
    board.state.used = (at - DIRECTORY) as u16;
    assert_eq!(board.feed(&[], 0).answer, 0);
    board
}

/// The last refusal, 0 where there was none, of one command on a copy.
fn refusal(board: &Board, bytes: &[u8]) -> u8 {
    let mut after = board.clone();
    assert_eq!(after.feed(bytes, 2 * bytes.len()).answer, 0);
    after.state.last_refusal
}

fn naming(edition: u8, code: u8, number: u16) -> Vec<u8> {
    [vec![254, code], number_sent(edition, number)].concat()
}

fn deleting(edition: u8, sort: u8, number: u16) -> Vec<u8> {
    [vec![254, 173, sort], number_sent(edition, number)].concat()
}

/// What 49, 98, 173 of both sorts, 36 and 94 refuse this number with, when no file is there.
fn of_nothing(number: u16) -> [u8; 6] {
    let board = board_of(LOW, NEWER);
    [
        refusal(&board, &naming(NEWER, 49, number)),
        refusal(&board, &naming(NEWER, 98, number)),
        refusal(&board, &deleting(NEWER, 0, number)),
        refusal(&board, &deleting(NEWER, 1, number)),
        refusal(&board, &upload_begun(NEWER, 36, number, 3)),
        refusal(&board, &upload_begun(NEWER, 94, number, 3)),
    ]
}

/// A record's upload of this number: the answers of a piece and of a time call.
fn of_an_upload(edition: u8, number: u16) -> (u8, u8) {
    let mut board = board_of(LOW, edition);
    board.state.upload = Some(Upload::new(Sort::Bitmap, number, 9));
    let mut other = board.clone();
    (board.feed(&[7], 2).answer, other.time(7, 2).answer)
}

checks! {
    /// 22 and no refusal up to 1,023, 19 above, with 25 for font 1 alone.
    fn range_of_numbers() {
        for number in [0, 2, 254, 255, 256, 257, 258, 511, 512, 768, 1022, 1023] {
            assert_eq!(of_nothing(number), [22, 22, 22, 22, 0, 0], "{number}");
        }
        assert_eq!(of_nothing(1), [0, 22, 22, 22, 25, 0]);
        for number in [1024, 1025, 1026, 1279, 1280, 2047, 2048, 32767, 32768, 65279, 65280, 65534, 65535] {
            assert_eq!(of_nothing(number), [19; 6], "{number}");
        }
    }

    /// 20 before 19 before 22.
    fn delete_order() {
        let board = board_of(LOW, NEWER);
        for sort in [2, 3, 128, 255] {
            for number in [0, 1, 1023, 1024, 65535] {
                assert_eq!(refusal(&board, &deleting(NEWER, sort, number)), 20);
            }
        }
        for edition in EDITIONS {
            assert_eq!(refusal(&board_of(LOW, edition), &deleting(edition, 2, 9)), 20);
            assert_eq!(refusal(&board_of(LOW, edition), &deleting(edition, 1, 9)), 22);
        }
    }

    /// 19 before 24, whatever the size; 25 before 24.
    fn upload_order() {
        let board = holding(NEWER, &[(Kind::NewerBitmap, 300), (Kind::Bitmap, 7)]);
        for size in [0, 1, 768, 769, 65536, u32::MAX as usize] {
            for code in [36, 94] {
                assert_eq!(refusal(&board, &upload_begun(NEWER, code, 1024, size)), 19, "{size}");
            }
            assert_eq!(refusal(&board, &upload_begun(NEWER, 36, 1, size)), 25);
            assert_eq!(refusal(&board, &upload_begun(NEWER, 94, 300, size)), 25);
            assert_eq!(refusal(&board, &upload_begun(NEWER, 94, 7, size)), 25);
        }
        assert_eq!(refusal(&board, &upload_begun(NEWER, 36, 300, 0)), 24);
    }

    /// Every refused upload replies 8, and only that.
    fn refused_uploads_reply_eight() {
        for (number, size) in [(1024, 3), (65535, 0), (1, 3), (2, 0), (2, 65536)] {
            let mut board = board_of(LOW, NEWER);
            assert_eq!(board.feed(&upload_begun(NEWER, 36, number, size), 20).replies, [8]);
            assert_eq!(board.state.upload, None);
        }
    }

    /// Each kind is found by each edition; a number of two bytes only by the newer.
    fn lookup_goes_over_both_kinds() {
        for kind in [Kind::Font, Kind::NewerFont] {
            for edition in EDITIONS {
                let board = holding(edition, &[(Kind::NewerBitmap, 9), (kind, 9)]);
                assert_eq!(refusal(&board, &naming(edition, 49, 9)), 0, "{kind:?} in {edition}");
                assert_eq!(refusal(&board, &deleting(edition, 0, 9)), 0);
                assert_eq!(refusal(&board, &upload_begun(edition, 36, 9, 1)), 25);
            }
        }
        for kind in [Kind::Bitmap, Kind::NewerBitmap] {
            for edition in EDITIONS {
                let board = holding(edition, &[(Kind::NewerFont, 9), (kind, 9)]);
                let show = [naming(edition, 98, 9), vec![0, 0]].concat();
                assert_eq!(refusal(&board, &show), 0, "{kind:?} in {edition}");
                assert_eq!(refusal(&board, &deleting(edition, 1, 9)), 0);
                assert_eq!(refusal(&board, &upload_begun(edition, 94, 9, 1)), 25);
            }
        }
        let above = [(Kind::NewerFont, 265), (Kind::NewerBitmap, 265)];
        let older = holding(OLDER, &above);
        assert_eq!(refusal(&older, &naming(OLDER, 49, 9)), 22);
        assert_eq!(refusal(&older, &naming(OLDER, 98, 9)), 22);
        assert_eq!(refusal(&older, &deleting(OLDER, 0, 9)), 22);
        assert_eq!(refusal(&older, &upload_begun(OLDER, 36, 9, 1)), 0);
        let newer = holding(NEWER, &above);
        assert_eq!(refusal(&newer, &naming(NEWER, 49, 265)), 0);
        assert_eq!(refusal(&newer, &naming(NEWER, 49, 9)), 22);
    }

    /// A current font is just looked up, however it came there: above 255 in the older edition, above the range in both.
    fn current_font_of_any_number() {
        for edition in EDITIONS {
            let held = holding(edition, &[(Kind::NewerFont, 300), (Kind::NewerFont, 1023)]);
            for number in [0, 2, 44, 255, 256, 299, 300, 301, 1023, 1024, 1324, 65535] {
                let mut board = held.clone();
                board.state.text.font = number;
                assert!(board.state.sound());
                let expected = if number == 300 || number == 1023 { 0 } else { 22 };
                for piece in [&[65u8][..], &[254, 71, 1, 1]] {
                    assert_eq!(refusal(&board, piece), expected, "font {number} in {edition}");
                }
                // a piece that asks no font is not refused for it
                assert_eq!(board.feed(&[254, 88], 4).answer, 0);
            }
        }
    }

    /// By the whole number: another font of the same low byte stays current.
    fn deleted_font_by_its_whole_number() {
        let held = holding(NEWER, &[(Kind::Font, 44), (Kind::NewerFont, 300)]);
        for (current, gone, then) in [(300, 44, 300), (44, 300, 44), (300, 300, 1), (44, 44, 1)] {
            let mut board = held.clone();
            board.state.text.font = current;
            board.feed(&deleting(NEWER, 0, gone), 9);
            assert_eq!(board.state.text.font, then);
        }
        // the older edition can delete 44 alone, also while 300 is current
        let mut board = holding(OLDER, &[(Kind::Font, 44), (Kind::NewerFont, 300)]);
        board.state.text.font = 300;
        board.feed(&deleting(OLDER, 0, 44), 9);
        assert_eq!(board.state.text.font, 300);
        assert_eq!(refusal(&board, b"A"), 0);
    }

    /// What its command cannot name, or what would get 19.
    fn number_of_an_upload_in_the_record() {
        for number in [0, 1, 2, 254, 255] {
            assert_eq!((of_an_upload(OLDER, number), of_an_upload(NEWER, number)), ((0, 0), (0, 0)), "{number}");
        }
        for number in [256, 257, 1022, 1023] {
            assert_eq!((of_an_upload(OLDER, number), of_an_upload(NEWER, number)), ((4, 4), (0, 0)), "{number}");
        }
        for number in [1024, 1025, 1279, 65535] {
            assert_eq!((of_an_upload(OLDER, number), of_an_upload(NEWER, number)), ((4, 4), (4, 4)), "{number}");
        }
    }

    /// It is 4 after everything that is 3, and arriving and taking do not mind.
    fn number_of_an_upload_comes_last() {
        let mut board = board_of(LOW, OLDER);
        board.state.upload = Some(Upload::new(Sort::Font, 1024, 9));
        assert_eq!((board.feed(&[7], 2).answer, board.arrive(7).answer, board.take().answer), (4, 0, 0));
        board.state.text.x = 496;
        assert_eq!((board.feed(&[7], 2).answer, board.time(7, 2).answer), (3, 3));
    }

    /// The record's edition alone says which kind an upload under way will get, and whether its record has room.
    fn upload_goes_on_in_the_records_edition() {
        for (edition, record) in [(OLDER, vec![2, 9, 2, 0]), (NEWER, vec![4, 9, 0, 2, 0, 0, 0])] {
            let mut board = board_of(LOW, 3 - edition);
            board.feed(&upload_begun(3 - edition, 94, 9, 2), 9);
            board.feed(&[7, 1], 9);
            board.state.edition = edition;
            board.feed(&[8, 1], 9);
            assert_eq!(board.store[..record.len() + 1], [&record[..], &[0]].concat());
            assert_eq!(board.store[256..258], [7, 8]);
        }
        let files: Vec<(Kind, u16)> = (0..62).map(|number| (Kind::Bitmap, 100 + number)).collect();
        let mut board = holding(OLDER, &[&files[..], &[(Kind::Bitmap, 99)]].concat());
        for (edition, answer) in [(OLDER, 4), (NEWER, 4)] {
            board.state.edition = edition;
            board.state.upload = Some(Upload::new(Sort::Font, 9, 1));
            assert_eq!(board.feed(&[7], 2).answer, answer, "252 bytes of records");
        }
        let mut board = holding(OLDER, &[&files[1..], &[(Kind::NewerBitmap, 99)]].concat());
        for (edition, answer) in [(OLDER, 0), (NEWER, 4)] {
            board.state.edition = edition;
            board.state.upload = Some(Upload::new(Sort::Font, 9, 1));
            assert_eq!(board.feed(&[7], 2).answer, answer, "251 bytes of records");
        }
    }

    /// Upload, choice, use and delete of numbers of two bytes, on both glasses.
    fn whole_life_of_a_number() {
        for height in HEIGHTS {
            for number in [0, 2, 255, 256, 257, 1023] {
                let mut board = board_of(height, NEWER);
                let stream = [upload(NEWER, 36, number, &FONT), upload(NEWER, 94, number, &BITMAP)].concat();
                board.feed(&stream, 99);
                board.feed(&[naming(NEWER, 49, number), b"A".to_vec()].concat(), 9);
                board.feed(&[naming(NEWER, 98, number), vec![0, 9]].concat(), 9);
                assert_eq!((board.state.refusals, board.state.text.font), (0, number));
                assert!(board.glass.get(0, 0) && board.glass.get(1, 0) && board.glass.get(0, 9) && board.glass.get(7, 9));
                board.feed(&[deleting(NEWER, 0, number), deleting(NEWER, 1, number)].concat(), 9);
                assert_eq!((board.state.refusals, board.state.text.font), (0, 1));
                assert_eq!(board.store[..DIRECTORY], [0; DIRECTORY]);
            }
        }
    }
}
