//! Every number of two bytes in every command that names a file.

use reference::board::Board;
use reference::builtin::built_in_font;
use reference::case_file::upload_begun;
use reference::directory::{Kind, Record, DIRECTORY};
use reference::edition::{number_sent, NEWER, OLDER};
use reference::generator_start::put_records;
use reference::glass::LOW;
use reference::state::Upload;

const FONTS: [u16; 4] = [0, 44, 300, 1023];
const BITMAPS: [u16; 4] = [1, 45, 300, 1022];

/// Good fonts and bitmaps of these numbers, of the older kind wherever it can hold them.
fn board(edition: u8) -> Board {
    let mut store = vec![0; 1024];
    let (font, bitmap) = ([4, 1, 65, 65, 0, 7, 2, 192], [8, 1, 129]);
    let kind = |number: u16, older: Kind, newer: Kind| if number < 45 { older } else { newer };
    let fonts = FONTS.map(|number| Record { kind: kind(number, Kind::Font, Kind::NewerFont), number, size: 8 });
    let bitmaps = BITMAPS.map(|number| Record { kind: kind(number, Kind::Bitmap, Kind::NewerBitmap), number, size: 3 });
    put_records(&mut store, &[fonts, bitmaps].concat());
    let files = [font.repeat(4), bitmap.repeat(4)].concat();
    store[DIRECTORY..DIRECTORY + files.len()].copy_from_slice(&files);
    Board::fresh(&built_in_font(), LOW, edition, store)
}

/// The refusal that one command gives, 0 for none; the command is the last thing the board has seen.
fn refusal(board: &mut Board, bytes: &[u8]) -> u8 {
    board.state.last_refusal = 0;
    assert_eq!(board.feed(bytes, 2 * bytes.len()).answer, 0);
    board.state.last_refusal
}

/// The numbers that an edition can send.
fn numbers(edition: u8) -> impl Iterator<Item = u16> {
    0..=if edition == NEWER { u16::MAX } else { 255 }
}

/// 19 above the range, else 22 unless it is there.
fn expected(number: u16, held: bool) -> u8 {
    match (number > 1023, held) {
        (true, _) => 19,
        (false, true) => 0,
        (false, false) => 22,
    }
}

#[test]
fn in_a_font_choice() {
    for edition in [OLDER, NEWER] {
        let mut board = board(edition);
        for number in numbers(edition) {
            let command = [vec![254, 49], number_sent(edition, number)].concat();
            let held = FONTS.contains(&number) || number == 1;
            assert_eq!(refusal(&mut board, &command), expected(number, held), "{number}");
            assert_eq!(board.state.text.font == number, held);
        }
    }
}

/// Refused at the number's last byte, or else waiting for its place.
#[test]
fn in_a_saved_bitmap() {
    for edition in [OLDER, NEWER] {
        let mut board = board(edition);
        for number in numbers(edition) {
            let held = BITMAPS.contains(&number);
            let command = [vec![254, 98], number_sent(edition, number)].concat();
            assert_eq!(refusal(&mut board, &command), expected(number, held), "{number}");
            assert_eq!(board.state.gathering.is_some(), held);
            assert_eq!(refusal(&mut board, if held { &[9, 9] } else { &[] }), 0);
            assert_eq!(board.state.gathering, None);
        }
    }
}

#[test]
fn in_a_delete() {
    for edition in [OLDER, NEWER] {
        let mut board = board(edition);
        let full = board.store.clone();
        for number in numbers(edition) {
            for (sort, held) in [(0, FONTS.contains(&number)), (1, BITMAPS.contains(&number))] {
                let command = [vec![254, 173, sort], number_sent(edition, number)].concat();
                assert_eq!(refusal(&mut board, &command), expected(number, held), "{number}");
                assert_eq!(board.store != full, held);
                board.store.clone_from(&full);
                board.recount();
            }
            let command = [vec![254, 173, 2], number_sent(edition, number)].concat();
            assert_eq!(refusal(&mut board, &command), 20, "{number}");
        }
    }
}

/// 19, 25, or an upload of just this number.
#[test]
fn in_an_upload() {
    for edition in [OLDER, NEWER] {
        let mut board = board(edition);
        for number in numbers(edition) {
            for (code, held) in [(36, FONTS.contains(&number) || number == 1), (94, BITMAPS.contains(&number))] {
                let expected = match expected(number, held) {
                    22 => 0,
                    0 => 25,
                    above => above,
                };
                assert_eq!(refusal(&mut board, &upload_begun(edition, code, number, 3)), expected, "{number}");
                let begun = board.state.upload.take();
                assert_eq!(begun.map(|Upload { number, .. }| number), (expected == 0).then_some(number));
                // 24 only where neither 19 nor 25 comes before it
                let of_size_zero = if expected == 0 { 24 } else { expected };
                assert_eq!(refusal(&mut board, &upload_begun(edition, code, number, 0)), of_size_zero, "{number}");
            }
        }
    }
}
