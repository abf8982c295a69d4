//! The marked examples, in the order of their table.

use crate::board::Board;
use crate::builtin::built_in_font;
use crate::case_file::upload;
use crate::edition::OLDER;
use crate::glass::{LOW, WIDTH};

fn after(stream: &[u8]) -> Board {
    let mut board = Board::fresh(&built_in_font(), LOW, OLDER, vec![0; 1024]);
    assert_eq!(board.feed(stream, 2 * stream.len()).answer, 0);
    board
}

/// Every black dot, row by row.
fn dots(board: &Board) -> Vec<(usize, usize)> {
    let mut all = Vec::new();
    for y in 0..board.glass.rows() {
        for x in 0..WIDTH {
            if board.glass.get(x, y) {
                all.push((x, y));
            }
        }
    }
    all
}

fn rectangle(x1: usize, y1: usize, x2: usize, y2: usize) -> Vec<(usize, usize)> {
    (y1..=y2).flat_map(|y| (x1..=x2).map(move |x| (x, y))).collect()
}

checks! {
    fn corner_pixels() {
        let bytes = after(&[254, 112, 0, 0, 254, 112, 239, 63]).glass.to_bytes();
        assert_eq!((bytes.len(), bytes[0], bytes[1919]), (1920, 128, 1));
        assert!(bytes[1..1919].iter().all(|&b| b == 0));
    }

    fn pixel_beyond() {
        let board = after(&[254, 112, 240, 0]);
        assert_eq!((dots(&board), board.state.refusals), (vec![], 0));
    }

    fn three_lines() {
        assert_eq!(dots(&after(&[254, 108, 0, 0, 2, 1])), [(0, 0), (1, 1), (2, 1)]);
        assert_eq!(dots(&after(&[254, 108, 2, 1, 0, 0])), [(0, 0), (1, 0), (2, 1)]);
        assert_eq!(dots(&after(&[254, 108, 7, 7, 7, 7])), [(7, 7)]);
    }

    fn three_bars() {
        assert_eq!(dots(&after(&[254, 103, 0, 0, 10, 10, 12, 19, 254, 105, 0, 255])), rectangle(10, 10, 12, 19));
        let of_side = |side| after(&[254, 103, 5, side, 0, 0, 9, 1, 254, 105, 5, 0, 254, 105, 5, 3]);
        assert_eq!(dots(&of_side(1)), rectangle(0, 0, 2, 1));
        assert_eq!(dots(&of_side(3)), rectangle(7, 0, 9, 1));
    }

    fn letter_t() {
        let mut stream = upload(OLDER, 36, 2, &[3, 5, 84, 84, 0, 7, 3, 0xE9, 0x24]);
        stream.extend([254, 49, 2, 84]);
        let mut t = rectangle(0, 0, 2, 0);
        t.extend(rectangle(1, 1, 1, 4));
        assert_eq!(dots(&after(&stream)), t);
    }

    fn five_by_four() {
        let mut saved = upload(OLDER, 94, 2, &[5, 4, 255, 255, 240]);
        saved.extend([254, 98, 2, 0, 0]);
        let in_line = [254, 100, 0, 0, 4, 3, 248, 248, 248, 248];
        assert_eq!(dots(&after(&saved)), rectangle(0, 0, 4, 3));
        assert_eq!(dots(&after(&in_line)), rectangle(0, 0, 4, 3));
        assert!(after(&in_line).state.inline.is_none());
        assert!(after(&in_line[..9]).state.inline.is_some());
    }

    fn flow() {
        let refused = after(&[254, 58, 40, 40]).state;
        assert_eq!((refused.last_refusal, refused.flow), (27, false));
        let taken = after(&[254, 58, 40, 39]).state;
        assert_eq!((taken.refusals, taken.flow, taken.full, taken.empty), (0, true, 40, 39));
    }

    fn room_of_the_least_store() {
        let mut board = Board::fresh(&built_in_font(), LOW, OLDER, vec![0; 1024]);
        assert_eq!(board.feed(&[254, 94, 1, 1, 3], 9).replies, [8]);
        assert_eq!(board.state.last_refusal, 24);
        assert_eq!(board.feed(&[254, 94, 1, 0, 3], 9).replies, [1]);
    }
}
