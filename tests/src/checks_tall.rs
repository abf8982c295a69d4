//! What 128 rows change: the last byte, the purge, the fonts that may be used, the rows that move.

use crate::case_file::upload;
use crate::checks::{after, board};
use crate::edition::OLDER;
use crate::glass::{Glass, HEIGHTS, LOW, TALL};

/// A font of one black column: character 65 only.
fn column(rows: u8) -> Vec<u8> {
    let mut font = vec![1, rows, 65, 65, 0, 7, 1];
    font.extend(vec![255; (rows as usize).div_ceil(8)]);
    font
}

/// The last refusal after the font is chosen, 0 when it is taken.
fn choosing(height: u8, rows: u8, before: &[u8]) -> u8 {
    let stream = [before, &upload(OLDER, 36, 2, &column(rows)), &[254, 49, 2]].concat();
    after(height, &stream).state.last_refusal
}

checks! {
    fn corner_pixels() {
        let bytes = after(TALL, &[254, 112, 0, 0, 254, 112, 239, 127]).glass.to_bytes();
        assert_eq!((bytes.len(), bytes[0], bytes[3839]), (3840, 128, 1));
        assert!(bytes[1..3839].iter().all(|&b| b == 0));
        let beyond = after(TALL, &[254, 112, 0, 128, 254, 112, 240, 127, 254, 112, 0, 255]);
        assert_eq!((beyond.glass, beyond.state.refusals), (Glass::white(TALL), 0));
    }

    fn first_rows_of_both_are_alike() {
        let stream = [&[254, 103, 0, 0, 3, 3, 9, 63, 254, 105, 0, 50, 254, 114, 1, 0, 0, 30, 200][..], b"Ferry"].concat();
        let (low, tall) = (after(LOW, &stream).glass.to_bytes(), after(TALL, &stream).glass.to_bytes());
        assert_eq!(low, tall[..1920]);
        assert_ne!(tall[1920..], [0; 1920]);
    }

    fn purge_puts_the_scroll_row_to_the_height() {
        for height in HEIGHTS {
            let board = after(height, &[254, 50, 1, 2, 3, 4, 5, 254, 33, 89, 33]);
            let t = &board.state.text;
            assert_eq!((t.left, t.top, t.char_space, t.line_space, t.scroll_row), (0, 0, 0, 1, height));
            assert_eq!(board.state.height, height);
        }
    }

    fn highest_font_of_each_glass() {
        for (rows, low, tall) in [(1, 0, 0), (64, 0, 0), (65, 23, 0), (127, 23, 0), (128, 23, 0), (129, 23, 23), (255, 23, 23)] {
            assert_eq!((choosing(LOW, rows, &[]), choosing(TALL, rows, &[])), (low, tall), "{rows} rows");
        }
    }

    /// Neither the scroll row nor the text point has a say.
    fn font_height_goes_by_the_glass_alone() {
        for scroll_row in [0, 64, 128, 255] {
            let before = [254, 50, 0, 0, 0, 1, scroll_row, 254, 121, 0, 200];
            assert_eq!((choosing(LOW, 64, &before), choosing(LOW, 65, &before)), (0, 23));
            assert_eq!((choosing(TALL, 128, &before), choosing(TALL, 129, &before)), (0, 23));
        }
    }

    /// The store is the same: whether its font is malformed depends on the glass that it is lent with.
    fn same_store_on_both() {
        let stored = after(TALL, &upload(OLDER, 36, 2, &column(65))).store;
        for (height, refusal) in [(LOW, 23), (TALL, 0)] {
            for piece in [&[254u8, 49, 2][..], &[65], &[254, 71, 1, 1]] {
                let mut board = board(height);
                board.store = stored.clone();
                board.state.text.font = 2;
                board.recount();
                assert_eq!(board.feed(piece, 9).answer, 0);
                assert_eq!(board.state.last_refusal, refusal, "{height} {piece:?}");
            }
        }
    }

    fn character_as_high_as_the_glass() {
        for height in HEIGHTS {
            let choose = [&upload(OLDER, 36, 2, &column(height))[..], &[254, 49, 2]].concat();
            let mut board = after(height, &choose);
            board.feed(&[65, 254, 121, 5, 1, 65], 99);
            assert_eq!((board.state.refusals, board.state.last_refusal), (1, 29));
            assert!((0..height as usize).all(|y| board.glass.get(0, y) && !board.glass.get(5, y)));
        }
    }

    /// Every row moves up: those at the seam between the two halves too.
    fn scrolling_moves_all_rows() {
        let mut board = after(TALL, &[254, 112, 200, 63, 254, 112, 201, 64, 254, 112, 202, 127, 254, 112, 203, 72]);
        board.feed(&[254, 121, 239, 121, 32], 99);
        let black: Vec<(usize, usize)> =
            (0..128).flat_map(|y| (0..240).map(move |x| (x, y))).filter(|&(x, y)| board.glass.get(x, y)).collect();
        assert_eq!(black, [(200, 55), (201, 56), (203, 64), (202, 119)]);
    }

    /// No command changes the height, and a record of the tall glass stays sound.
    fn height_stays() {
        let settings = [254, 33, 89, 33, 254, 88, 254, 72, 254, 50, 0, 0, 0, 1, 64];
        let bar = [254, 103, 0, 0, 0, 64, 9, 127, 254, 105, 0, 255];
        for height in HEIGHTS {
            let board = after(height, &[&settings[..], &bar].concat());
            assert_eq!(board.state.height, height);
            assert!(board.state.sound());
        }
    }
}
