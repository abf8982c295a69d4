//! What a listing cannot show of bytes that the font lacks: fonts that are not to be had, the whole state, the book.

use crate::board::Board;
use crate::book::Book;
use crate::case_file::upload;
use crate::checks::{after, board};
use crate::edition::OLDER;
use crate::glass::{HEIGHTS, LOW, TALL};
use crate::missing::IGNORED;

/// Feeds one byte and wants this refusal and no other change.
fn refused(board: &Board, byte: u8, refusal: u8) {
    let mut after = board.clone();
    let fed = after.feed(&[byte], 2);
    assert_eq!((fed.answer, fed.consumed, fed.replies.len()), (0, 1, 0));
    let mut expected = board.clone();
    expected.state.refusals = board.state.refusals.wrapping_add(1);
    expected.state.last_refusal = refusal;
    assert_eq!(after, expected, "byte {byte} and {refusal}");
}

/// Feeds one byte and wants nothing changed.
fn nothing(board: &Board, byte: u8) {
    let mut after = board.clone();
    let fed = after.feed(&[byte], 2);
    assert_eq!((fed.answer, fed.consumed, fed.replies.len()), (0, 1, 0));
    assert_eq!(&after, board, "byte {byte}");
}

/// Every pixel of the box black, the rest as it was, and of the state only the point.
fn boxed(board: &Board, byte: u8, at: (usize, usize), size: (usize, usize), point: (u16, u16)) {
    let mut after = board.clone();
    assert_eq!(after.feed(&[byte], 2).answer, 0);
    let mut expected = board.clone();
    expected.glass.fill(at.0, at.1, at.0 + size.0 - 1, at.1 + size.1 - 1, true);
    (expected.state.text.x, expected.state.text.y) = point;
    assert_eq!(after, expected, "byte {byte}");
}

/// A font of character 65 only, five white columns wide; boxes are `nominal` by `rows`.
fn font(nominal: u8, rows: u8) -> Vec<u8> {
    let mut font = vec![nominal, rows, 65, 65, 0, 7, 5];
    font.extend(vec![0; (5 * rows as usize).div_ceil(8)]);
    font
}

/// With the font stored as number 6 and current, as only a lent record can have it when it is malformed.
fn with_font(height: u8, file: &[u8]) -> Board {
    let mut board = board(height);
    board.state.text.font = 6;
    board.store[..4].copy_from_slice(&[1, 6, file.len() as u8, (file.len() / 256) as u8]);
    board.store[256..256 + file.len()].copy_from_slice(file);
    board.state.used = file.len() as u16;
    board
}

/// Counts and a last refusal that must stay.
fn marked(mut board: Board) -> Board {
    (board.state.refusals, board.state.last_refusal) = (65535, 17);
    board
}

/// Whether bar 0 is sure after the bytes; the book must hold all the way.
fn sure_after(height: u8, bytes: &[u8]) -> bool {
    let mut board = board(height);
    let mut book = Book::open(&board.glass, &board.store, &board.state);
    let mut result = Ok(());
    board.feed_watched(bytes, 2 * bytes.len(), &mut |step, glass, files, state| {
        if result.is_ok() {
            result = book.input(step, glass, files, state);
        }
    });
    result.expect("the book holds");
    book.sure()[0]
}

/// Bar 0 from the left in columns 10 to 14 and ten rows from `top`, sure with the value 2; then the rest.
fn with_bar(height: u8, top: u8, rest: &[u8]) -> bool {
    let bar = [254, 103, 0, 1, 10, top, 14, top + 9, 254, 105, 0, 0, 254, 105, 0, 2];
    assert!(sure_after(height, &bar));
    sure_after(height, &[&bar, rest].concat())
}

/// The bar is still sure after a byte at this point.
fn stays_sure(height: u8, top: u8, x: u8, y: u8, byte: u8) -> bool {
    with_bar(height, top, &[254, 121, x, y, byte])
}

checks! {
    /// No font lacks a byte when there is none.
    fn no_such_font_comes_first() {
        for height in HEIGHTS {
            let mut board = board(height);
            board.state.text.font = 6;
            for byte in IGNORED.into_iter().chain([0, 9, 65, 200, 255]) {
                refused(&board, byte, 22);
                refused(&marked(board.clone()), byte, 22);
            }
            // a bitmap of that number is no font
            board.store[..4].copy_from_slice(&[2, 6, 1, 0]);
            board.state.used = 1;
            IGNORED.into_iter().for_each(|byte| refused(&board, byte, 22));
            // nor is there room
            (board.state.text.x, board.state.text.wrap) = (495, false);
            IGNORED.into_iter().for_each(|byte| refused(&board, byte, 22));
        }
    }

    fn malformed_font_comes_first() {
        for height in HEIGHTS {
            let good = font(3, 4);
            for (at, wrong) in [(0, 0), (0, 241), (1, 0), (1, height + 1), (2, 66), (4, 1), (6, 0), (6, 241)] {
                let mut bad = good.clone();
                bad[at] = wrong;
                let mut board = with_font(height, &bad);
                IGNORED.into_iter().chain([0, 65, 200]).for_each(|byte| refused(&board, byte, 23));
                (board.state.text.x, board.state.text.wrap) = (495, false);
                IGNORED.into_iter().for_each(|byte| refused(&marked(board.clone()), byte, 23));
            }
            let short = with_font(height, &good[..3]);
            IGNORED.into_iter().for_each(|byte| refused(&short, byte, 23));
            IGNORED.into_iter().for_each(|byte| nothing(&with_font(height, &good), byte));
        }
    }

    /// The same store: malformed on the low glass, a font without the three bytes on the tall one.
    fn font_too_high_for_the_low_glass() {
        for byte in IGNORED {
            refused(&with_font(LOW, &font(3, 65)), byte, 23);
            nothing(&with_font(TALL, &font(3, 65)), byte);
        }
        refused(&with_font(LOW, &font(3, 65)), 66, 23);
        boxed(&with_font(TALL, &font(3, 65)), 66, (0, 0), (3, 65), (3, 0));
    }

    /// Malformed only in a glyph of its own: what it lacks is refused all the same.
    fn font_checked_whole_for_what_it_lacks() {
        let bad = [4, 1, 65, 66, 0, 10, 2, 0, 11, 2, 192];
        for byte in IGNORED.into_iter().chain([64, 67, 255]) {
            refused(&with_font(LOW, &bad), byte, 23);
        }
    }

    fn ignored_bytes_change_nothing() {
        for height in HEIGHTS {
            for (x, y) in [(0, 0), (235, 0), (236, 0), (240, 57), (495, 255), (0, height as u16 - 6)] {
                for (wrap, scroll) in [(true, true), (true, false), (false, true)] {
                    let mut board = marked(after(height, b"Ferry"));
                    (board.state.text.x, board.state.text.y) = (x, y);
                    (board.state.text.wrap, board.state.text.scroll) = (wrap, scroll);
                    IGNORED.into_iter().for_each(|byte| nothing(&board, byte));
                }
            }
        }
    }

    /// Every byte but 254 that the built-in font lacks, from a glass with ink on it.
    fn every_box_of_the_built_in_font() {
        for height in HEIGHTS {
            let mut board = marked(after(height, &[254, 99, 0, 254, 120, 1, 12, 3, 30, 9]));
            (board.state.text.x, board.state.text.y) = (10, 5);
            for byte in (0..32).chain(127..=255).filter(|byte| *byte != 254) {
                if IGNORED.contains(&byte) {
                    nothing(&board, byte);
                } else {
                    boxed(&board, byte, (10, 5), (5, 7), (15, 5));
                }
            }
        }
    }

    fn point_after_a_box() {
        for height in HEIGHTS {
            let mut board = marked(with_font(height, &font(20, 3)));
            let text = &mut board.state.text;
            (text.left, text.top, text.char_space, text.line_space) = (4, 2, 255, 6);
            (text.x, text.y) = (220, 9);
            boxed(&board, 0, (220, 9), (20, 3), (495, 9));
            board.state.text.x = 221;
            boxed(&board, 0, (4, 18), (20, 3), (279, 18));
            board.state.text.x = 495;
            boxed(&board, 255, (4, 18), (20, 3), (279, 18));
            // the next line would pass the scroll row: to the top margin
            (board.state.text.scroll_row, board.state.text.scroll) = (20, false);
            boxed(&board, 66, (4, 2), (20, 3), (279, 2));
        }
    }

    fn box_without_room_is_refused() {
        for height in HEIGHTS {
            let mut board = marked(with_font(height, &font(20, 3)));
            board.state.text.y = height as u16 - 3;
            boxed(&board, 66, (0, height as usize - 3), (20, 3), (20, height as u16 - 3));
            board.state.text.y += 1;
            refused(&board, 66, 29);
            (board.state.text.x, board.state.text.y, board.state.text.wrap) = (221, 0, false);
            refused(&board, 66, 29);
            (board.state.text.wrap, board.state.text.left) = (true, 221);
            refused(&board, 66, 29);
            // it would scroll, and then pass the glass
            board.state.text.y = height as u16 - 3;
            board.glass.fill(0, 0, 99, 30, true);
            refused(&board, 66, 29);
        }
    }

    fn scrolled_box() {
        for height in HEIGHTS {
            let mut board = marked(after(height, &[254, 120, 1, 50, 0, 60, 9, 254, 121, 240, height - 7]));
            let mut expected = board.clone();
            expected.glass.scroll_up(8);
            expected.glass.fill(0, height as usize - 7, 4, height as usize - 1, true);
            (expected.state.text.x, expected.state.text.y) = (5, height as u16 - 7);
            board.feed(&[128], 2);
            assert_eq!(board, expected);
        }
    }

    /// One pixel of a bar is enough, and no pixel is none, on every side and corner.
    fn footprint_is_the_box() {
        for (height, top) in [(LOW, 20), (TALL, 20), (TALL, 60), (TALL, 110)] {
            let row = |from_top: i16| (top as i16 + from_top) as u8;
            for (x, y, sure) in [
                (5, row(0), true), (6, row(0), false), (15, row(0), true), (14, row(0), false),
                (10, row(-7), true), (10, row(-6), false), (10, row(9), false), (10, row(10), true),
                (6, row(-6), false), (5, row(-6), true), (6, row(-7), true),
                (14, row(-6), false), (15, row(-6), true), (6, row(9), false), (14, row(9), false), (15, row(9), true),
            ] {
                if y as usize + 7 <= height as usize {
                    assert_eq!(stays_sure(height, top, x, y, 200), sure, "{x} {y}");
                }
                assert!(stays_sure(height, top, x, y, 13), "{x} {y}");
            }
        }
    }

    /// By the nominal width, be it less or more than that of the glyphs.
    fn footprint_by_the_nominal_width() {
        for (nominal, beside) in [(2, 8), (5, 5), (9, 1)] {
            let choose = [&upload(OLDER, 36, 6, &font(nominal, 4))[..], &[254, 49, 6]].concat();
            for (x, sure) in [(beside, true), (beside + 1, false), (14, false), (15, true)] {
                let bytes = [&choose[..], &[254, 121, x, 20, 66]].concat();
                assert_eq!(with_bar(LOW, 20, &bytes), sure, "nominal {nominal} at {x}");
            }
        }
    }

    fn footprint_of_a_box_that_scrolls() {
        for height in HEIGHTS {
            let low = height - 7;
            assert!(!stays_sure(height, 0, 240, low, 200), "far off, and moved up");
            // a wrap without scrolling touches only the new line
            assert!(stays_sure(height, 20, 240, 3, 200));
            assert!(with_bar(height, 0, &[254, 82, 254, 50, 100, 50, 0, 1, height, 254, 121, 240, low, 200]));
            assert!(!with_bar(height, 0, &[254, 82, 254, 50, 6, 0, 0, 1, height, 254, 121, 240, low, 200]), "onto the bar");
        }
    }

    /// Ignored bytes where a letter would touch the bar or scroll; boxes that find no room.
    fn footprint_of_nothing() {
        for height in HEIGHTS {
            let low = height - 7;
            for byte in IGNORED {
                assert!(stays_sure(height, 0, 10, 0, byte));
                assert!(stays_sure(height, 0, 240, low, byte));
            }
            assert!(stays_sure(height, height - 10, 10, height - 6, 200), "no room below");
            assert!(with_bar(height, 0, &[254, 68, 254, 121, 236, 0, 200]));
            assert!(with_bar(height, 0, &[254, 50, 238, 0, 0, 1, height, 254, 121, 239, low, 200]));
        }
    }

    /// A box over what is black already changes no pixel, and still the bar is not sure; its own zero mends it.
    fn footprint_without_a_change() {
        let full = [254, 105, 0, 5, 254, 121, 10, 1, 200];
        assert!(!with_bar(LOW, 0, &full));
        assert!(with_bar(LOW, 0, &[&full[..], &[254, 105, 0, 0]].concat()));
    }

    /// Any byte at all keeps the record sound.
    fn state_stays_sound() {
        for byte in (0..=255).filter(|byte| *byte != 254) {
            let mut board = with_font(LOW, &font(240, 1));
            (board.state.text.char_space, board.state.text.line_space) = (255, 255);
            board.feed(&[byte; 4], 8);
            assert!(board.state.sound());
            assert_eq!((board.state.text.x, board.state.text.y), point_of_wide_boxes(byte), "{byte}");
        }
    }
}

/// Four letters of one row: each after the first scrolls the glass away and stays on row 0.
fn point_of_wide_boxes(byte: u8) -> (u16, u16) {
    match byte {
        8 | 10 | 13 => (0, 0),
        65 => (260, 0),
        _ => (495, 0),
    }
}
