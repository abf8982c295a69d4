//! Every byte as a colour: black unless it is 0, in each of the three commands that read one, and kept as a colour.

use crate::board::Board;
use crate::checks::board;
use crate::colour::COLOURED;
use crate::glass::{HEIGHTS, LOW, WIDTH};
use crate::state::{Gathering, State};

/// Just started but for the glass and the drawing colour, both black or both white.
fn on_ground(height: u8, ground: bool) -> Board {
    let mut board = board(height);
    board.glass.fill(0, 0, WIDTH - 1, height as usize - 1, ground);
    board.state.black = ground;
    board
}

/// Feeds the bytes and wants the boxes, each by its corners, in this colour, this change of the state, and no other.
fn drawn(board: &Board, bytes: &[u8], boxes: &[[usize; 4]], black: bool, change: impl Fn(&mut State)) {
    let mut expected = board.clone();
    boxes.iter().for_each(|&[x1, y1, x2, y2]| expected.glass.fill(x1, y1, x2, y2, black));
    change(&mut expected.state);
    let mut after = board.clone();
    let fed = after.feed(bytes, 2 * bytes.len());
    assert_eq!((fed.answer, fed.consumed, fed.replies.len()), (0, bytes.len(), 0));
    assert!(after == expected, "{bytes:?}");
}

/// Runs something for every byte on either ground, with what the byte stands for.
fn every_byte(height: u8, run: impl Fn(&Board, u8, bool)) {
    for ground in [false, true] {
        let board = on_ground(height, ground);
        (0..=255).for_each(|byte| run(&board, byte, byte != 0));
    }
}

/// The command with this colour; a frame and a solid in rows `top` to `top + 3`.
fn coloured(code: u8, byte: u8, top: u8) -> Vec<u8> {
    match code {
        99 => vec![254, 99, byte],
        _ => vec![254, code, byte, 20, top, 29, top + 3],
    }
}

checks! {
    /// Seen in the state, then by a pixel and by a line with its next end.
    fn every_byte_as_the_drawing_colour() {
        for height in HEIGHTS {
            let (low, row) = (height - 1, height as usize - 1);
            every_byte(height, |board, byte, black| {
                drawn(board, &[254, 99, byte], &[], black, |s| s.black = black);
                drawn(board, &[254, 99, byte, 254, 112, 7, low], &[[7, row, 7, row]], black, |s| s.black = black);
                let lines = [254, 99, byte, 254, 108, 3, 60, 9, 60, 254, 101, 9, low];
                let end = |s: &mut State| (s.black, s.line_x, s.line_y) = (black, 9, low);
                drawn(board, &lines, &[[3, 60, 9, 60], [9, 60, 9, row]], black, end);
            });
        }
    }

    fn every_byte_as_the_colour_of_a_frame() {
        for height in HEIGHTS {
            let (top, low) = (height - 4, height as usize - 1);
            let sides = [[20, low - 3, 29, low - 3], [20, low, 29, low], [20, low - 3, 20, low], [29, low - 3, 29, low]];
            every_byte(height, |board, byte, black| {
                drawn(board, &coloured(114, byte, top), &sides, black, |_| {});
            });
        }
    }

    fn every_byte_as_the_colour_of_a_solid() {
        for height in HEIGHTS {
            let (top, low) = (height - 4, height as usize - 1);
            every_byte(height, |board, byte, black| {
                drawn(board, &coloured(120, byte, top), &[[20, low - 3, 29, low]], black, |_| {});
            });
        }
    }

    /// A colour is kept and not its byte: after any black all is as after 1.
    fn byte_is_not_kept() {
        for code in COLOURED {
            let after = |byte: u8| {
                let mut board = on_ground(LOW, false);
                board.feed(&coloured(code, byte, 10), 99);
                board
            };
            let one = after(1);
            assert!((2..=255).all(|byte| after(byte) == one), "command {code}");
            assert!(after(0) != one, "command {code}");
        }
    }

    /// Before the colour, behind it and everywhere else; 254 may begin a piece and be a colour.
    fn cut_at_the_colour() {
        for code in COLOURED {
            for byte in [0, 1, 2, 128, 254, 255] {
                let stream = [&coloured(code, byte, 10)[..], &[254, 112, 0, 0]].concat();
                let begin = on_ground(LOW, byte == 0);
                let mut whole = begin.clone();
                whole.feed(&stream, 99);
                for cut in 0..=stream.len() {
                    let mut pieces = begin.clone();
                    pieces.feed(&stream[..cut], 99);
                    pieces.feed(&stream[cut..], 99);
                    assert!(pieces == whole, "command {code} with {byte} cut at {cut}");
                }
            }
        }
    }

    /// A colour that has come before its corners waits as a byte.
    fn gathered_colour() {
        for code in [114, 120] {
            for byte in 0..=255 {
                let ground = byte == 0;
                let mut board = on_ground(LOW, ground);
                board.feed(&[254, code, byte], 99);
                assert_eq!(board.state.gathering, Some(Gathering { bytes: vec![code, byte] }));
                assert_eq!(board.state.black, ground);
                board.feed(&[5, 5, 5, 5], 99);
                assert!(board.glass.get(5, 5) != ground, "command {code} with {byte}");
            }
        }
    }

    /// Corners out of order are 18 whatever the colour, and with good ones none is wrong.
    fn no_colour_is_refused() {
        for byte in 0..=255 {
            let mut board = on_ground(LOW, byte == 0);
            let before = board.clone();
            board.feed(&[254, 114, byte, 9, 0, 8, 9, 254, 120, byte, 0, 9, 9, 8], 99);
            assert_eq!((board.state.refusals, board.state.last_refusal), (2, 18), "{byte}");
            assert!(board.glass == before.glass && board.state.black == before.state.black);
            board.feed(&[254, 99, byte, 254, 114, byte, 8, 0, 9, 9, 254, 120, byte, 0, 8, 9, 9], 99);
            assert_eq!(board.state.refusals, 2, "{byte}");
        }
    }

    /// Bytes in line are read bit by bit, whatever the drawing colour.
    fn data_is_no_colour() {
        for byte in 0..=255 {
            let mut board = on_ground(LOW, byte == 0);
            let mut expected = board.glass.clone();
            board.feed(&[254, 100, 0, 0, 7, 0, byte], 99);
            (0..8).for_each(|bit| expected.set(bit, 0, byte >> (7 - bit) & 1 == 1));
            assert!(board.glass == expected, "{byte}");
        }
    }
}
