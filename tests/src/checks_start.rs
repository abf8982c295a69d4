//! Start: its answers in order, and what it leaves, for both heights.

use crate::board::Board;
use crate::checks::board;
use crate::edition::OLDER;
use crate::glass::{glass_bytes, Glass, HEIGHTS, LOW, TALL};
use crate::queue::Queue;
use crate::start::{start, Choice};
use crate::state::{Bar, Inline, Sort, State, Upload};

/// Editions that there are not, some of them right in their low byte.
pub const UNKNOWN_EDITIONS: [u32; 10] = [0, 3, 4, 64, 255, 256, 257, 258, 1 << 31, u32::MAX];

/// Heights that no glass has, some of them right in their low byte.
#[rustfmt::skip]
pub const UNKNOWN: [u32; 22] = [
    0, 1, 32, 63, 65, 100, 127, 129, 192, 255, 256, 320, 384, 1920, 3840, 65536 + 64, 65536 + 128, 1 << 31, (1 << 24) + 64,
    u32::MAX - 127, u32::MAX - 63, u32::MAX,
];

fn older(height: u32) -> Choice {
    Choice { height, edition: OLDER as u32 }
}

/// Starts with both records and wants this refusal, with nothing changed.
fn refused(board: &Board, height: u32, answer: u8) {
    let mut after = board.clone();
    assert_eq!(after.start(older(height)), answer, "height {height}");
    assert_eq!(&after, board, "a refused start changes nothing");
}

/// The answer without the state record, the queue record, or both.
fn short_of_records(board: &Board, height: u32) -> [u8; 3] {
    let mut b = board.clone();
    let answers = [
        start(older(height), &mut b.glass, &b.store, None, Some(&mut b.queue)),
        start(older(height), &mut b.glass, &b.store, Some(&mut b.state), None),
        start(older(height), &mut b.glass, &b.store, None, None),
    ];
    assert_eq!(&b, board, "a refused start changes nothing");
    answers
}

checks! {
    fn heights_that_no_glass_has() {
        for own in HEIGHTS {
            for height in UNKNOWN {
                refused(&board(own), height, 3);
            }
        }
        // nor when the glass has just so many rows
        for height in [0, 1, 63, 65, 127, 129, 255] {
            let mut bad = board(LOW);
            bad.glass = Glass::from_bytes(&vec![7; glass_bytes(height)]);
            refused(&bad, height as u32, 3);
        }
    }

    fn glass_of_another_length() {
        for (height, other) in [(LOW, TALL), (TALL, LOW)] {
            let right = glass_bytes(height);
            for bytes in [0, 1, right - 30, right - 1, right + 1, right + 30, glass_bytes(other), 5760] {
                let mut bad = board(height);
                bad.glass = Glass::from_bytes(&vec![255; bytes]);
                refused(&bad, height as u32, 1);
            }
        }
    }

    fn unknown_height_comes_first() {
        for height in UNKNOWN {
            let mut bad = board(TALL);
            bad.store = vec![9; 1024];
            refused(&bad, height, 3);
            bad.store = vec![0; 1023];
            refused(&bad, height, 3);
            bad.glass = Glass::from_bytes(&[0; 1919]);
            refused(&bad, height, 3);
            bad.store = vec![0; 1024];
            refused(&bad, height, 3);
        }
    }

    fn length_of_a_record_comes_first() {
        for height in HEIGHTS {
            let mut bad = board(height);
            assert_eq!(short_of_records(&bad, height as u32), [3; 3]);
            bad.store = vec![9; 1024];
            assert_eq!(short_of_records(&bad, height as u32), [3; 3]);
            bad.store = vec![0; 32769];
            assert_eq!(short_of_records(&bad, height as u32), [3; 3]);
            bad.glass = Glass::from_bytes(&vec![0; glass_bytes(height) - 1]);
            assert_eq!(short_of_records(&bad, height as u32), [3; 3]);
            bad.store = vec![0; 1024];
            assert_eq!(short_of_records(&bad, height as u32), [3; 3]);
        }
    }

    fn glass_then_store_then_directory() {
        for (height, other) in [(LOW, TALL), (TALL, LOW)] {
            let mut bad = board(height);
            bad.glass = Glass::from_bytes(&vec![255; glass_bytes(height)]);
            bad.store[0] = 9;
            refused(&bad, height as u32, 4);
            bad.store = vec![9; 1023];
            refused(&bad, height as u32, 2);
            bad.glass = Glass::from_bytes(&vec![255; glass_bytes(other)]);
            refused(&bad, height as u32, 1);
            bad.store = vec![0; 1024];
            refused(&bad, height as u32, 1);
        }
    }

    /// Start looks at lengths and at the directory, never at what the records hold.
    fn start_from_any_records() {
        for (height, held) in [(LOW, LOW), (LOW, TALL), (TALL, LOW), (TALL, TALL), (LOW, 0), (TALL, 255)] {
            let mut board = board(height);
            board.glass = Glass::from_bytes(&vec![170; glass_bytes(height)]);
            board.state.height = held;
            board.state.text.x = 9999;
            board.state.full = 200;
            board.state.serial = Some((1, 2));
            (board.state.refusals, board.state.used) = (5, 40000);
            board.state.bars[3] = Some(Bar { side: 9, x1: 9, y1: 9, x2: 1, y2: 1, value: 200 });
            board.state.inline = Some(Inline { x1: 9, y1: 9, x2: 1, y2: 1, come: 0 });
            board.state.upload = Some(Upload { sort: Sort::Font, number: 1, size: 9999, stored: 9999, echoed: None, waited: 0 });
            board.queue = Queue { place: 200, held: 99, lost: 7, mark: true, ..board.queue };
            board.store[..4].copy_from_slice(&[2, 1, 9, 0]);
            board.store[300] = 77;
            let store = board.store.clone();
            assert_eq!(board.start(older(height as u32)), 0);
            assert_eq!(board.glass, Glass::white(height));
            assert_eq!(board.state, State { used: 9, ..State::at_start(height, OLDER) });
            assert_eq!((board.queue.held, board.queue.place, board.queue.lost, board.queue.mark), (0, 0, 0, false));
            assert_eq!(board.store, store, "the store stays");
        }
    }

    /// Black to the last byte before, white to the last byte after.
    fn whole_glass_turns_white() {
        for height in HEIGHTS {
            let mut board = board(height);
            board.glass = Glass::from_bytes(&vec![255; glass_bytes(height)]);
            assert_eq!(board.start(older(height as u32)), 0);
            assert_eq!(board.glass.to_bytes(), vec![0; 30 * height as usize]);
        }
    }

    fn values_at_the_start() {
        for height in HEIGHTS {
            let s = board(height).state;
            let t = &s.text;
            assert_eq!((s.height, t.scroll_row), (height, height));
            assert_eq!((t.font, t.left, t.top, t.char_space, t.line_space), (1, 0, 0, 0, 1));
            assert_eq!((t.wrap, t.scroll, t.x, t.y), (true, true, 0, 0));
            assert_eq!((s.black, s.line_x, s.line_y, s.contrast), (true, 0, 0, 128));
            assert_eq!((s.backlight, s.minutes, s.flow, s.full, s.empty), (true, 0, false, 0, 0));
            assert_eq!((s.refusals, s.last_refusal, s.serial, s.used), (0, 0, None, 0));
            assert!(s.bars.iter().all(Option::is_none) && s.strips.iter().all(Option::is_none));
        }
    }
}
