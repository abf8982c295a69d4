//! The height in the record: what feed, arrive and take answer to it, and before what else.

use crate::board::Board;
use crate::checks::board;
use crate::feed::feed;
use crate::glass::{glass_bytes, Glass, HEIGHTS, LOW, TALL};
use crate::listing::height_asked;
use crate::queue::{arrive, take};
use crate::state::{Bar, Lent};
use std::ffi::OsStr;

/// Feeds and wants a refusal that changes nothing.
fn refused(board: &Board, answer: u8) {
    for piece in [&[254u8, 88][..], &[]] {
        let mut after = board.clone();
        let fed = after.feed(piece, 100);
        assert_eq!((fed.answer, fed.consumed, fed.replies.len()), (answer, 0, 0));
        assert_eq!(&after, board, "a refused call changes nothing");
    }
}

/// The answer to a record of the wrong length, and to one whose bytes stand for no state.
fn without_a_state(board: &Board, height: u8) -> (u8, u8) {
    let mut b = board.clone();
    let wrong_length = feed(&b.font, &mut b.glass, &mut b.store, Lent::WrongLength, &[65], 9).answer;
    let meaningless = feed(&b.font, &mut b.glass, &mut b.store, Lent::Meaningless { height }, &[65], 9).answer;
    assert_eq!(&b, board);
    (wrong_length, meaningless)
}

checks! {
    fn every_other_height_in_the_record() {
        for own in HEIGHTS {
            for height in (0..=255).filter(|height| !HEIGHTS.contains(height)) {
                let mut bad = board(own);
                bad.state.height = height;
                refused(&bad, 3);
                // nor when the glass has just so many rows
                bad.glass = Glass::from_bytes(&vec![7; glass_bytes(height)]);
                refused(&bad, 3);
            }
        }
    }

    fn glass_of_the_other_height() {
        for (own, other) in [(LOW, TALL), (TALL, LOW)] {
            let mut bad = board(own);
            bad.glass = Glass::white(other);
            refused(&bad, 1);
            bad.state.height = other;
            assert_eq!(bad.feed(&[254, 88], 9).answer, 0, "a record and its own glass");
        }
    }

    fn glass_of_another_length() {
        for height in HEIGHTS {
            let right = glass_bytes(height);
            for bytes in [0, 1, right - 30, right - 1, right + 1, right + 30, 2880, 7680] {
                let mut bad = board(height);
                bad.glass = Glass::from_bytes(&vec![7; bytes]);
                refused(&bad, 1);
            }
        }
    }

    fn height_comes_before_everything() {
        for height in [0, 63, 65, 127, 129, 255] {
            let mut bad = board(TALL);
            bad.state.height = height;
            bad.store[0] = 9;
            refused(&bad, 3);
            bad.store = vec![0; 1023];
            refused(&bad, 3);
            bad.glass = Glass::from_bytes(&[0; 3839]);
            refused(&bad, 3);
            bad.store = vec![0; 1024];
            refused(&bad, 3);
        }
    }

    /// A wrong length comes before 1 and 2; the rest of what is wrong with a record comes after them.
    fn order_of_one_two_and_three() {
        for (own, other) in [(LOW, TALL), (TALL, LOW)] {
            let mut bad = board(own);
            assert_eq!(without_a_state(&bad, own), (3, 3));
            bad.store = vec![0; 40000];
            assert_eq!(without_a_state(&bad, own), (3, 2));
            assert_eq!(without_a_state(&bad, 65), (3, 3));
            bad.glass = Glass::white(other);
            assert_eq!(without_a_state(&bad, own), (3, 1));
            assert_eq!(without_a_state(&bad, 0), (3, 3));
            bad.store = vec![0; 1024];
            assert_eq!(without_a_state(&bad, own), (3, 1));
            bad.glass = Glass::from_bytes(&[]);
            assert_eq!(without_a_state(&bad, own), (3, 1));
            assert_eq!(without_a_state(&bad, 255), (3, 3));
        }
    }

    fn unsound_record_comes_after_glass_and_store() {
        for (own, other) in [(LOW, TALL), (TALL, LOW)] {
            let mut bad = board(own);
            bad.state.bars[4] = Some(Bar { side: 0, x1: 0, y1: 0, x2: 9, y2: own, value: 0 });
            refused(&bad, 3);
            bad.store = vec![0; 1000];
            refused(&bad, 2);
            bad.glass = Glass::white(other);
            refused(&bad, 1);
            bad.state.bars[4] = None;
            (bad.state.full, bad.state.empty) = (40, 40);
            refused(&bad, 1);
        }
    }

    /// A bar of the tall glass in the record of a low one.
    fn record_of_the_tall_glass_made_low() {
        let mut board = board(TALL);
        board.feed(&[254, 103, 3, 0, 0, 60, 9, 64], 9);
        (board.state.height, board.glass) = (LOW, Glass::white(LOW));
        refused(&board, 3);
        board.glass = Glass::white(TALL);
        refused(&board, 1);
    }

    fn arriving_and_taking_mind_the_height() {
        for height in 0..=255 {
            let mut board = board(LOW);
            board.arrive(9);
            board.state.height = height;
            let before = board.clone();
            let known = HEIGHTS.contains(&height);
            assert_eq!(board.arrive(7).answer, if known { 0 } else { 3 }, "{height}");
            assert_eq!(board.take().answer, if known { 0 } else { 3 }, "{height}");
            assert_eq!(board.queue == before.queue, !known);
        }
    }

    fn three_for_the_height_before_six_and_seven() {
        let mut board = board(TALL);
        board.state.height = 63;
        assert_eq!(take(Some(&board.state), Some(&mut board.queue)).answer, 3);
        board.queue.held = 80;
        assert_eq!(arrive(Some(&board.state), Some(&mut board.queue), 1).answer, 3);
        assert_eq!(board.queue.lost, 0);
    }

    /// Exactly these three characters.
    fn argument_of_the_program() {
        let asked = |word: &str| height_asked(Some(OsStr::new(word)));
        assert_eq!((height_asked(None), asked("128")), (LOW, TALL));
        for word in ["", "64", "0128", "128 ", " 128", "+128", "-128", "128x", "128.0", "1 28", "12", "1280", "0x80", "--128"] {
            assert_eq!(asked(word), LOW, "{word:?}");
        }
    }
}
