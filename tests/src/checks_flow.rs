//! Arriving, taking, and the two signals.

use crate::board::Board;
use crate::builtin::built_in_font;
use crate::edition::OLDER;
use crate::glass::LOW;
use crate::queue::{arrive, take, Arrived, Queue, Taken};

fn board(flow: bool, full: u8, empty: u8) -> Board {
    let mut board = Board::fresh(&built_in_font(), LOW, OLDER, vec![0; 1024]);
    (board.state.flow, board.state.full, board.state.empty) = (flow, full, empty);
    board
}

fn arrive_many(board: &mut Board, count: usize) -> Vec<u8> {
    (0..count).map(|k| board.arrive(k as u8).signal).collect()
}

fn take_many(board: &mut Board, count: usize) -> Vec<u8> {
    (0..count).map(|_| board.take().signal).collect()
}

fn zeros_then(zeros: usize, signal: u8) -> Vec<u8> {
    let mut all = vec![0; zeros];
    all.push(signal);
    all
}

checks! {
    fn first_in_first_out_round_the_ring() {
        let mut board = board(false, 0, 0);
        for round in 0..200u8 {
            assert_eq!(board.arrive(round), Arrived { answer: 0, signal: 0 });
            assert_eq!(board.arrive(round ^ 255), Arrived { answer: 0, signal: 0 });
            assert_eq!(board.take(), Taken { answer: 0, byte: round, signal: 0 });
            assert_eq!(board.take(), Taken { answer: 0, byte: round ^ 255, signal: 0 });
        }
        assert_eq!((board.queue.place, board.queue.held), (0, 0));
    }

    fn taking_from_an_empty_queue() {
        let mut board = board(true, 1, 1);
        board.queue.mark = true;
        let before = board.clone();
        assert_eq!(board.take(), Taken { answer: 6, byte: 0, signal: 0 });
        assert_eq!(board, before);
    }

    fn arriving_at_a_full_queue() {
        let mut board = board(true, 0, 0);
        arrive_many(&mut board, 80);
        let before = board.clone();
        assert_eq!(board.arrive(99), Arrived { answer: 7, signal: 0 });
        assert_eq!(board.queue, Queue { lost: 1, ..before.queue.clone() });
        assert_eq!(board.take(), Taken { answer: 0, byte: 0, signal: 0 });
    }

    fn lost_count_rolls_over() {
        let mut board = board(false, 0, 0);
        arrive_many(&mut board, 80);
        board.queue.lost = 65535;
        board.arrive(1);
        assert_eq!(board.queue.lost, 0);
    }

    /// Full 10: the byte that leaves ten free sends 254, once.
    fn almost_full_after_the_byte() {
        let mut board = board(true, 10, 20);
        assert_eq!(arrive_many(&mut board, 70), zeros_then(69, 254));
        assert!(board.queue.mark);
        assert_eq!(arrive_many(&mut board, 10), [0; 10]);
    }

    /// Empty 20: the take that leaves twenty sends 255, once.
    fn almost_empty_after_the_take() {
        let mut board = board(true, 10, 20);
        arrive_many(&mut board, 75);
        assert_eq!(take_many(&mut board, 55), zeros_then(54, 255));
        assert!(!board.queue.mark);
        assert_eq!(take_many(&mut board, 20), [0; 20]);
    }

    fn no_255_without_the_mark() {
        let mut board = board(true, 10, 20);
        arrive_many(&mut board, 21);
        assert_eq!(take_many(&mut board, 21), [0; 21]);
    }

    fn again_after_the_mark_fell() {
        let mut board = board(true, 79, 0);
        assert_eq!(board.arrive(1).signal, 254);
        assert_eq!(board.arrive(1).signal, 0);
        assert_eq!(board.take().signal, 0);
        assert_eq!(board.take().signal, 255);
        assert_eq!(board.arrive(1).signal, 254);
    }

    fn full_zero_is_the_last_place() {
        let mut board = board(true, 0, 79);
        assert_eq!(arrive_many(&mut board, 80), zeros_then(79, 254));
        assert_eq!(board.take().signal, 255);
    }

    /// A mark that is still up sends nothing new, even where 254 would be due.
    fn between_the_thresholds() {
        let mut board = board(true, 40, 10);
        assert_eq!(arrive_many(&mut board, 40), zeros_then(39, 254));
        assert_eq!(take_many(&mut board, 10), [0; 10]);
        assert_eq!(arrive_many(&mut board, 10), [0; 10]);
        assert_eq!(take_many(&mut board, 30), zeros_then(29, 255));
    }

    fn flow_off_lowers_silently() {
        let mut board = board(false, 10, 20);
        board.queue.mark = true;
        assert_eq!(board.arrive(1), Arrived { answer: 0, signal: 0 });
        assert!(!board.queue.mark);
        board.queue.mark = true;
        assert_eq!(board.take(), Taken { answer: 0, byte: 1, signal: 0 });
        assert!(!board.queue.mark);
        assert_eq!(arrive_many(&mut board, 80), [0; 80]);
        assert!(!board.queue.mark);
        board.queue.mark = true;
        assert_eq!(board.arrive(1).answer, 7);
        assert!(board.queue.mark, "a dropped byte changes the lost count only");
    }

    fn records_that_are_not_good() {
        let mut board = board(true, 40, 40);
        assert_eq!((board.arrive(1).answer, board.take().answer), (3, 3));
        board.state.full = 39;
        assert_eq!((board.arrive(1).answer, board.take().answer), (0, 0));
        board.state.text.x = 496;
        let before = board.clone();
        assert_eq!((board.arrive(1).answer, board.take().answer), (3, 3));
        board.state.text.x = 0;
        board.queue.place = 80;
        assert_eq!((board.arrive(1).answer, board.take().answer), (3, 3));
        (board.queue.place, board.queue.held) = (79, 81);
        assert_eq!((board.arrive(1).answer, board.take().answer), (3, 3));
        assert_eq!(board.queue.ring, before.queue.ring);
        assert_eq!(arrive(None, Some(&mut board.queue), 1).answer, 3);
        assert_eq!(arrive(Some(&board.state), None, 1).answer, 3);
        assert_eq!(take(None, Some(&mut board.queue)).answer, 3);
        assert_eq!(take(Some(&board.state), None).answer, 3);
    }

    /// The glass and the store are not lent to arriving and taking; 3 comes before 6 and 7.
    fn three_before_six_and_seven() {
        let mut board = board(false, 80, 0);
        assert_eq!(board.take().answer, 3);
        board.queue.held = 80;
        assert_eq!(board.arrive(1).answer, 3);
        assert_eq!(board.queue.lost, 0);
    }
}
