//! The answers 0 to 5 of feed, and their order.

use crate::board::Board;
use crate::builtin::built_in_font;
use crate::edition::OLDER;
use crate::feed::feed;
use crate::glass::{Glass, LOW};
use crate::state::{Gathering, Lent, Sort, Upload};

fn board(size: usize) -> Board {
    Board::fresh(&built_in_font(), LOW, OLDER, vec![0; size])
}

/// Feeds and wants a refusal that changes nothing.
fn refused(board: &Board, piece: &[u8], answer: u8) {
    let mut after = board.clone();
    let fed = after.feed(piece, 100);
    assert_eq!((fed.answer, fed.consumed, fed.replies.len()), (answer, 0, 0));
    assert_eq!(&after, board, "a refused call changes nothing");
}

checks! {
    fn glass_of_another_length() {
        for bytes in [0, 1, 1919, 1921, 3840] {
            let mut board = board(1024);
            board.glass = Glass::from_bytes(&vec![7; bytes]);
            refused(&board, &[254, 88], 1);
            refused(&board, &[], 1);
        }
    }

    fn store_of_another_length() {
        for bytes in [0, 255, 256, 1023, 32769, 65536] {
            let mut board = board(1024);
            board.store = vec![0; bytes];
            refused(&board, &[254, 88], 2);
            refused(&board, &[], 2);
        }
        for bytes in [1024, 1025, 32767, 32768] {
            assert_eq!(board(bytes).feed(&[254, 88], 2).answer, 0);
        }
    }

    fn record_of_the_wrong_length() {
        let mut board = board(1024);
        let fed = feed(&board.font, &mut board.glass, &mut board.store, Lent::WrongLength, &[], 9);
        assert_eq!(fed.answer, 3);
    }

    fn order_of_one_to_four() {
        let mut bad = board(1024);
        bad.store[0] = 9;
        refused(&bad, &[45], 4);
        bad.state.text.x = 496;
        refused(&bad, &[45], 3);
        bad.store = vec![9; 1000];
        refused(&bad, &[45], 2);
        bad.glass = Glass::from_bytes(&[0; 1919]);
        refused(&bad, &[45], 1);
        bad.state.text.x = 0;
        refused(&bad, &[45], 1);
    }

    fn record_comes_before_directory_of_running_upload() {
        let mut bad = board(1024);
        bad.state.upload = Some(Upload { sort: Sort::Font, number: 1, size: 5, stored: 5, echoed: None, waited: 0 });
        refused(&bad, &[45], 3);
        bad.state.upload = Some(Upload { sort: Sort::Font, number: 1, size: 5, stored: 4, echoed: None, waited: 0 });
        refused(&bad, &[45], 4);
    }

    fn thresholds_of_eighty_in_the_record() {
        for flow in [false, true] {
            let mut bad = board(1024);
            (bad.state.flow, bad.state.full, bad.state.empty) = (flow, 40, 40);
            refused(&bad, &[45], 3);
            (bad.state.full, bad.state.empty) = (255, 1);
            refused(&bad, &[45], 3);
            (bad.state.full, bad.state.empty) = (40, 39);
            assert_eq!(bad.feed(&[45], 2).answer, 0);
        }
    }

    fn running_upload_that_would_now_be_refused() {
        let upload = Upload { sort: Sort::Bitmap, number: 7, size: 700, stored: 3, echoed: None, waited: 0 };
        let mut good = board(1024);
        good.state.upload = Some(upload);
        assert_eq!(good.clone().feed(&[9], 2).replies, [9]);
        // the number is in use by now
        let mut bad = good.clone();
        bad.store[..4].copy_from_slice(&[2, 7, 1, 0]);
        bad.state.used = 1;
        refused(&bad, &[9], 4);
        // the same number as a font does no harm
        bad.store[..4].copy_from_slice(&[1, 7, 1, 0]);
        bad.state.used = 1;
        assert_eq!(bad.clone().feed(&[9], 2).answer, 0);
        // 68 bytes may be in use beside 700, 69 may not
        bad.store[..4].copy_from_slice(&[1, 7, 68, 0]);
        bad.state.used = 68;
        assert_eq!(bad.clone().feed(&[9], 2).answer, 0);
        bad.store[..4].copy_from_slice(&[1, 7, 69, 0]);
        bad.state.used = 69;
        refused(&bad, &[], 4);
        // 63 files, or font 1
        let mut full = good.clone();
        full.state.upload = Some(Upload { size: 4, ..upload });
        for k in 0..63 {
            full.store[4 * k..4 * k + 4].copy_from_slice(&[2, 100 + k as u8, 1, 0]);
        }
        full.state.used = 63;
        refused(&full, &[9], 4);
        let mut font_one = good.clone();
        font_one.state.upload = Some(Upload { sort: Sort::Font, number: 1, ..upload });
        refused(&font_one, &[9], 4);
    }

    fn empty_piece() {
        let mut board = board(1024);
        let before = board.clone();
        let fed = board.feed(&[], 0);
        assert_eq!((fed.answer, fed.consumed), (0, 0));
        assert_eq!(board, before);
        board.store[3] = 1;
        refused(&board, &[], 4);
    }

    fn too_little_reply_room() {
        for room in [0, 1] {
            let mut board = board(1024);
            let before = board.clone();
            let fed = board.feed(&[254, 88], room);
            assert_eq!((fed.answer, fed.consumed), (5, 0));
            assert_eq!(board, before);
        }
    }

    fn reply_room_used_up_on_the_way() {
        // two serial answers: the first takes two of three, then one is free
        let piece = [254, 52, 7, 9, 254, 52, 7, 9];
        let mut board = board(1024);
        let fed = board.feed(&piece, 3);
        assert_eq!((fed.answer, fed.consumed, fed.replies), (5, 4, vec![7, 9]));
        let fed = board.feed(&piece[4..], 2);
        assert_eq!((fed.answer, fed.consumed, fed.replies), (0, 4, vec![7, 9]));
    }

    fn no_five_when_no_byte_is_left() {
        let mut board = board(1024);
        let fed = board.feed(&[254, 52, 7, 9], 2);
        assert_eq!((fed.answer, fed.consumed, fed.replies), (0, 4, vec![7, 9]));
        // a byte that sends nothing still wants two free
        let fed = board.feed(&[254, 52, 7, 9, 254], 2);
        assert_eq!((fed.answer, fed.consumed), (5, 4));
        let fed = board.feed(&[254, 52, 7, 9, 254], 4);
        assert_eq!((fed.answer, fed.consumed), (0, 5));
    }

    fn starved_in_an_upload() {
        let mut board = board(1024);
        let piece = [254, 94, 3, 2, 0, 10, 1, 20, 1];
        let fed = board.feed(&piece, 2);
        assert_eq!((fed.answer, fed.consumed, fed.replies), (5, 5, vec![1]));
        let fed = board.feed(&piece[5..], 3);
        assert_eq!((fed.answer, fed.consumed, fed.replies), (5, 3, vec![10, 20]));
        let fed = board.feed(&piece[8..], 2);
        assert_eq!((fed.answer, fed.consumed), (0, 1));
        assert_eq!(board.store[..5], [2, 3, 2, 0, 0]);
    }

    /// A record may hold a saved bitmap's number that the directory does not know.
    fn gathered_bitmap_that_is_gone() {
        let mut board = board(1024);
        board.state.gathering = Some(Gathering { bytes: vec![98, 5] });
        board.feed(&[1], 2);
        assert_eq!(board.state.refusals, 0);
        board.feed(&[1], 2);
        assert_eq!((board.state.refusals, board.state.last_refusal), (1, 22));
        assert_eq!(board.state.gathering, None);
    }

    /// A record may name a font that the directory does not know, or a malformed one.
    fn current_font_that_is_gone() {
        let mut board = board(1024);
        board.state.text.font = 6;
        for piece in [&[45u8][..], &[254, 71, 0, 0], &[254, 71, 1, 1]] {
            board.feed(piece, 2);
            assert_eq!(board.state.last_refusal, 22);
        }
        board.store[..4].copy_from_slice(&[1, 6, 3, 0]);
        board.state.used = 3;
        for piece in [&[45u8][..], &[254, 71, 0, 0], &[255]] {
            board.feed(piece, 2);
            assert_eq!(board.state.last_refusal, 23);
        }
        assert_eq!((board.state.refusals, board.state.text.font), (6, 6));
        board.feed(&[254, 49, 1, 45], 2);
        assert_eq!(board.state.refusals, 6);
    }

    /// A font malformed only in a glyph nobody asks for is refused all the same.
    fn current_font_checked_whole_when_used() {
        let mut board = board(1024);
        board.state.text.font = 6;
        board.store[..4].copy_from_slice(&[1, 6, 11, 0]);
        board.state.used = 11;
        board.store[256..267].copy_from_slice(&[4, 1, 65, 66, 0, 10, 2, 0, 11, 2, 192]);
        board.feed(b"A", 2);
        assert_eq!(board.state.last_refusal, 23);
        board.store[256 + 8] = 10;
        board.feed(b"A", 2);
        assert_eq!((board.state.refusals, board.state.text.x), (1, 2));
    }

    fn settings_are_kept() {
        let mut board = board(1024);
        board.feed(&[254, 80, 9, 254, 66, 5, 254, 58, 30, 20, 254, 50, 1, 2, 3, 4, 5, 254, 68, 254, 82], 99);
        let s = &board.state;
        assert_eq!((s.contrast, s.backlight, s.minutes), (9, true, 5));
        assert_eq!((s.flow, s.full, s.empty), (true, 30, 20));
        let t = &s.text;
        assert_eq!((t.left, t.top, t.char_space, t.line_space, t.scroll_row), (1, 2, 3, 4, 5));
        assert_eq!((t.wrap, t.scroll), (false, false));
        board.feed(&[254, 70, 254, 59, 254, 67, 254, 81, 254, 58, 60, 60], 99);
        let s = &board.state;
        assert_eq!((s.backlight, s.minutes, s.flow, s.full, s.empty), (false, 5, false, 30, 20));
        assert_eq!((s.text.wrap, s.text.scroll), (true, true));
    }

    fn refused_thresholds_leave_flow_as_it_was() {
        let mut board = board(1024);
        board.feed(&[254, 58, 40, 39, 254, 58, 40, 40], 99);
        let s = &board.state;
        assert_eq!((s.flow, s.full, s.empty, s.last_refusal), (true, 40, 39, 27));
    }

    /// Every cut of this stream, with room enough, ends alike.
    fn every_single_cut() {
        let bar = [254, 103, 0, 1, 0, 0, 9, 1, 254, 105, 0, 5];
        let bitmap = [254, 94, 2, 3, 0, 8, 1, 1, 1, 129, 1, 254, 98, 2, 9, 9, 65];
        let in_line = [254, 100, 20, 20, 29, 21, 1, 2, 3, 4, 254, 98, 7, 65];
        let stream = [&bar[..], &bitmap, &in_line].concat();
        let mut whole = board(1024);
        let all = whole.feed(&stream, 200);
        for cut in 0..=stream.len() {
            let mut cut_board = board(1024);
            let mut replies = cut_board.feed(&stream[..cut], 200).replies;
            replies.extend(cut_board.feed(&stream[cut..], 200).replies);
            assert_eq!(cut_board, whole, "cut at {cut}");
            assert_eq!(replies, all.replies);
        }
    }
}
