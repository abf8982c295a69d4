//! The raw bytes of the store after uploads, deletes and purges.

use crate::board::Board;
use crate::builtin::built_in_font;
use crate::case_file::upload;
use crate::edition::OLDER;
use crate::glass::LOW;

/// 1,024 bytes whose file area holds 200, 201 and so on as leftovers.
fn board() -> Board {
    let mut store = vec![0; 1024];
    for (k, byte) in store[256..].iter_mut().enumerate() {
        *byte = 200u8.wrapping_add(k as u8);
    }
    Board::fresh(&built_in_font(), LOW, OLDER, store)
}

fn sent(board: &mut Board, bytes: &[u8]) -> Vec<u8> {
    let fed = board.feed(bytes, 2 * bytes.len());
    assert_eq!((fed.answer, fed.consumed), (0, bytes.len()));
    fed.replies
}

checks! {
    fn upload_byte_by_byte() {
        let mut board = board();
        assert_eq!(sent(&mut board, &[254, 94, 9, 2, 0]), [1]);
        let before = board.store.clone();
        assert_eq!(sent(&mut board, &[50]), [50]);
        assert_eq!(board.store, before, "an echoed byte is not stored yet");
        assert_eq!(sent(&mut board, &[1]), []);
        assert_eq!(board.store[..260], [&[0; 256][..], &[50, 201, 202, 203]].concat());
        assert_eq!(sent(&mut board, &[60]), [60]);
        assert_eq!(sent(&mut board, &[1]), []);
        assert_eq!(board.store[..5], [2, 9, 2, 0, 0]);
        assert_eq!(board.store[256..260], [50, 60, 202, 203]);
    }

    fn broken_upload_leaves_its_bytes() {
        let mut board = board();
        sent(&mut board, &upload(OLDER, 94, 3, &[1, 2]));
        sent(&mut board, &[254, 36, 9, 4, 0, 50, 1, 60, 1, 70, 0]);
        assert_eq!((board.state.refusals, board.state.last_refusal), (1, 26));
        assert_eq!(board.store[..5], [2, 3, 2, 0, 0]);
        assert_eq!(board.store[256..262], [1, 2, 50, 60, 204, 205]);
        // the next upload begins at the same free byte
        sent(&mut board, &upload(OLDER, 36, 9, &[5]));
        assert_eq!(board.store[..9], [2, 3, 2, 0, 1, 9, 1, 0, 0]);
        assert_eq!(board.store[256..262], [1, 2, 5, 60, 204, 205]);
    }

    fn delete_moves_down_and_leaves_the_tail() {
        let mut board = board();
        sent(&mut board, &upload(OLDER, 94, 3, &[1, 2]));
        sent(&mut board, &upload(OLDER, 36, 3, &[3, 4, 5]));
        sent(&mut board, &upload(OLDER, 94, 4, &[6, 7]));
        sent(&mut board, &[254, 173, 1, 3]);
        assert_eq!(board.store[..12], [1, 3, 3, 0, 2, 4, 2, 0, 0, 0, 0, 0]);
        assert_eq!(board.store[256..264], [3, 4, 5, 6, 7, 6, 7, 207]);
        sent(&mut board, &[254, 173, 1, 4]);
        assert_eq!(board.store[..8], [1, 3, 3, 0, 0, 0, 0, 0]);
        assert_eq!(board.store[256..264], [3, 4, 5, 6, 7, 6, 7, 207]);
        sent(&mut board, &[254, 173, 0, 3]);
        assert_eq!(board.store[..8], [0; 8]);
        assert_eq!(board.store[256..264], [3, 4, 5, 6, 7, 6, 7, 207]);
    }

    fn purge_clears_the_directory_only() {
        let mut board = board();
        sent(&mut board, &upload(OLDER, 94, 3, &[1, 2]));
        sent(&mut board, &upload(OLDER, 36, 3, &[3, 4, 5]));
        sent(&mut board, &[254, 33, 89, 33]);
        assert_eq!(board.store[..256], [0; 256]);
        assert_eq!(board.store[256..263], [1, 2, 3, 4, 5, 205, 206]);
        assert_eq!(board.store[1023], 200u8.wrapping_add(255));
    }

    fn size_of_two_bytes() {
        let mut board = board();
        sent(&mut board, &upload(OLDER, 94, 3, &[9; 258]));
        assert_eq!(board.store[..5], [2, 3, 2, 1, 0]);
        assert_eq!(board.store[256..514], [9; 258]);
        assert_eq!(board.store[514], 200u8.wrapping_add(2));
    }

    fn room_after_a_delete() {
        let mut board = board();
        sent(&mut board, &upload(OLDER, 94, 3, &[9; 500]));
        sent(&mut board, &upload(OLDER, 94, 4, &[8; 268]));
        assert_eq!(sent(&mut board, &[254, 94, 5, 1, 0]), [8]);
        sent(&mut board, &[254, 173, 1, 3]);
        assert_eq!(sent(&mut board, &[254, 94, 5, 245, 1]), [8], "501");
        assert_eq!(sent(&mut board, &[254, 94, 5, 244, 1]), [1], "500");
        sent(&mut board, &[77, 1]);
        assert_eq!(board.store[256..525], [&[8; 268][..], &[77]].concat());
    }

    fn whole_area_in_one_file() {
        let mut board = board();
        sent(&mut board, &upload(OLDER, 94, 3, &[9; 768]));
        assert_eq!(board.store[256..], [9; 768]);
        assert_eq!(board.store[..5], [2, 3, 0, 3, 0]);
        assert_eq!(sent(&mut board, &[254, 36, 3, 1, 0]), [8]);
        assert_eq!(board.state.last_refusal, 24);
    }

    /// An upload found in the record goes on after the bytes already stored.
    fn upload_taken_up_from_the_record() {
        let mut board = board();
        sent(&mut board, &[254, 94, 9, 3, 0, 50, 1, 60]);
        let mut other = board.clone();
        sent(&mut board, &[1, 70, 1]);
        assert_eq!(board.store[256..260], [50, 60, 70, 203]);
        other.store[256] = 99;
        sent(&mut other, &[1, 70, 1]);
        assert_eq!(other.store[256..260], [99, 60, 70, 203]);
        assert_eq!(other.store[..4], [2, 9, 3, 0]);
    }
}
