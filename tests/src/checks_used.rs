//! The used room after start, uploads, deletes, purges and refusals; every sum is worked out by hand.

use crate::board::Board;
use crate::builtin::built_in_font;
use crate::case_file::{upload, upload_begun};
use crate::checks::board_of;
use crate::edition::{number_sent, EDITIONS, NEWER, OLDER};
use crate::glass::{HEIGHTS, LOW};
use crate::start::Choice;

/// A store of so many bytes whose directory begins with these; leftovers fill the file area.
pub fn store_of(bytes: usize, directory: &[u8]) -> Vec<u8> {
    let mut store = vec![77; bytes];
    store[..256].fill(0);
    store[..directory.len()].copy_from_slice(directory);
    store
}

/// Font 5 of 2 bytes, bitmap 261 of 300 and font 7 of 7: 309 bytes, and 459 of 768 are unused.
pub const THREE: [u8; 15] = [1, 5, 2, 0, 4, 5, 1, 44, 1, 0, 0, 1, 7, 7, 0];

pub fn with_three(height: u8, edition: u8) -> Board {
    Board::fresh(&built_in_font(), height, edition, store_of(1024, &THREE))
}

/// Bytes in one piece with room enough; the sum after it.
fn after(board: &mut Board, bytes: &[u8]) -> u16 {
    assert_eq!(board.feed(bytes, 2 * bytes.len()).answer, 0);
    board.state.used
}

fn delete(edition: u8, sort: u8, number: u16) -> Vec<u8> {
    [vec![254, 173, sort], number_sent(edition, number)].concat()
}

checks! {
    fn start_on_an_empty_store() {
        for (height, edition) in HEIGHTS.into_iter().flat_map(|height| EDITIONS.map(|edition| (height, edition))) {
            for bytes in [1024, 1025, 32767, 32768] {
                let board = Board::fresh(&built_in_font(), height, edition, store_of(bytes, &[]));
                assert_eq!(board.state.used, 0);
            }
        }
    }

    /// Files of each kind, of both editions, and up to the last byte of the smallest and the largest store.
    fn start_finds_the_files() {
        let stores: [(usize, &[u8], u16); 13] = [
            (1024, &[2, 9, 3, 0], 3),
            (1024, &[1, 9, 255, 0], 255),
            (1024, &[1, 9, 0, 1], 256),
            (1024, &[1, 9, 0, 1, 2, 9, 1, 0], 257),
            (1024, &[3, 44, 1, 8, 0, 0, 0], 8),
            (1024, &[4, 255, 3, 1, 1, 0, 0], 257),
            (1024, &[1, 5, 8, 0, 3, 6, 1, 16, 0, 0, 0, 2, 7, 3, 0, 4, 0, 1, 200, 1, 0, 0], 483),
            (1024, &[2, 3, 0, 3], 768),
            (1024, &[4, 3, 0, 255, 2, 0, 0, 1, 3, 1, 0], 768),
            (32768, &[2, 3, 0, 127], 32512),
            (32768, &[4, 3, 0, 0, 127, 0, 0], 32512),
            (32768, &[1, 3, 255, 126, 4, 3, 0, 1, 0, 0, 0], 32512),
            (32768, &[4, 3, 0, 1, 64, 0, 0, 3, 3, 0, 255, 62, 0, 0], 32512),
        ];
        for (bytes, directory, sum) in stores {
            for (height, edition) in HEIGHTS.into_iter().flat_map(|height| EDITIONS.map(|edition| (height, edition))) {
                let mut board = Board::fresh(&built_in_font(), height, edition, store_of(bytes, directory));
                assert_eq!(board.state.used, sum);
                // whatever the record said before
                for old in [0, 1, sum - 1, sum, sum + 1, 65535] {
                    board.state.used = old;
                    assert_eq!(board.start(Choice::of(height, edition)), 0);
                    assert_eq!(board.state.used, sum, "from {old}");
                }
                assert_eq!((board.feed(&[], 0).answer, board.time(0, 2).answer), (0, 0));
            }
        }
    }

    /// A refused start leaves the sum as it was, right or wrong.
    fn refused_start_leaves_the_sum() {
        for old in [0, 308, 309, 65535] {
            let mut board = with_three(LOW, OLDER);
            board.state.used = old;
            let (unknown, other) = (Choice { height: 65, edition: 1 }, Choice { height: 128, edition: 1 });
            assert_eq!((board.start(unknown), board.start(other), board.state.used), (3, 1, old));
            board.store[255] = 1;
            assert_eq!((board.start(Choice::of(LOW, OLDER)), board.state.used), (4, old));
        }
    }

    /// At the last confirmation and not before, alone and beside other files, each byte in a call of its own.
    fn upload_counts_at_its_end() {
        for (height, edition) in HEIGHTS.into_iter().flat_map(|height| EDITIONS.map(|edition| (height, edition))) {
            for (mut board, held) in [(board_of(height, edition), 0), (with_three(height, edition), 309)] {
                for byte in upload_begun(edition, 94, 9, 3) {
                    assert_eq!(after(&mut board, &[byte]), held);
                }
                for (byte, sum) in [(50, held), (1, held), (60, held), (1, held), (70, held), (1, held + 3)] {
                    assert_eq!(board.time(2099, 2).answer, 0);
                    assert_eq!(after(&mut board, &[byte]), sum);
                }
                assert_eq!(after(&mut board, &upload(edition, 36, 9, &[8])), held + 4);
            }
        }
    }

    /// 250 and 10 carry into the high byte, 258 has one of its own.
    fn sums_of_two_bytes() {
        for edition in EDITIONS {
            let mut board = board_of(LOW, edition);
            assert_eq!(after(&mut board, &upload(edition, 94, 2, &[1; 250])), 250);
            assert_eq!(after(&mut board, &upload(edition, 36, 2, &[1; 10])), 260);
            assert_eq!(after(&mut board, &upload(edition, 94, 3, &[1; 258])), 518);
            assert_eq!(after(&mut board, &delete(edition, 1, 2)), 268);
            assert_eq!(after(&mut board, &delete(edition, 1, 3)), 10);
            assert_eq!(after(&mut board, &delete(edition, 0, 2)), 0);
        }
    }

    /// The first, the middle and the last of three, and on until none is left.
    fn delete_takes_the_files_own_size() {
        let orders: [[(u8, u16, u16); 3]; 6] = [
            [(0, 5, 307), (1, 261, 7), (0, 7, 0)],
            [(0, 5, 307), (0, 7, 300), (1, 261, 0)],
            [(1, 261, 9), (0, 5, 7), (0, 7, 0)],
            [(1, 261, 9), (0, 7, 2), (0, 5, 0)],
            [(0, 7, 302), (0, 5, 300), (1, 261, 0)],
            [(0, 7, 302), (1, 261, 2), (0, 5, 0)],
        ];
        for order in orders {
            let mut board = with_three(LOW, NEWER);
            for (sort, number, sum) in order {
                assert_eq!(after(&mut board, &delete(NEWER, sort, number)), sum, "{order:?}");
                assert_eq!(board.time(0, 2).answer, 0);
            }
        }
        // the older edition cannot name 261
        let mut board = with_three(LOW, OLDER);
        assert_eq!((after(&mut board, &[254, 173, 0, 5]), after(&mut board, &[254, 173, 0, 7])), (307, 300));
    }

    fn refused_deletes_leave_it() {
        for edition in EDITIONS {
            let mut board = with_three(LOW, edition);
            for (sort, number, refusal) in [(0, 6, 22), (1, 5, 22), (1, 7, 22), (0, 1, 22), (2, 5, 20), (255, 7, 20)] {
                assert_eq!(after(&mut board, &delete(edition, sort, number)), 309);
                assert_eq!(board.state.last_refusal, refusal);
            }
        }
        let mut board = with_three(LOW, NEWER);
        assert_eq!((after(&mut board, &delete(NEWER, 0, 1024)), board.state.last_refusal), (309, 19));
        assert_eq!((after(&mut board, &delete(NEWER, 0, 261)), board.state.last_refusal), (309, 22));
    }

    fn purge_leaves_nothing() {
        for (height, edition) in HEIGHTS.into_iter().flat_map(|height| EDITIONS.map(|edition| (height, edition))) {
            let mut board = with_three(height, edition);
            for wrong in [[254, 33, 89, 34], [254, 33, 88, 33], [254, 33, 33, 89], [254, 33, 0, 0]] {
                assert_eq!((after(&mut board, &wrong), board.state.last_refusal), (309, 20));
            }
            assert_eq!((after(&mut board, &[254, 33]), after(&mut board, &[89])), (309, 309));
            assert_eq!(after(&mut board, &[33]), 0);
            assert_eq!(after(&mut board, &[254, 33, 89, 33]), 0);
            assert_eq!(after(&mut board, &upload(edition, 94, 9, &[1, 2])), 2);
        }
    }

    /// What was confirmed to it stays in free room and does not count.
    fn broken_upload_counts_for_nothing() {
        for edition in EDITIONS {
            for confirmed in 0..4 {
                let mut board = with_three(LOW, edition);
                let mut bytes = upload_begun(edition, 94, 9, 4);
                bytes.extend([60, 1].repeat(confirmed));
                assert_eq!(after(&mut board, &bytes), 309);
                assert_eq!((after(&mut board, &[70, 2]), board.state.last_refusal), (309, 26));
                assert_eq!(board.time(2100, 2).answer, 0);
                assert_eq!(after(&mut board, &upload(edition, 94, 9, &[5; 6])), 315);
            }
        }
    }

    fn dropped_upload_counts_for_nothing() {
        for edition in EDITIONS {
            for bytes in 0..8 {
                let mut board = with_three(LOW, edition);
                let begun = [upload_begun(edition, 36, 9, 4), [60, 1].repeat(4)[..bytes].to_vec()].concat();
                assert_eq!(after(&mut board, &begun), 309);
                assert_eq!((board.time(2099, 2).answer, board.state.used), (0, 309));
                assert_eq!((board.time(1, 2).replies, board.state.used), (vec![254, 212], 309));
                assert_eq!(after(&mut board, &upload(edition, 36, 9, &[5; 6])), 315);
            }
        }
    }

    /// 25, 24 of each reason, and 19.
    fn refused_uploads_leave_it() {
        let mut older = with_three(LOW, OLDER);
        let refused = [(36, 1, 5, 25), (36, 5, 5, 25), (94, 9, 0, 24), (94, 9, 460, 24), (94, 9, 65535, 24)];
        for (code, number, size, refusal) in refused {
            assert_eq!(after(&mut older, &upload_begun(OLDER, code, number, size)), 309);
            assert_eq!(older.state.last_refusal, refusal);
        }
        let mut newer = with_three(LOW, NEWER);
        let refused = [(94, 261, 5, 25), (94, 1024, 5, 19), (94, 9, 460, 24), (94, 9, 65536 + 5, 24)];
        for (code, number, size, refusal) in refused {
            assert_eq!(after(&mut newer, &upload_begun(NEWER, code, number, size)), 309);
            assert_eq!(newer.state.last_refusal, refusal);
        }
        // 459 fill the area
        assert_eq!(after(&mut older, &upload(OLDER, 94, 9, &[1; 459])), 768);
    }

    /// The whole area in one file, and in two: 768 is 0 3, and 32,512 is 0 127.
    fn sum_of_a_full_store() {
        let stores = [(OLDER, 1024, 768), (NEWER, 1024, 768), (OLDER, 32768, 32512), (NEWER, 32768, 32512)];
        for (edition, bytes, area) in stores {
            let mut board = Board::fresh(&built_in_font(), LOW, edition, store_of(bytes, &[]));
            assert_eq!(after(&mut board, &upload(edition, 94, 9, &vec![3; area])), area as u16);
            assert_eq!(board.feed(&upload_begun(edition, 94, 8, 1), 9).replies, [8]);
            assert_eq!((board.state.used, board.state.last_refusal), (area as u16, 24));
            assert_eq!(after(&mut board, &delete(edition, 1, 9)), 0);
            assert_eq!(after(&mut board, &upload(edition, 94, 9, &vec![3; area - 257])), area as u16 - 257);
            assert_eq!(after(&mut board, &upload(edition, 36, 9, &[4; 257])), area as u16);
            assert_eq!(board.time(9, 2).answer, 0);
            assert_eq!(after(&mut board, &delete(edition, 0, 9)), area as u16 - 257);
        }
    }

    /// In a call that stops at 5 the sum is that of what was consumed.
    fn sum_after_five() {
        let mut board = with_three(LOW, OLDER);
        let piece = [254, 94, 9, 1, 0, 50, 1, 254, 173, 0, 7, 254, 33, 89, 33];
        for (room, consumed, sum) in [(0, 0, 309), (1, 0, 309), (2, 5, 309), (3, 6, 309), (4, 15, 0)] {
            let mut board = board.clone();
            let fed = board.feed(&piece, room);
            let answer = if consumed < 15 { 5 } else { 0 };
            assert_eq!((fed.answer, fed.consumed, board.state.used), (answer, consumed, sum));
        }
        let serial = [254, 52, 1, 2];
        let with_serials = [&piece[5..7], &serial, &piece[7..11], &serial, &piece[11..], &[65]].concat();
        after(&mut board, &piece[..5]);
        for (room, consumed, sum) in [(3, 2 + 4, 310), (4, 2 + 4, 310), (5, 14, 303), (6, 14, 303), (7, 19, 0)] {
            let mut board = board.clone();
            let fed = board.feed(&with_serials, room);
            let answer = if consumed < 19 { 5 } else { 0 };
            assert_eq!((fed.answer, fed.consumed, board.state.used), (answer, consumed, sum));
            assert_eq!(board.feed(&[], 0).answer, 0);
        }
        assert_eq!((board.time(2100, 1).answer, board.state.used), (5, 309));
    }

    /// Nothing else has a word in it.
    fn other_commands_leave_it() {
        let text = [115, 101, 200, 13, 254, 88, 254, 72, 254, 121, 5, 5, 254, 49, 1, 0, 254, 50, 0, 0, 1, 1, 64];
        let drawing = [254, 99, 1, 254, 112, 3, 3, 254, 120, 1, 0, 0, 9, 9, 254, 103, 0, 1, 0, 0, 9, 1, 254, 105, 0, 5];
        let others = [254, 100, 0, 0, 7, 0, 255, 254, 52, 1, 2, 254, 58, 20, 20, 254, 1, 254, 107, 9, 254, 98, 9, 0];
        for (height, edition) in HEIGHTS.into_iter().flat_map(|height| EDITIONS.map(|edition| (height, edition))) {
            let mut board = with_three(height, edition);
            for byte in [&text[..], &drawing, &others].concat() {
                assert_eq!(after(&mut board, &[byte]), 309);
            }
        }
    }

    /// The sum after each command of one stream, whole and cut before any byte.
    fn every_single_cut() {
        let commands: [(&[u8], u16); 7] = [
            (&[254, 94, 2, 3, 0, 8, 1, 1, 1, 129, 1], 3),
            (&[254, 36, 2, 2, 0, 8, 1, 9, 0], 3),
            (&[254, 36, 2, 2, 0, 8, 1, 9, 1], 5),
            (&[254, 94, 2, 1, 0], 5),
            (&[254, 173, 1, 2], 2),
            (&[254, 173, 1, 2], 2),
            (&[254, 33, 89, 33], 0),
        ];
        let stream: Vec<u8> = commands.iter().flat_map(|(bytes, _)| bytes.to_vec()).collect();
        for cut in 0..=stream.len() {
            let mut board = board_of(LOW, OLDER);
            let (mut ended, mut sum) = (0, 0);
            for (bytes, then) in commands {
                ended += bytes.len();
                if ended <= cut {
                    sum = then;
                }
            }
            assert_eq!(after(&mut board, &stream[..cut]), sum, "cut at {cut}");
            assert_eq!(after(&mut board, &stream[cut..]), 0);
        }
    }
}
