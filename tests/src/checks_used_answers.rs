//! The answer 3 for a used room that is not the directory's own sum: where it stands among the others, and who asks.

use crate::board::Board;
use crate::checks_used::{store_of, with_three, THREE};
use crate::edition::{EDITIONS, NEWER, OLDER};
use crate::feed::{feed, time, Fed};
use crate::glass::{Glass, HEIGHTS, LOW, TALL};
use crate::queue::{arrive, take, Queue};
use crate::start::Choice;
use crate::state::{Gathering, Inline, Lent, Sort, Upload};

/// Wrong for 309, which is 53 1: by one, nothing, the most, one byte off, and what an area can hold and cannot.
const WRONG: [u16; 12] = [308, 310, 0, 65535, 53, 565, 65333, 256, 511, 437, 32512, 32513];

/// Pieces and times, with room and without: this answer, and nothing changed, consumed or replied.
fn refused(board: &Board, answer: u8) {
    let expected = Fed { answer, consumed: 0, replies: Vec::new() };
    let mut after = board.clone();
    for room in [0, 1, 2, 99] {
        for piece in [&[][..], &[1], &[65], &[254], &[254, 88], &[254, 33, 89, 33]] {
            assert_eq!(after.feed(piece, room), expected, "{piece:?} with room {room}");
        }
        for milliseconds in [0, 1, 2099, 2100, u32::MAX] {
            assert_eq!(after.time(milliseconds, room), expected, "{milliseconds} with room {room}");
        }
    }
    assert_eq!(&after, board, "a refused call changes nothing");
}

/// With the three files, in each edition and of each height: nothing under way, a prefix, a command, data in line, and
/// an upload at its start, with a byte waiting, and between two bytes.
fn all_phases() -> Vec<Board> {
    let mut all = Vec::new();
    for (height, edition) in HEIGHTS.into_iter().flat_map(|height| EDITIONS.map(|edition| (height, edition))) {
        let fresh = with_three(height, edition);
        let with = |change: &dyn Fn(&mut Board)| {
            let mut board = fresh.clone();
            change(&mut board);
            board
        };
        let start = Upload::new(Sort::Bitmap, 9, 7);
        all.push(with(&|_| {}));
        all.push(with(&|board| board.state.gathering = Some(Gathering { bytes: vec![] })));
        all.push(with(&|board| board.state.gathering = Some(Gathering { bytes: vec![98] })));
        all.push(with(&|board| board.state.inline = Some(Inline { x1: 5, y1: 5, x2: 13, y2: 6, come: 3 })));
        all.push(with(&|board| board.state.upload = Some(start)));
        all.push(with(&|board| board.state.upload = Some(Upload { stored: 3, echoed: Some(200), ..start })));
        all.push(with(&|board| board.state.upload = Some(Upload { stored: 6, waited: 2099, ..start })));
    }
    all
}

fn with_used(board: &Board, used: u16) -> Board {
    let mut other = board.clone();
    other.state.used = used;
    other
}

/// The three files with an upload under way and this sum kept.
fn uploading(edition: u8, used: u16, upload: Upload) -> Board {
    let mut board = with_used(&with_three(LOW, edition), used);
    board.state.upload = Some(upload);
    board
}

checks! {
    /// Whatever is under way, and before 5; with the right sum the same calls go on.
    fn wrong_sums_are_three() {
        for board in all_phases() {
            for used in WRONG {
                refused(&with_used(&board, used), 3);
            }
            let mut right = with_used(&board, 309);
            assert_eq!((right.feed(&[], 0).answer, right.feed(&[254], 1).answer), (0, 5));
            assert_eq!((right.time(0, 1).answer, right.time(0, 2).answer, right.feed(&[254], 2).answer), (5, 0, 0));
        }
    }

    fn wrong_sums_on_an_empty_store() {
        for board in all_phases() {
            let mut empty = board.clone();
            empty.store[..256].fill(0);
            for used in [1, 2, 255, 256, 309, 32512, 32513, 65535] {
                refused(&with_used(&empty, used), 3);
            }
            empty.state.used = 0;
            assert_eq!((empty.feed(&[], 0).answer, empty.time(0, 2).answer), (0, 0));
        }
    }

    /// One of all the sums of two bytes is right.
    fn every_sum_but_one() {
        let mut board = with_three(LOW, OLDER);
        for used in 0..=65535 {
            board.state.used = used;
            let expected = if used == 309 { 0 } else { 3 };
            assert_eq!((board.feed(&[], 0).answer, board.time(0, 2).answer), (expected, expected), "{used}");
        }
    }

    /// Full to the last byte: 768 is 0 3, and 32,512 is 0 127.
    fn wrong_sums_on_a_full_store() {
        for (bytes, directory, sum) in [(1024, [2, 3, 0, 3], 768), (32768, [2, 3, 0, 127], 32512)] {
            let mut board = with_three(TALL, NEWER);
            board.store = store_of(bytes, &directory);
            for used in [0, 3, 127, sum - 1, sum + 1, sum - 256, sum + 256, sum + 255, 32768, 65535] {
                refused(&with_used(&board, used), 3);
            }
            board.state.used = sum;
            assert_eq!((board.feed(&[65], 2).answer, board.time(0, 2).answer), (0, 0));
        }
    }

    /// A directory that breaks its rules is 4, whatever the sum and whatever its records come to.
    fn directory_comes_first() {
        for board in all_phases() {
            for used in WRONG.into_iter().chain([309]) {
                for (place, value) in [(255, 1), (15, 9), (0, 9), (2, 0), (3, 200), (1, 1)] {
                    let mut bad = with_used(&board, used);
                    bad.store[place] = value;
                    refused(&bad, 4);
                }
            }
        }
    }

    /// 25, 24 by its size and by the records, 19, and a number that the older edition cannot name.
    fn upload_comes_first() {
        for used in WRONG.into_iter().chain([309]) {
            for edition in EDITIONS {
                let sizes = [(Sort::Bitmap, 9, 460), (Sort::Bitmap, 9, 65535)];
                for (sort, number, size) in [(Sort::Font, 1, 9), (Sort::Font, 5, 9)].into_iter().chain(sizes) {
                    refused(&uploading(edition, used, Upload::new(sort, number, size)), 4);
                    let waiting = Upload { stored: 3, echoed: Some(7), ..Upload::new(sort, number, size) };
                    refused(&uploading(edition, used, waiting), 4);
                }
            }
            refused(&uploading(NEWER, used, Upload::new(Sort::Bitmap, 261, 9)), 4);
            refused(&uploading(NEWER, used, Upload::new(Sort::Bitmap, 1024, 9)), 4);
            refused(&uploading(OLDER, used, Upload::new(Sort::Bitmap, 256, 9)), 4);
            let mut full = uploading(OLDER, used, Upload::new(Sort::Font, 9, 1));
            (0..63).for_each(|k| full.store[4 * k..4 * k + 4].copy_from_slice(&[2, 100 + k as u8, 1, 0]));
            refused(&full, 4);
        }
    }

    /// Room for an upload under way goes by the directory: 459 are unused, whatever sum is kept.
    fn room_of_a_running_upload() {
        for edition in EDITIONS {
            for used in [310, 400, 768, 769, 32512, 65535] {
                refused(&uploading(edition, used, Upload::new(Sort::Bitmap, 9, 459)), 3);
                refused(&uploading(edition, used, Upload::new(Sort::Bitmap, 9, 460)), 4);
            }
            for used in [0, 1, 53, 307, 308] {
                refused(&uploading(edition, used, Upload::new(Sort::Bitmap, 9, 459)), 3);
                refused(&uploading(edition, used, Upload::new(Sort::Bitmap, 9, 460)), 4);
                refused(&uploading(edition, used, Upload::new(Sort::Bitmap, 9, 461)), 4);
            }
            let fits = uploading(edition, 309, Upload::new(Sort::Bitmap, 9, 459));
            assert_eq!(fits.clone().feed(&[7], 2).replies, [7]);
            assert_eq!(fits.clone().time(2100, 2).replies, [254, 212]);
            refused(&uploading(edition, 309, Upload::new(Sort::Bitmap, 9, 460)), 4);
        }
    }

    /// Confirmed bytes of an upload under way are not part of the sum.
    fn stored_bytes_do_not_count() {
        for stored in 1..7 {
            let upload = Upload { stored, ..Upload::new(Sort::Bitmap, 9, 7) };
            refused(&uploading(OLDER, 309 + stored, upload), 3);
            refused(&uploading(OLDER, 309 + 7, upload), 3);
            let mut right = uploading(OLDER, 309, upload);
            assert_eq!((right.feed(&[], 0).answer, right.time(0, 2).answer), (0, 0));
        }
    }

    /// Beside a wrong sum: 1 and 2 as ever, 3 for the rest of the record before 4, and 3 for its height before 1.
    fn all_others_come_first() {
        for board in all_phases() {
            let height = board.state.height;
            for used in [0, 308, 310, 65535] {
                let mut bad = with_used(&board, used);
                bad.store[255] = 1;
                refused(&bad, 4);
                (bad.state.full, bad.state.empty) = (40, 40);
                refused(&bad, 3);
                for bytes in [0, 1023, 32769] {
                    bad.store.resize(bytes, 0);
                    refused(&bad, 2);
                }
                bad.store = store_of(1023, &THREE);
                refused(&bad, 2);
                bad.glass = Glass::white(if height == LOW { TALL } else { LOW });
                refused(&bad, 1);
                bad.store.push(0);
                refused(&bad, 1);
                (bad.state.full, bad.state.empty) = (0, 0);
                refused(&bad, 1);
                bad.state.height = 65;
                refused(&bad, 3);
            }
        }
    }

    /// Records that are no state at all, with a store whose sum none of them could hold.
    fn records_without_meaning() {
        let mut board = with_three(LOW, OLDER);
        let mut answers = |wrong_length: bool| {
            let lent = || if wrong_length { Lent::WrongLength } else { Lent::Meaningless { height: LOW } };
            let fed = feed(&board.font, &mut board.glass, &mut board.store, lent(), &[65], 2);
            (fed.answer, time(&board.font, &board.glass, &board.store, lent(), 0, 2).answer)
        };
        assert_eq!((answers(true), answers(false)), ((3, 3), (3, 3)));
    }

    /// All that arriving and taking can answer and signal, with each sum of two bytes.
    fn arriving_and_taking_do_not_ask() {
        let mut state = with_three(LOW, OLDER).state;
        (state.flow, state.full, state.empty) = (true, 40, 39);
        let queue = |held, mark| Queue { held, mark, ..Queue::at_start() };
        for used in 0..=65535 {
            state.used = used;
            let full = [(0, false, 0, 0), (39, false, 0, 254), (79, true, 0, 0), (80, true, 7, 0)];
            for (held, mark, answer, signal) in full {
                let arrived = arrive(Some(&state), Some(&mut queue(held, mark)), 7);
                assert_eq!((arrived.answer, arrived.signal), (answer, signal), "{used}");
            }
            let empty = [(0, true, 6, 0), (1, false, 0, 0), (40, true, 0, 255), (41, true, 0, 0)];
            for (held, mark, answer, signal) in empty {
                let taken = take(Some(&state), Some(&mut queue(held, mark)));
                assert_eq!((taken.answer, taken.signal), (answer, signal), "{used}");
            }
        }
    }

    /// In every phase, on copies; what is unsound otherwise is still 3 to them.
    fn queue_calls_in_every_phase() {
        for board in all_phases() {
            for used in WRONG {
                let mut wrong = with_used(&board, used);
                assert_eq!((wrong.arrive(7).answer, wrong.take().byte, wrong.take().answer), (0, 7, 6));
                assert_eq!((wrong.state.used, wrong.store == board.store), (used, true));
                wrong.state.text.x = 496;
                assert_eq!((wrong.arrive(7).answer, wrong.take().answer), (3, 3));
            }
        }
    }

    /// Files that others put there or took away: 3 until the record is told, or a start counts anew.
    fn directory_changed_from_outside() {
        let mut board = with_three(LOW, OLDER);
        board.store[15..19].copy_from_slice(&[2, 9, 1, 0]);
        refused(&board, 3);
        board.state.used = 310;
        assert_eq!(board.feed(&[254, 173, 1, 9], 9).answer, 0);
        assert_eq!(board.state.used, 309);
        // the same sum of other files is the same sum
        board.store[2] = 9;
        board.store[13] = 0;
        refused(&board, 4);
        (board.store[2], board.store[13]) = (3, 6);
        assert_eq!((board.feed(&[], 0).answer, board.state.used), (0, 309));
        board.store[11..15].fill(0);
        refused(&board, 3);
        assert_eq!((board.start(Choice::of(LOW, OLDER)), board.state.used), (0, 303));
        assert_eq!(board.feed(&[], 0).answer, 0);
    }
}
