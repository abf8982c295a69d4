//! Time calls: their answers in order, what they leave, and the sum from which an upload is dropped.

use crate::board::Board;
use crate::case_file::upload_begun;
use crate::checks::board_of;
use crate::edition::{EDITIONS, NEWER, OLDER};
use crate::feed::{time, Fed};
use crate::glass::{Glass, HEIGHTS, LOW, TALL};
use crate::input::Input;
use crate::state::{Bar, Gathering, Inline, Lent, Sort, Upload};

const TIMES: [u32; 9] = [0, 1, 2098, 2099, 2100, 2101, 65535, 65536, u32::MAX];

fn answered(answer: u8, replies: &[u8]) -> Fed {
    Fed { answer, consumed: 0, replies: replies.to_vec() }
}

/// Whatever the room and the time, this answer and nothing changed.
fn refused(board: &Board, answer: u8) {
    let mut after = board.clone();
    for (milliseconds, room) in [(0, 0), (0, 2), (2099, 1), (2100, 2), (u32::MAX, 1), (u32::MAX, 9)] {
        assert_eq!(after.time(milliseconds, room), answered(answer, &[]), "room {room}");
    }
    assert_eq!(&after, board, "a refused call changes nothing");
}

/// In each edition and of each height: nothing under way, a prefix, a command, data in line, and three uploads.
fn all_phases() -> Vec<Board> {
    let mut all = Vec::new();
    for (height, edition) in HEIGHTS.into_iter().flat_map(|height| EDITIONS.map(|edition| (height, edition))) {
        let mut fresh = board_of(height, edition);
        fresh.glass.fill(3, 3, 200, 60, true);
        (fresh.state.refusals, fresh.state.last_refusal) = (65535, 17);
        for bytes in [vec![], vec![98, 5]] {
            let mut board = fresh.clone();
            board.state.gathering = Some(Gathering { bytes });
            all.push(board);
        }
        let mut board = fresh.clone();
        board.state.inline = Some(Inline { x1: 5, y1: 5, x2: 13, y2: 6, come: 3 });
        all.push(board);
        for upload in uploads() {
            let mut board = fresh.clone();
            board.state.upload = Some(upload);
            all.push(board);
        }
        all.push(fresh);
    }
    all
}

/// At its start, with a byte echoed, and between two bytes.
fn uploads() -> [Upload; 3] {
    let start = Upload::new(Sort::Bitmap, 9, 7);
    [start, Upload { stored: 3, echoed: Some(200), ..start }, Upload { stored: 6, ..start }]
}

/// What a drop must leave: the upload gone and the refusal, no more.
fn dropped(board: &Board) -> Board {
    let mut after = board.clone();
    after.state.upload = None;
    after.state.refusals = board.state.refusals.wrapping_add(1);
    after.state.last_refusal = 26;
    after
}

checks! {
    /// Any sum below 2,100 is kept, any other ends the upload in this call.
    fn sum_of_an_upload() {
        for board in all_phases().iter().filter(|board| board.state.upload.is_some()) {
            for waited in [0, 1, 2, 1000, 2097, 2098, 2099] {
                for milliseconds in TIMES.into_iter().chain([2099 - waited as u32, 2100 - waited as u32]) {
                    let mut before = board.clone();
                    before.state.upload.as_mut().unwrap().waited = waited;
                    let mut after = before.clone();
                    let timed = after.time(milliseconds, 2);
                    let sum = waited as u64 + milliseconds as u64;
                    if sum < 2100 {
                        assert_eq!(timed, answered(0, &[]), "{waited} and {milliseconds}");
                        before.state.upload.as_mut().unwrap().waited = sum as u16;
                        assert_eq!(after, before);
                    } else {
                        assert_eq!(timed, answered(0, &[254, 212]), "{waited} and {milliseconds}");
                        assert_eq!(after, dropped(&before));
                    }
                }
            }
        }
    }

    fn outside_an_upload_nothing_happens() {
        for board in all_phases().iter().filter(|board| board.state.upload.is_none()) {
            for milliseconds in TIMES {
                for room in [2, 3, 100] {
                    let mut after = board.clone();
                    assert_eq!(after.time(milliseconds, room), answered(0, &[]));
                    assert_eq!(&after, board);
                }
            }
        }
    }

    /// 5 with fewer than two free, whatever is under way and however little time it is.
    fn too_little_reply_room() {
        for board in all_phases() {
            for (room, milliseconds) in [0, 1].into_iter().flat_map(|room| TIMES.map(|time| (room, time))) {
                let mut after = board.clone();
                assert_eq!(after.time(milliseconds, room), answered(5, &[]));
                assert_eq!(after, board);
            }
        }
    }

    /// 3 for length and height, 1, 2, 3 for the rest of the record, 4, and only then 5.
    fn order_of_the_answers() {
        for mut bad in all_phases() {
            let (other, height) = (if bad.state.height == LOW { TALL } else { LOW }, bad.state.height);
            bad.store[255] = 1;
            refused(&bad, 4);
            bad.state.text.x = 496;
            refused(&bad, 3);
            bad.store = vec![0; 1023];
            refused(&bad, 2);
            bad.glass = Glass::white(other);
            refused(&bad, 1);
            bad.state.text.x = 0;
            refused(&bad, 1);
            bad.state.height = 65;
            refused(&bad, 3);
            for room in 0..3 {
                let lent = |record| time(&bad.font, &bad.glass, &bad.store, record, 2100, room).answer;
                assert_eq!((lent(Lent::WrongLength), lent(Lent::Meaningless { height })), (3, 1));
            }
            bad.glass = Glass::white(height);
            let lent = |record| time(&bad.font, &bad.glass, &bad.store, record, 2100, 0).answer;
            assert_eq!((lent(Lent::WrongLength), lent(Lent::Meaningless { height })), (3, 2));
            assert_eq!(lent(Lent::Meaningless { height: 0 }), 3);
        }
    }

    fn each_fault_of_the_record_is_three() {
        for board in all_phases() {
            let spoilt = |change: &dyn Fn(&mut Board)| {
                let mut bad = board.clone();
                change(&mut bad);
                bad
            };
            let bar = Bar { side: 0, x1: 0, y1: 0, x2: 9, y2: 200, value: 0 };
            refused(&spoilt(&|b| b.state.bars[3] = Some(bar)), 3);
            refused(&spoilt(&|b| (b.state.full, b.state.empty) = (40, 40)), 3);
            refused(&spoilt(&|b| b.state.edition = 0), 3);
            refused(&spoilt(&|b| b.state.edition = 3), 3);
            refused(&spoilt(&|b| b.state.height = 0), 3);
        }
    }

    fn other_lengths_of_glass_and_store() {
        for board in all_phases() {
            for bytes in [0, 1919, 1921, 3839, 3841, 5760] {
                let mut bad = board.clone();
                bad.glass = Glass::from_bytes(&vec![7; bytes]);
                refused(&bad, 1);
            }
            for bytes in [0, 255, 256, 1023, 32769] {
                let mut bad = board.clone();
                bad.store = vec![0; bytes];
                refused(&bad, 2);
            }
        }
    }

    /// 2,099 is sound and 2,100 is not, in every call that looks at the record; it is 3 and comes before 4.
    fn waited_in_the_record() {
        for edition in EDITIONS {
            for upload in uploads() {
                for (waited, sound) in [(0, true), (2098, true), (2099, true), (2100, false), (2101, false), (32768, false), (65535, false)] {
                    let mut board = board_of(LOW, edition);
                    board.state.upload = Some(Upload { waited, ..upload });
                    assert_eq!(board.state.sound(), sound, "{waited}");
                    if sound {
                        let mut other = board.clone();
                        assert_eq!((board.feed(&[], 0).answer, other.time(0, 2).answer), (0, 0));
                        assert_eq!((board.arrive(7).answer, board.take().answer), (0, 0));
                        continue;
                    }
                    refused(&board, 3);
                    assert_eq!((board.feed(&[7], 2).answer, board.feed(&[], 2).answer), (3, 3));
                    assert_eq!((board.arrive(7).answer, board.take().answer), (3, 3));
                    board.store[255] = 7;
                    refused(&board, 3);
                    board.store = vec![0; 1000];
                    refused(&board, 2);
                }
            }
        }
    }

    /// Start, data byte and confirmation set the sum to 0; nothing else is there to do so.
    fn sum_after_each_byte() {
        for edition in EDITIONS {
            let mut board = board_of(LOW, edition);
            let waited = |board: &Board| board.state.upload.map(|upload| upload.waited);
            board.time(2000, 2);
            board.feed(&upload_begun(edition, 94, 9, 2), 9);
            assert_eq!(waited(&board), Some(0));
            for (byte, left) in [(7, Some(0)), (1, Some(0)), (8, Some(0)), (1, None)] {
                for (milliseconds, sum) in [(700, 700), (0, 700), (1399, 2099)] {
                    board.time(milliseconds, 2);
                    assert_eq!(waited(&board), Some(sum));
                }
                board.feed(&[byte], 2);
                assert_eq!(waited(&board), left);
            }
            assert_eq!((board.state.refusals, board.time(2100, 2).replies.len()), (0, 0));
        }
    }

    /// Confirmed bytes stay in free room, and the directory stays: the very same store.
    fn confirmed_bytes_stay() {
        for edition in EDITIONS {
            let mut board = board_of(LOW, edition);
            board.store[256..].fill(99);
            board.feed(&crate::case_file::upload(edition, 94, 3, &[1, 2]), 99);
            board.feed(&upload_begun(edition, 36, 9, 4), 9);
            board.feed(&[50, 1, 60, 1, 70], 9);
            let store = board.store.clone();
            assert_eq!(store[256..262], [1, 2, 50, 60, 99, 99]);
            assert_eq!(board.time(2100, 2), answered(0, &[254, 212]));
            assert_eq!(board.store, store);
            // the next upload begins at the same free byte
            board.feed(&crate::case_file::upload(edition, 36, 9, &[5]), 9);
            assert_eq!(board.store[256..262], [1, 2, 5, 60, 99, 99]);
        }
    }

    /// Outside any command: the next byte is a character, or begins one.
    fn line_after_a_drop() {
        for board in all_phases().iter().filter(|board| board.state.upload.is_some()) {
            let mut after = board.clone();
            after.time(2100, 2);
            let state = &after.state;
            assert!(state.gathering.is_none() && state.inline.is_none() && state.upload.is_none());
            let mut text = after.clone();
            text.feed(&[65], 2);
            assert_eq!(text.state.text.x, 5);
            after.feed(&[254], 2);
            assert_eq!(after.state.gathering, Some(Gathering { bytes: vec![] }));
        }
    }

    fn refusal_count_rolls_over() {
        let mut board = board_of(LOW, OLDER);
        board.state.refusals = 65535;
        board.state.upload = Some(uploads()[0]);
        board.time(2100, 2);
        assert_eq!((board.state.refusals, board.state.last_refusal), (0, 26));
    }

    /// A call without room is made again with it: what passed is told once.
    fn starved_then_told_again() {
        for edition in EDITIONS {
            let mut board = board_of(LOW, edition);
            board.feed(&upload_begun(edition, 94, 9, 2), 9);
            for room in [0, 1, 0] {
                assert_eq!(board.time(2099, room).answer, 5);
            }
            assert_eq!(board.time(2099, 2), answered(0, &[]));
            assert_eq!(board.time(1, 1).answer, 5);
            assert_eq!(board.time(1, 2), answered(0, &[254, 212]));
        }
    }

    /// An upload in the record that the directory does not let in is 4 for time too, before it could be dropped.
    fn impossible_upload_is_not_dropped() {
        let mut bad = board_of(LOW, NEWER);
        bad.state.upload = Some(Upload { waited: 2099, ..Upload::new(Sort::Font, 1, 9) });
        refused(&bad, 4);
        bad.state.upload = Some(Upload { waited: 2099, ..Upload::new(Sort::Bitmap, 1024, 9) });
        refused(&bad, 4);
        bad.state.upload = Some(Upload { waited: 2099, ..Upload::new(Sort::Bitmap, 9, 769) });
        refused(&bad, 4);
        bad.state.upload = Some(Upload { waited: 2099, ..Upload::new(Sort::Bitmap, 9, 768) });
        assert_eq!(bad.time(1, 2), answered(0, &[254, 212]));
    }

    /// Every cut of this stream, times among its bytes, ends alike.
    fn every_single_cut() {
        let words = "t9 254 94 t2099 2 3 0 t2099 8 t5 t6 1 1 t2099 t1 254 94 2 3 0 8 1 1 1 129 t2099 1 254 98 2 t9 9 9 65";
        let stream: Vec<Input> = words.split(' ').map(|word| word.parse().unwrap()).collect();
        let mut whole = board_of(LOW, OLDER);
        let all = whole.run(&stream);
        assert_eq!((all.answer, all.replies), (0, vec![1, 8, 1, 254, 212, 1, 8, 1, 129]));
        for cut in 0..=stream.len() {
            let mut pieces = board_of(LOW, OLDER);
            pieces.run(&stream[..cut]);
            pieces.run(&stream[cut..]);
            assert_eq!(pieces, whole, "cut at {cut}");
        }
    }
}
