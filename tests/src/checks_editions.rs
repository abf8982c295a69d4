//! The edition given to start and in the record, and the numbers and sizes that it makes wider.

use crate::board::Board;
use crate::case_file::upload_begun;
use crate::checks::{board, board_of};
use crate::checks_start::UNKNOWN_EDITIONS;
use crate::commands::arguments;
use crate::edition::{number_sent, EDITIONS, NEWER, OLDER};
use crate::feed::{feed, Fed};
use crate::glass::{glass_bytes, Glass, HEIGHTS, LOW, TALL};
use crate::start::{start, Choice};
use crate::state::{Gathering, Lent, Sort, State, Upload};

fn refused_start(board: &Board, given: Choice, answer: u8) {
    let mut after = board.clone();
    assert_eq!(after.start(given), answer, "{given:?}");
    assert_eq!(&after, board, "a refused start changes nothing");
}

/// A piece, an empty piece and a time call, each with this answer and nothing changed.
fn refused(board: &Board, answer: u8) {
    let expected = Fed { answer, consumed: 0, replies: Vec::new() };
    let mut after = board.clone();
    assert_eq!(after.feed(&[254, 88], 9), expected);
    assert_eq!(after.feed(&[], 9), expected);
    assert_eq!(after.time(2100, 9), expected);
    assert_eq!(after.time(0, 0), expected, "before 5");
    assert_eq!(&after, board, "a refused call changes nothing");
}

/// After a stream, with nothing refused on the way but inside it.
fn after(edition: u8, stream: &[u8]) -> Board {
    let mut board = board_of(LOW, edition);
    assert_eq!(board.feed(stream, 2 * stream.len()).answer, 0);
    board
}

checks! {
    fn editions_that_there_are_not() {
        for (height, edition) in HEIGHTS.into_iter().flat_map(|height| UNKNOWN_EDITIONS.map(|edition| (height, edition))) {
            refused_start(&board(height), Choice { height: height as u32, edition }, 3);
        }
    }

    /// Height and lengths, glass, store, edition, directory.
    fn unknown_edition_comes_between_store_and_directory() {
        for edition in UNKNOWN_EDITIONS {
            let given = |height: u32| Choice { height, edition };
            let mut bad = board(LOW);
            bad.store[0] = 9;
            refused_start(&bad, given(64), 3);
            bad.store = vec![0; 1023];
            refused_start(&bad, given(64), 2);
            bad.glass = Glass::from_bytes(&[1; 1919]);
            refused_start(&bad, given(64), 1);
            bad.store = vec![0; 1024];
            refused_start(&bad, given(64), 1);
            refused_start(&bad, given(65), 3);
            bad.glass = Glass::white(LOW);
            refused_start(&bad, given(128), 1);
            assert_eq!(start(given(64), &mut bad.glass, &bad.store, None, Some(&mut bad.queue)), 3);
        }
        for edition in EDITIONS {
            let mut bad = board(LOW);
            bad.store[0] = 9;
            refused_start(&bad, Choice::of(LOW, edition), 4);
            assert_eq!(start(Choice::of(LOW, edition), &mut bad.glass, &bad.store, None, None), 3);
        }
    }

    /// Whatever edition the record has held before.
    fn start_chooses_the_edition() {
        for (height, edition) in HEIGHTS.into_iter().flat_map(|height| EDITIONS.map(|edition| (height, edition))) {
            for held in [0, 1, 2, 3, 255] {
                let mut board = board(height);
                board.state.edition = held;
                board.state.upload = Some(Upload { waited: 9999, ..Upload::new(Sort::Font, 5000, 9) });
                board.glass = Glass::from_bytes(&vec![170; glass_bytes(height)]);
                assert_eq!(board.start(Choice::of(height, edition)), 0);
                assert_eq!(board.state, State::at_start(height, edition));
                assert_eq!((board.state.edition, board.state.upload), (edition, None));
            }
        }
    }

    /// Nothing but the edition depends on it at the start.
    fn editions_start_alike() {
        for height in HEIGHTS {
            let mut newer = board_of(height, NEWER);
            newer.state.edition = OLDER;
            assert_eq!(newer, board(height));
        }
    }

    /// After 1 and 2, beside the rest of the record, before 4.
    fn unknown_edition_in_the_record() {
        for (own, other) in [(LOW, TALL), (TALL, LOW)] {
            for edition in (0..=255).filter(|edition| !EDITIONS.contains(edition)) {
                let mut bad = board(own);
                bad.state.edition = edition;
                refused(&bad, 3);
                bad.store[0] = 9;
                refused(&bad, 3);
                bad.store = vec![0; 1023];
                refused(&bad, 2);
                bad.glass = Glass::white(other);
                refused(&bad, 1);
                bad.store = vec![0; 1024];
                refused(&bad, 1);
                bad.state.height = 65;
                refused(&bad, 3);
            }
        }
    }

    fn arriving_and_taking_mind_the_edition() {
        for edition in 0..=255 {
            let mut board = board(LOW);
            board.arrive(9);
            board.state.edition = edition;
            let before = board.clone();
            let answer = if EDITIONS.contains(&edition) { 0 } else { 3 };
            assert_eq!((board.arrive(7).answer, board.take().answer), (answer, answer), "{edition}");
            assert_eq!(board.queue == before.queue, answer == 3);
        }
    }

    /// A record without meaning has an unknown edition as it has anything else: only its height is read first.
    fn meaningless_records_are_three_after_two() {
        let mut b = board(LOW);
        b.store = vec![0; 1023];
        let meaningless = Lent::Meaningless { height: LOW };
        assert_eq!(feed(&b.font, &mut b.glass, &mut b.store, meaningless, &[], 9).answer, 2);
    }

    fn how_many_arguments() {
        let of = |code| (arguments(code, OLDER), arguments(code, NEWER));
        for (code, older, newer) in [(36, 3, 6), (94, 3, 6), (49, 1, 2), (98, 3, 4), (173, 2, 3)] {
            assert_eq!(of(code), (Some(older), Some(newer)), "{code}");
        }
        let naming = [36, 94, 49, 98, 173];
        for code in (0..=255).filter(|code| !naming.contains(code)) {
            assert_eq!(of(code).0, of(code).1, "{code}");
        }
    }

    /// Each argument but the last is gathered, the last one ends the command.
    fn arguments_are_gathered() {
        for edition in EDITIONS {
            for code in [36, 94, 49, 98, 173] {
                // 98 needs a bitmap to go on behind its number
                let mut board = after(edition, &crate::case_file::upload(edition, 94, 0, &[8, 1, 129]));
                board.feed(&[254, code], 9);
                let needs = arguments(code, edition).unwrap();
                for got in 0..needs {
                    let bytes = [vec![code], vec![0; got]].concat();
                    assert_eq!(board.state.gathering, Some(Gathering { bytes }));
                    board.feed(&[0], 9);
                }
                assert_eq!((board.state.gathering, board.state.upload), (None, None), "{code}");
            }
        }
    }

    fn gathering_is_judged_by_the_edition() {
        for (code, older, newer) in [(36, 3, 6), (94, 3, 6), (49, 1, 2), (98, 3, 4), (173, 2, 3), (103, 6, 6)] {
            for got in 0..8 {
                for (edition, needs) in [(OLDER, older), (NEWER, newer)] {
                    let mut board = board_of(LOW, edition);
                    board.state.gathering = Some(Gathering { bytes: [vec![code], vec![0; got]].concat() });
                    assert_eq!(board.state.sound(), got < needs, "{code} with {got} in {edition}");
                    let answer = if got < needs { 0 } else { 3 };
                    assert_eq!((board.feed(&[], 2).answer, board.time(9, 2).answer), (answer, answer));
                }
            }
        }
    }

    /// A gathered record goes on in the record's edition: one byte of a font's number is enough, or is not.
    fn gathered_bytes_go_on_in_the_edition() {
        for (edition, refusals, left) in [(OLDER, 1, None), (NEWER, 0, Some(vec![49, 9]))] {
            let mut board = board_of(LOW, edition);
            board.state.gathering = Some(Gathering { bytes: vec![49] });
            board.feed(&[9], 2);
            assert_eq!(board.state.refusals, refusals);
            assert_eq!(board.state.gathering.map(|gathering| gathering.bytes), left);
        }
    }

    /// A record may hold a bitmap's number that is not there, or above the range: it is judged with the place.
    fn gathered_bitmap_that_cannot_be() {
        for (number, refusal) in [(5, 22), (300, 22), (1023, 22), (1024, 19), (65535, 19)] {
            let mut board = board_of(LOW, NEWER);
            board.state.gathering = Some(Gathering { bytes: [vec![98], number_sent(NEWER, number)].concat() });
            board.feed(&[1], 2);
            assert_eq!(board.state.refusals, 0);
            board.feed(&[1], 2);
            assert_eq!((board.state.refusals, board.state.last_refusal), (1, refusal), "{number}");
            assert_eq!(board.state.gathering, None);
        }
    }

    /// 1 or 8 for each size: the low two bytes alone never decide.
    fn sizes_of_four_bytes() {
        for store in [1024, 1025, 32768] {
            let area = store - 256;
            let mut fresh = board_of(LOW, NEWER);
            fresh.store = vec![0; store];
            let edges = (0..32).flat_map(|bit| [(1u64 << bit) - 1, 1 << bit, (1 << bit) + 1]);
            let near = (0..5).flat_map(|high| [area - 1, area, area + 1].map(|low| low as u64 + 65536 * high));
            for size in edges.chain(near).chain([u32::MAX as u64 - 1, u32::MAX as u64]).filter(|&size| size < 1 << 32) {
                let fits = (1..=area as u64).contains(&size);
                let mut board = fresh.clone();
                let fed = board.feed(&upload_begun(NEWER, 94, 300, size as usize), 9);
                assert_eq!(fed.replies, [if fits { 1 } else { 8 }], "{size} of {area}");
                assert_eq!(board.state.last_refusal, if fits { 0 } else { 24 });
                assert_eq!(board.state.upload, fits.then(|| Upload::new(Sort::Bitmap, 300, size as u16)));
            }
        }
    }

    /// No edition has a word in anything that names no file.
    fn other_commands_are_alike() {
        let stream = [254, 52, 1, 2, 254, 103, 0, 1, 0, 0, 9, 1, 254, 105, 0, 5, 254, 100, 20, 20, 29, 21, 1, 2, 3, 4, 65, 200];
        let (mut older, mut newer) = (after(OLDER, &stream), after(NEWER, &stream));
        assert_eq!(older.feed(&[254, 33, 89, 33], 9), newer.feed(&[254, 33, 89, 33], 9));
        newer.state.edition = OLDER;
        assert_eq!(older, newer);
    }
}
