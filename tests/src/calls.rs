//! Lists of calls over a stream: pieces of any size and times, any reply room, refused calls between.

use crate::board::Board;
use crate::book::Book;
use crate::book_used::sum_is_true;
use crate::calls_refused::refused_calls;
use crate::calls_used::wrong_sums;
use crate::coverage::Coverage;
use crate::feed::{Fed, Watch};
use crate::generator::Scene;
use crate::input::{leading_bytes, Input};
use crate::prng::Prng;
use std::collections::VecDeque;

/// Runs the stream as a list of calls; the end must be that of one straight call.
pub fn run_list(scene: &Scene, stream: &[Input], coverage: &mut Coverage) -> Result<(), String> {
    let mut rng = Prng::new(scene.seed ^ 0x77);
    let mut straight = scene.begin.clone();
    let all = straight.run(stream);
    let mut board = scene.begin.clone();
    let mut book = Book::open(&board.glass, &board.store, &board.state);
    let mut replies = Vec::new();
    let mut waiting: VecDeque<u8> = VecDeque::new();
    let mut left = stream;
    while let Some(&next) = left.first() {
        match (rng.below(10), next) {
            (0..=5, Input::Byte(_)) => {
                let size = rng.pick(&[0, 1, 1, 2, 3, 7, 20, 100, 400]);
                let bytes = leading_bytes(&left[..size.min(left.len())]);
                let room = if rng.percent(50) { 2 * bytes.len() + 2 } else { rng.below(6) };
                let fed = watched(&mut board, &bytes, room, &mut book, coverage)?;
                replies.extend(fed.replies);
                left = &left[fed.consumed..];
            }
            (0..=5, Input::Time(milliseconds)) => {
                let fed = waited(&mut board, milliseconds, rng.below(5), &mut book, coverage)?;
                replies.extend(fed.replies);
                left = &left[(fed.answer == 0) as usize..];
            }
            (6, _) => arrivals(&mut board, &mut rng, &mut waiting, coverage)?,
            (7, _) => takes(&mut board, &mut rng, &mut waiting, coverage)?,
            _ => {
                refused_calls(&board, &leading_bytes(left), &mut rng, coverage)?;
                wrong_sums(&board, &leading_bytes(left), &mut rng, coverage)?;
            }
        }
    }
    if (&board.glass, &board.store, &board.state) != (&straight.glass, &straight.store, &straight.state) {
        return Err("the list ends otherwise than one call".into());
    }
    if replies != all.replies {
        return Err("the list's replies are not those of one call".into());
    }
    Ok(())
}

/// Makes a call with the book at its side, which sees every step.
pub fn beside_the_book(
    book: &mut Book,
    coverage: &mut Coverage,
    call: impl FnOnce(&mut Watch) -> Fed,
) -> Result<Fed, String> {
    let mut result = Ok(());
    let fed = call(&mut |step, glass, files, state| {
        coverage.step(step, files, state);
        coverage.colour(step, book.glass(), glass, state.height, book.colour_byte());
        coverage.edition(step, (book.store(), book.state()), files);
        coverage.used(step, (book.store(), book.state()), state);
        let (text, sure) = (book.state().text.clone(), book.sure());
        if result.is_ok() {
            result = book.input(step, glass, files, state);
        }
        coverage.missing_letter(step, files, state, (&text, sure), book.sure());
    });
    result.map(|()| fed)
}

/// One time call; 5 without two free reply bytes, and then nothing has changed.
fn waited(
    board: &mut Board,
    milliseconds: u32,
    room: usize,
    book: &mut Book,
    coverage: &mut Coverage,
) -> Result<Fed, String> {
    let before = board.clone();
    let fed = beside_the_book(book, coverage, |watch| board.time_watched(milliseconds, room, watch))?;
    coverage.answer("time", fed.answer);
    coverage.time_call(&before.state, milliseconds, fed.answer);
    let dropped = before.state.upload.is_some() && board.state.upload.is_none();
    let replies: &[u8] = if dropped { &[254, 212] } else { &[] };
    if fed.answer != if room < 2 { 5 } else { 0 } || fed.replies != replies {
        return Err(format!("time with {room} reply bytes free answers {} and {:?}", fed.answer, fed.replies));
    }
    if fed.answer == 5 && *board != before {
        return Err("a time call without room changed something".into());
    }
    sum_is_true(&board.store, &board.state)?;
    Ok(fed)
}

/// One feed; its answer must fit its counts.
fn watched(
    board: &mut Board,
    piece: &[u8],
    room: usize,
    book: &mut Book,
    coverage: &mut Coverage,
) -> Result<Fed, String> {
    let fed = beside_the_book(book, coverage, |watch| board.feed_watched(piece, room, watch))?;
    coverage.answer("feed", fed.answer);
    let free = room - fed.replies.len();
    let fits = match fed.answer {
        0 => fed.consumed == piece.len(),
        5 => fed.consumed < piece.len() && free < 2,
        _ => false,
    };
    if !fits {
        return Err(format!("answer {} with {} of {} consumed", fed.answer, fed.consumed, piece.len()));
    }
    sum_is_true(&board.store, &board.state)?;
    Ok(fed)
}

fn arrivals(
    board: &mut Board,
    rng: &mut Prng,
    waiting: &mut VecDeque<u8>,
    coverage: &mut Coverage,
) -> Result<(), String> {
    for _ in 0..rng.pick(&[1, 5, 40, 90]) {
        let byte = rng.byte();
        let before = board.clone();
        let arrived = board.arrive(byte);
        coverage.answer("arrive", arrived.answer);
        if arrived.answer == 0 {
            coverage.signal("arrive", arrived.signal);
            waiting.push_back(byte);
        }
        let lost = board.queue.lost.wrapping_sub(before.queue.lost);
        if (arrived.answer == 7) != (before.queue.held == 80) || (lost == 1) != (arrived.answer == 7) {
            return Err("an arrival was dropped without need, or kept without room".into());
        }
        if arrived.signal == 254 && (before.queue.mark || !board.queue.mark || !board.state.flow) {
            return Err("254 while the mark was up, or flow off".into());
        }
        same_but_queue(&before, board)?;
    }
    Ok(())
}

fn takes(board: &mut Board, rng: &mut Prng, waiting: &mut VecDeque<u8>, coverage: &mut Coverage) -> Result<(), String> {
    for _ in 0..rng.pick(&[1, 5, 40, 90]) {
        let before = board.clone();
        let taken = board.take();
        coverage.answer("take", taken.answer);
        let expected = waiting.pop_front();
        if (taken.answer == 0).then_some(taken.byte) != expected {
            return Err("a take does not give the oldest byte".into());
        }
        if taken.answer == 0 {
            coverage.signal("take", taken.signal);
        }
        if taken.signal == 255 && (!before.queue.mark || board.queue.mark || !board.state.flow) {
            return Err("255 while the mark was down, or flow off".into());
        }
        same_but_queue(&before, board)?;
    }
    Ok(())
}

fn same_but_queue(before: &Board, after: &Board) -> Result<(), String> {
    let mut expected = before.clone();
    expected.queue = after.queue.clone();
    if expected != *after {
        return Err("an arrival or a take changed more than the queue".into());
    }
    Ok(())
}
