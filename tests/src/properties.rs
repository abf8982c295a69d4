//! What must hold of every generated stream, run over fixed seeds.

use crate::board::Board;
use crate::book::Book;
use crate::calls::{beside_the_book, run_list};
use crate::coverage::Coverage;
use crate::generator::{any_scene, fresh_scene, Scene};
use crate::input::{leading_bytes, Input};
use crate::prng::Prng;
use crate::shrink::shrink;
use std::panic::{catch_unwind, AssertUnwindSafe};

/// Half of them for each height, and half of these for each edition.
pub const SEEDS: u64 = 2000;

pub type Property = fn(&Scene, &[Input], &mut Coverage) -> Result<(), String>;

/// All fixed scenes: even numbers from a fresh start, odd ones from any sound state.
pub fn scenes(font: &[u8], count: u64) -> impl Iterator<Item = Scene> + '_ {
    (0..count).map(move |seed| if seed % 2 == 0 { fresh_scene(font, seed) } else { any_scene(font, seed) })
}

/// Runs a property; on a failure prints the seed and a shrunk stream, then panics.
pub fn check(name: &str, font: &[u8], count: u64, property: Property, coverage: &mut Coverage) {
    for scene in scenes(font, count) {
        let attempt = |stream: &[Input], coverage: &mut Coverage| {
            catch_unwind(AssertUnwindSafe(|| property(&scene, stream, coverage)))
                .unwrap_or_else(|_| Err("a panic".into()))
        };
        if let Err(message) = attempt(&scene.stream, coverage) {
            let mut waste = Coverage::default();
            let short = shrink(&scene.stream, &mut |stream| attempt(stream, &mut waste).is_err());
            let last = attempt(&short, &mut waste).unwrap_err();
            panic!("{name}, seed {}: {message}\nshrunk to {short:?}: {last}", scene.seed);
        }
    }
}

/// The book holds after every input of one straight run.
pub fn book_holds(scene: &Scene, stream: &[Input], coverage: &mut Coverage) -> Result<(), String> {
    let mut board = scene.begin.clone();
    let mut book = Book::open(&board.glass, &board.store, &board.state);
    let all = beside_the_book(&mut book, coverage, |watch| board.run_watched(stream, watch))?;
    if all.answer != 0 {
        return Err(format!("answer {} on the way", all.answer));
    }
    if book.sure_looks > 0 {
        *coverage.counts.entry("sure bars looked at with a value over 0".into()).or_default() += book.sure_looks;
    }
    Ok(())
}

/// Cut anywhere, with room enough, the stream ends alike.
pub fn cuts_agree(scene: &Scene, stream: &[Input], _: &mut Coverage) -> Result<(), String> {
    let mut rng = Prng::new(scene.seed ^ 0x1111);
    for longest in [1, 3, 50] {
        pieces_agree(scene, stream, &mut |left| (1 + rng.below(longest)).min(left), &mut |piece| 2 * piece)?;
    }
    Ok(())
}

/// Starved of reply room and gone on after each 5, the stream ends alike.
pub fn starving_agrees(scene: &Scene, stream: &[Input], _: &mut Coverage) -> Result<(), String> {
    let mut rng = Prng::new(scene.seed ^ 0x2222);
    pieces_agree(scene, stream, &mut |left| left.min(300), &mut |_| rng.below(6))
}

/// A time told in several calls, some of them of 0, is the same time.
pub fn split_times_agree(scene: &Scene, stream: &[Input], _: &mut Coverage) -> Result<(), String> {
    let mut rng = Prng::new(scene.seed ^ 0x3333);
    let mut split = Vec::new();
    for &input in stream {
        match input {
            Input::Time(milliseconds) => {
                let first = rng.next() as u32 % milliseconds.saturating_add(1).max(1);
                split.extend([Input::Time(first), Input::Time(milliseconds - first), Input::Time(0)]);
            }
            Input::Byte(_) => split.push(input),
        }
    }
    if straight(scene, &split) != straight(scene, stream) {
        return Err("times told in parts end otherwise than the whole".into());
    }
    Ok(())
}

fn pieces_agree(
    scene: &Scene,
    stream: &[Input],
    size: &mut dyn FnMut(usize) -> usize,
    room: &mut dyn FnMut(usize) -> usize,
) -> Result<(), String> {
    let (whole, all) = straight(scene, stream);
    let mut board = scene.begin.clone();
    let mut replies = Vec::new();
    let mut left = stream;
    while let Some(&next) = left.first() {
        let piece = leading_bytes(&left[..size(left.len())]);
        let room = room(piece.len().max(1));
        let (fed, taken) = match next {
            Input::Byte(_) => {
                let fed = board.feed(&piece, room);
                let taken = fed.consumed;
                (fed, taken)
            }
            Input::Time(milliseconds) => {
                let fed = board.time(milliseconds, room);
                let taken = (fed.answer == 0) as usize;
                (fed, taken)
            }
        };
        if fed.answer != 0 && fed.answer != 5 || fed.answer == 0 && taken != piece.len().max(1) {
            return Err(format!("answer {} on the way", fed.answer));
        }
        if fed.replies.len() > room {
            return Err("more replies than room".into());
        }
        replies.extend(fed.replies);
        left = &left[taken..];
    }
    if (&board, &replies) != (&whole, &all) {
        return Err("the pieces end otherwise than the whole".into());
    }
    Ok(())
}

fn straight(scene: &Scene, stream: &[Input]) -> (Board, Vec<u8>) {
    let mut board = scene.begin.clone();
    let replies = board.run(stream).replies;
    (board, replies)
}

/// The property of whole lists of calls.
pub fn lists_hold(scene: &Scene, stream: &[Input], coverage: &mut Coverage) -> Result<(), String> {
    run_list(scene, stream, coverage)
}
