//! Everything that can be seen of a scene: answers, signals, replies, and the end.

use crate::board::Board;
use crate::checks_start::{UNKNOWN, UNKNOWN_EDITIONS};
use crate::edition::EDITIONS;
use crate::feed::{feed, time};
use crate::generator::Scene;
use crate::glass::{glass_bytes, Glass, HEIGHTS};
use crate::input::{leading_bytes, Input};
use crate::prng::Prng;
use crate::start::{start, Choice};
use crate::state::Lent;

const CALLS_MOST: usize = 20_000;

/// A list of calls fixed by the scene's seed, written out as one text.
pub fn trace(scene: &Scene) -> String {
    let mut rng = Prng::new(scene.seed ^ 0x5151);
    let mut board = scene.begin.clone();
    let mut out = String::new();
    let mut left = &scene.stream[..];
    for _ in 0..CALLS_MOST {
        let Some(&next) = left.first() else {
            break;
        };
        let size = rng.pick(&[0, 1, 2, 5, 20, 100, 500]).min(left.len());
        let room = if rng.percent(50) { 2 * size + 2 } else { rng.below(6) };
        let (fed, taken) = match next {
            Input::Byte(_) => {
                let fed = board.feed(&leading_bytes(&left[..size]), room);
                let taken = fed.consumed;
                (fed, taken)
            }
            Input::Time(milliseconds) => {
                let fed = board.time(milliseconds, room);
                let taken = (fed.answer == 0) as usize;
                (fed, taken)
            }
        };
        out += &format!("{next} {} {} {:?}\n", fed.answer, fed.consumed, fed.replies);
        out += &format!("{} {} {}\n", board.state.refusals, board.state.last_refusal, board.state.used);
        left = &left[taken..];
        if fed.answer != 0 && fed.answer != 5 {
            break;
        }
        if rng.percent(20) {
            let (burst, takes) = (rng.pick(&[1, 30, 90]), rng.pick(&[1, 30, 90]));
            for k in 0..burst {
                out += &format!("{:?}", board.arrive(k as u8));
            }
            for _ in 0..takes {
                out += &format!("{:?}", board.take());
            }
        }
    }
    out += &format!("{:?}\n{:?}\n{:?}\n{:?}\n", board.glass.to_bytes(), board.store, board.state, board.queue);
    // bad memory of several sorts at once, and a new start
    let mut glass = Glass::from_bytes(&[1; 5]);
    let fed = feed(&board.font, &mut glass, &mut vec![1; 5], Lent::WrongLength, &[], 0);
    let own = Choice::of(board.state.height, board.state.edition);
    out += &format!("{} {}\n", fed.answer, board.start(own));
    let (mut glass_here, mut bad_store, mut unsound) = (board.glass.clone(), vec![9; 1024], board.state.clone());
    unsound.text.x = 496;
    let fed = feed(&board.font, &mut glass_here, &mut bad_store, Lent::State(&mut unsound), &[45], 2);
    out += &format!("{}\n", fed.answer);
    let timed = time(&board.font, &glass_here, &bad_store, Lent::State(&mut unsound), 2100, 1);
    out += &format!("{}\n", timed.answer);
    out += &format!("{}\n", start(own, &mut glass, &[1; 5], None, None));
    out += &other_heights(&board, &mut rng);
    out += &other_sums(&board);
    out + &format!("{:?}\n{:?}\n", board.glass.to_bytes(), board.state)
}

/// A feed and a time with any height and edition in the record, and a start with any, each with a glass of some length.
fn other_heights(board: &Board, rng: &mut Prng) -> String {
    let mut out = String::new();
    for _ in 0..6 {
        let mut other = board.clone();
        let height = [rng.pick(&HEIGHTS), rng.byte()][rng.below(2)];
        let bytes = [glass_bytes(height), glass_bytes(rng.pick(&HEIGHTS)), 5][rng.below(3)];
        other.state.height = height;
        other.state.edition = rng.pick(&[1, 1, 2, 2, 0, 3]);
        other.glass = Glass::from_bytes(&vec![9; bytes]);
        let (fed, timed) = (other.feed(&[254, 88], 9), other.time(9, rng.below(4)));
        out += &format!("{} {} {:?}", fed.answer, timed.answer, [other.arrive(1).answer, other.take().answer]);
        let given = Choice {
            height: [height as u32, rng.pick(&HEIGHTS) as u32, rng.pick(&UNKNOWN)][rng.below(3)],
            edition: [rng.pick(&EDITIONS) as u32, rng.pick(&EDITIONS) as u32, rng.pick(&UNKNOWN_EDITIONS)]
                [rng.below(3)],
        };
        out += &format!("{} {:?} {:?}\n", other.start(given), other.state, other.glass.to_bytes());
    }
    out
}

/// Calls with a kept sum that is not the directory's.
fn other_sums(board: &Board) -> String {
    let mut out = String::new();
    for used in [board.state.used ^ 1, board.state.used ^ 256, 0, 65535] {
        let mut other = board.clone();
        other.state.used = used;
        let pieces = [other.feed(&[254, 88], 9), other.feed(&[], 0), other.feed(&[254, 88], 1)];
        let times = [other.time(2100, 2), other.time(0, 1)];
        out += &format!("{pieces:?} {times:?} {:?} {:?}\n", other.arrive(1), other.take());
        out += &format!("{} {:?}\n", other.start(Choice::of(board.state.height, board.state.edition)), other.state);
    }
    out
}
