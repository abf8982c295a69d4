//! Calls on copies whose kept sum is wrong: 3 behind all that is 4 and before 5, while arriving, taking and start
//! answer as ever.

use crate::board::Board;
use crate::coverage::Coverage;
use crate::coverage_used::{behind_name, phase, refused_name, starts_name, unminded_name};
use crate::edition::OLDER;
use crate::feed::Fed;
use crate::files::Files;
use crate::prng::Prng;
use crate::start::Choice;
use crate::state::{Sort, Upload};

/// How a kept sum can be wrong.
#[derive(Clone, Copy, Debug, PartialEq, Eq)]
pub enum Wrong {
    OneLess,
    OneMore,
    /// 0 while there are files.
    Nothing,
    Most,
    HighByte,
    LowByte,
}

pub const WRONG: [Wrong; 6] =
    [Wrong::OneLess, Wrong::OneMore, Wrong::Nothing, Wrong::Most, Wrong::HighByte, Wrong::LowByte];

impl Wrong {
    /// `None` where an empty store leaves no such sum.
    pub fn instead_of(self, sum: u16, rng: &mut Prng) -> Option<u16> {
        let other = rng.between(1, 255) as u16;
        match self {
            Wrong::OneLess => sum.checked_sub(1),
            Wrong::OneMore => Some(sum + 1),
            Wrong::Nothing => (sum > 0).then_some(0),
            Wrong::Most => Some(u16::MAX),
            Wrong::HighByte => Some(sum ^ (other << 8)),
            Wrong::LowByte => Some(sum ^ other),
        }
    }
}

/// What is wrong beside the sum, and found before it.
#[derive(Clone, Copy, Debug, PartialEq, Eq)]
pub enum Beside {
    Directory,
    /// An upload under way that would get this refusal now.
    Upload(u8),
}

pub const BESIDE: [Beside; 4] = [Beside::Directory, Beside::Upload(19), Beside::Upload(24), Beside::Upload(25)];

pub fn wrong_sums(board: &Board, piece: &[u8], rng: &mut Prng, coverage: &mut Coverage) -> Result<(), String> {
    let mut rng = Prng::new(rng.next());
    let wrong = rng.pick(&WRONG);
    let Some(used) = wrong.instead_of(board.state.used, &mut rng) else {
        return Ok(());
    };
    let mut bad = board.clone();
    bad.state.used = used;
    let piece = if piece.is_empty() { &[65] } else { piece };
    for call in refused_with(3, &bad, piece, &mut rng)? {
        coverage.note(refused_name(&board.state, wrong, call));
    }
    let beside = rng.pick(&BESIDE);
    spoil(&mut bad, beside, &mut rng);
    for call in refused_with(4, &bad, piece, &mut rng)? {
        coverage.note(behind_name(&board.state, wrong, beside, call));
    }
    unminded(board, used)?;
    coverage.note(unminded_name(&board.state, wrong));
    started(board, used)?;
    coverage.note(starts_name(&board.state, wrong));
    Ok(())
}

/// Pieces and times with room and without, each with this answer and nothing changed; their names for the counts.
fn refused_with(answer: u8, bad: &Board, piece: &[u8], rng: &mut Prng) -> Result<[&'static str; 5], String> {
    let names = ["a piece", "an empty piece", "a starved piece", "a time", "a starved time"];
    let (milliseconds, starved) = (rng.pick(&[0, 1, 2099, 2100, u32::MAX]), rng.below(2));
    for name in names {
        let mut after = bad.clone();
        let fed = match name {
            "a piece" => after.feed(piece, 2 * piece.len()),
            "an empty piece" => after.feed(&[], starved),
            "a starved piece" => after.feed(piece, starved),
            "a time" => after.time(milliseconds, 2),
            _ => after.time(milliseconds, starved),
        };
        if fed != (Fed { answer, consumed: 0, replies: Vec::new() }) || after != *bad {
            let under_way = phase(&bad.state);
            return Err(format!("{name} in {under_way} with {} kept answers {}", bad.state.used, fed.answer));
        }
    }
    Ok(names)
}

fn spoil(bad: &mut Board, beside: Beside, rng: &mut Prng) {
    let Beside::Upload(refusal) = beside else {
        bad.store[255] = 7;
        return;
    };
    let files = Files::read(&bad.store).expect("a good directory");
    let font_one = (Sort::Font, 1);
    let held = files.list.get(rng.below(files.list.len() + 1)).map_or(font_one, |file| (file.sort(), file.number));
    let upload = match refusal {
        19 => Upload::new(Sort::Bitmap, if bad.state.edition == OLDER { 256 } else { 1024 }, 9),
        // by one byte, which a wrong sum may hide
        24 => Upload::new(Sort::Bitmap, 29, files.unused() as u16 + 1),
        _ => Upload::new(held.0, held.1, 1),
    };
    (bad.state.gathering, bad.state.inline, bad.state.upload) = (None, None, Some(upload));
}

/// Arriving and taking: the same answers, bytes and signals, and the same queue, whatever the sum.
fn unminded(board: &Board, used: u16) -> Result<(), String> {
    let (mut right, mut wrong) = (board.clone(), board.clone());
    wrong.state.used = used;
    for byte in [7, 8] {
        let same = right.arrive(byte) == wrong.arrive(byte) && right.take() == wrong.take();
        if !same || right.queue != wrong.queue || wrong.state.used != used {
            return Err(format!("arriving and taking mind {used}"));
        }
    }
    Ok(())
}

/// A start leaves what it leaves from the right sum.
fn started(board: &Board, used: u16) -> Result<(), String> {
    let (mut right, mut wrong) = (board.clone(), board.clone());
    wrong.state.used = used;
    let own = Choice::of(board.state.height, board.state.edition);
    if right.start(own) != 0 || wrong.start(own) != 0 || right != wrong || right.state.used != board.state.used {
        return Err(format!("a start from {used} leaves {}", wrong.state.used));
    }
    Ok(())
}
