//! Lists of calls made from a seed: a beginning, a stream cut up, and other calls between.

use crate::compare::{Call, Failure, Pair};
use crate::damage;
use crate::memory::Memory;
use crate::random;
use crate::record::{EDITION, FLOW, HEIGHT, PHASE, QUEUE_BYTES, STATE_BYTES};
use crate::streams;
use reference::checks_start::{UNKNOWN, UNKNOWN_EDITIONS};
use reference::edition::EDITIONS;
use reference::generator::{any_scene, fresh_scene};
use reference::glass::{glass_bytes, HEIGHTS};
use reference::input::{leading_bytes, of_bytes, Input};
use reference::prng::Prng;
use reference::start::Choice;

pub type Run = Result<(), Box<Failure>>;

/// How a stream is cut into pieces.
#[derive(Clone, Copy, Debug, PartialEq, Eq)]
pub enum Cuts {
    Bytes,
    Few,
    Mixed,
    Long,
    Whole,
}

/// How many reply bytes are free at each call.
#[derive(Clone, Copy, Debug, PartialEq, Eq)]
pub enum Rooms {
    Plenty,
    Scarce,
    Mixed,
}

#[derive(Clone, Copy, Debug)]
pub struct Plan {
    pub cuts: Cuts,
    pub rooms: Rooms,
    /// How many calls in a hundred are others than the stream's.
    pub between: usize,
}

impl Plan {
    pub fn plain(cuts: Cuts) -> Plan {
        Plan { cuts, rooms: Rooms::Plenty, between: 0 }
    }

    fn any(rng: &mut Prng) -> Plan {
        Plan {
            cuts: rng.pick(&[Cuts::Bytes, Cuts::Few, Cuts::Mixed, Cuts::Mixed, Cuts::Long, Cuts::Whole]),
            rooms: rng.pick(&[Rooms::Plenty, Rooms::Scarce, Rooms::Mixed]),
            between: rng.pick(&[0, 5, 30]),
        }
    }
}

/// Everything that a seed stands for.
pub fn run_seed(pair: &mut Pair, seed: u64) -> Run {
    // numbers of its own: those of neighbouring seeds overlap
    let mut rng = Prng::new(Prng::new(seed ^ 0x00C0_FFEE).next());
    let (mut memory, mut stream) = beginning(pair, seed, &mut rng)?;
    let mut plan = Plan::any(&mut rng);
    if rng.below(500) == 0 {
        // now and then more bytes in one piece than two bytes can count
        stream = of_bytes(&streams::noise(&mut rng, 70_000));
        plan = Plan::plain(Cuts::Whole);
    }
    run(pair, &mut memory, &stream, plan, &mut rng)?;
    if rng.percent(30) {
        damaged(pair, &memory, &leading_bytes(&stream), &mut rng, 12)?;
    }
    Ok(())
}

fn beginning(pair: &mut Pair, seed: u64, rng: &mut Prng) -> Result<(Memory, Vec<Input>), Box<Failure>> {
    match rng.below(8) {
        0..=2 => {
            let scene = fresh_scene(pair.font(), seed);
            let (height, edition) = (scene.begin.state.height, scene.begin.state.edition);
            let mut memory = Memory {
                glass: random::bytes(rng, glass_bytes(height)),
                store: scene.begin.store,
                state: random::bytes(rng, STATE_BYTES),
                queue: random::bytes(rng, QUEUE_BYTES),
            };
            pair.call(&mut memory, Call::Start(Choice::of(height, edition)))?;
            Ok((memory, scene.stream))
        }
        3..=5 => {
            let scene = any_scene(pair.font(), seed);
            Ok((Memory::of(&scene.begin), scene.stream))
        }
        6 => {
            let memory = random::memory(rng);
            let stream = streams::commands(rng, &memory);
            Ok((memory, streams::with_times(rng, &stream)))
        }
        _ => {
            let memory = random::memory(rng);
            let count = rng.between(1, 600);
            let stream = streams::noise(rng, count);
            Ok((memory, streams::with_times(rng, &stream)))
        }
    }
}

/// Hands over the whole stream, as the plan says.
pub fn run(pair: &mut Pair, memory: &mut Memory, stream: &[Input], plan: Plan, rng: &mut Prng) -> Run {
    let mut left = stream;
    while let Some(&next) = left.first() {
        if rng.percent(plan.between) {
            between(pair, memory, &leading_bytes(left), rng)?;
            continue;
        }
        if let Input::Time(milliseconds) = next {
            let room = match plan.rooms {
                Rooms::Plenty => 2,
                Rooms::Scarce => rng.below(4),
                Rooms::Mixed => rng.pick(&[0, 1, 2, 3, 9, 200]),
            };
            let answer = pair.call(memory, Call::Time { milliseconds, room })?.answer;
            if answer != 0 && answer != 5 {
                return Ok(());
            }
            left = &left[(answer == 0) as usize..];
            continue;
        }
        let size = match plan.cuts {
            Cuts::Bytes => 1,
            Cuts::Few => rng.between(0, 5),
            Cuts::Mixed => rng.pick(&[0, 1, 1, 2, 3, 7, 20, 100, 400]),
            Cuts::Long => rng.between(100, 2000),
            Cuts::Whole => left.len(),
        };
        let piece = &leading_bytes(&left[..size.min(left.len())])[..];
        let room = match plan.rooms {
            Rooms::Plenty => 2 * piece.len() + 2,
            Rooms::Scarce => rng.below(6),
            Rooms::Mixed => rng.pick(&[0, 1, 2, 3, 4, 5, 9, 31, 200, 2 * piece.len(), 2 * piece.len() + 1]),
        };
        let fed = pair.call(memory, Call::Feed { piece, room })?;
        left = &left[fed.consumed..];
        if fed.answer != 0 && fed.answer != 5 {
            // refused memory stays refused: the rest of the stream has nowhere to go
            return Ok(());
        }
    }
    Ok(())
}

fn between(pair: &mut Pair, memory: &mut Memory, left: &[u8], rng: &mut Prng) -> Run {
    match rng.below(21) {
        0..=5 => arrivals(pair, memory, rng),
        6..=11 => takes(pair, memory, rng),
        12 | 13 => set_flow(pair, memory, rng),
        14 => {
            // a start on a copy, so that the stream can go on
            let given = start_choice(rng, memory);
            pair.call(&mut memory.clone(), Call::Start(given))?;
            Ok(())
        }
        15 => any_time(pair, memory, rng),
        _ => damaged(pair, memory, left, rng, 1),
    }
}

/// The record's own height and edition most often, else any of the known ones, or one that there is not.
pub fn start_choice(rng: &mut Prng, memory: &Memory) -> Choice {
    let recorded = |place: usize, else_: u32| memory.state.get(place).map_or(else_, |&byte| byte as u32);
    let height = match rng.below(10) {
        0 => rng.pick(&UNKNOWN),
        1 => rng.next() as u32,
        2 | 3 => rng.pick(&HEIGHTS) as u32,
        _ => recorded(HEIGHT, 64),
    };
    let edition = match rng.below(10) {
        0 => rng.pick(&UNKNOWN_EDITIONS),
        1 => rng.next() as u32,
        2..=5 => rng.pick(&EDITIONS) as u32,
        _ => recorded(EDITION, 1),
    };
    Choice { height, edition }
}

/// Times that matter to an upload, and any others.
pub fn milliseconds(rng: &mut Prng) -> u32 {
    match rng.below(10) {
        0 => rng.next() as u32,
        1 => rng.pick(&[65535, 65536, 65537, 1 << 24, 1 << 31, u32::MAX - 1, u32::MAX]),
        2 => rng.pick(&[2098, 2099, 2100, 2101]),
        3 => rng.below(2100) as u32,
        _ => rng.pick(&[0, 1, 2, 20, 100, 700]),
    }
}

fn any_time(pair: &mut Pair, memory: &mut Memory, rng: &mut Prng) -> Run {
    for _ in 0..rng.between(1, 4) {
        let (milliseconds, room) = (milliseconds(rng), rng.pick(&[0, 1, 2, 3, 100]));
        pair.call(memory, Call::Time { milliseconds, room })?;
    }
    Ok(())
}

pub fn arrivals(pair: &mut Pair, memory: &mut Memory, rng: &mut Prng) -> Run {
    for _ in 0..rng.pick(&[1, 2, 5, 40, 90]) {
        pair.call(memory, Call::Arrive(rng.byte()))?;
    }
    Ok(())
}

pub fn takes(pair: &mut Pair, memory: &mut Memory, rng: &mut Prng) -> Run {
    for _ in 0..rng.pick(&[1, 2, 5, 40, 90]) {
        pair.call(memory, Call::Take)?;
    }
    Ok(())
}

/// By a command where no other one is under way, else in the record itself.
pub fn set_flow(pair: &mut Pair, memory: &mut Memory, rng: &mut Prng) -> Run {
    let full = rng.pick(&[0, 1, 10, 39, 40, 79]);
    let empty = rng.between(0, 79 - full);
    if memory.state[PHASE] == 0 {
        let command = [254, 58, full as u8, empty as u8];
        let piece: &[u8] = if rng.percent(30) { &[254, 59] } else { &command };
        pair.call(memory, Call::Feed { piece, room: 8 })?;
    } else {
        memory.state[FLOW..FLOW + 3].copy_from_slice(&[rng.below(2) as u8, full as u8, empty as u8]);
    }
    Ok(())
}

/// Each function on damaged copies; a copy that is still sound goes on for a few calls.
pub fn damaged(pair: &mut Pair, memory: &Memory, left: &[u8], rng: &mut Prng, copies: usize) -> Run {
    for _ in 0..copies {
        let mut bad = memory.clone();
        damage::any(rng, &mut bad);
        any_calls(pair, &mut bad, left, rng)?;
    }
    Ok(())
}

pub fn any_calls(pair: &mut Pair, memory: &mut Memory, left: &[u8], rng: &mut Prng) -> Run {
    for _ in 0..rng.between(1, 4) {
        match rng.below(9) {
            0 => {
                let given = start_choice(rng, memory);
                pair.call(memory, Call::Start(given))?
            }
            1 => pair.call(memory, Call::Arrive(rng.byte()))?,
            2 => pair.call(memory, Call::Take)?,
            3 | 4 => {
                let (milliseconds, room) = (milliseconds(rng), rng.pick(&[0, 1, 2, 3, 100]));
                pair.call(memory, Call::Time { milliseconds, room })?
            }
            _ => {
                let size = rng.pick(&[0, 1, 3, 30]).min(left.len());
                pair.call(memory, Call::Feed { piece: &left[..size], room: rng.pick(&[0, 1, 2, 3, 100]) })?
            }
        };
    }
    Ok(())
}
