//! Time calls: every sum about the limit, every room, every place in a stream, and the order of their answers.

use compare::compare::{Call, Pair};
use compare::lists::{milliseconds, run, Cuts, Plan, Rooms, Run};
use compare::memory::Memory;
use compare::random;
use compare::record::{EDITION, FLOW, HEIGHT, PHASE, STATE_BYTES, USED, WAITED};
use compare::report::expect;
use compare::streams;
use reference::board::Board;
use reference::case_file::upload;
use reference::directory::DIRECTORY;
use reference::edition::EDITIONS;
use reference::glass::{HEIGHTS, LOW, TALL};
use reference::input::{of_bytes, Input};
use reference::prng::Prng;
use reference::state::{Sort, Upload};

/// An upload at its start, with a byte echoed, and between two bytes.
fn uploads() -> [Upload; 3] {
    let start = Upload::new(Sort::Bitmap, 9, 7);
    [start, Upload { stored: 3, echoed: Some(200), ..start }, Upload { stored: 6, ..start }]
}

/// Every sum that a record may hold, with times that just leave it, just end it, and are huge.
#[test]
fn every_sum() {
    let mut pair = Pair::default();
    let mut rng = Prng::new(51);
    for waited in 0..2100u32 {
        let edition = EDITIONS[waited as usize % 2];
        let height = HEIGHTS[waited as usize / 2 % 2];
        let mut board = Board::fresh(pair.font(), height, edition, vec![0; 1024]);
        let upload = uploads()[waited as usize / 4 % 3];
        board.state.upload = Some(Upload { waited: waited as u16, ..upload });
        let memory = Memory::of(&board);
        let left = 2100 - waited;
        let any = milliseconds(&mut rng);
        for time in
            [0, 1, left - 1, left, left + 1, 65536 - waited, 65536, u32::MAX - waited, u32::MAX - left, u32::MAX, any]
        {
            let result = pair.call(&mut memory.clone(), Call::Time { milliseconds: time, room: 2 });
            expect(&mut pair, &format!("{time} after {waited}"), result.map(drop));
        }
    }
    pair.counts.met_in_both("time", 0, 5000);
    assert!(pair.counts.replies > 5000);
}

/// Many small times in a row, with bytes between them.
#[test]
fn sums_of_many() {
    let mut pair = Pair::default();
    for seed in 0..200 {
        let mut rng = Prng::new(seed ^ 0x52);
        let (height, edition) = (HEIGHTS[seed as usize % 2], EDITIONS[seed as usize / 2 % 2]);
        let mut memory = Memory::of(&Board::fresh(pair.font(), height, edition, vec![0; 1024]));
        let bytes = upload(edition, 94, 30, &[7; 20]);
        let mut stream = Vec::new();
        for byte in bytes {
            for _ in 0..rng.below(5) {
                stream.push(Input::Time(rng.pick(&[0, 1, 99, 500, 699, 700, 1049])));
            }
            stream.push(Input::Byte(byte));
        }
        let result = run(&mut pair, &mut memory, &stream, Plan::plain(Cuts::Mixed), &mut rng);
        expect(&mut pair, &format!("seed {seed}"), result);
    }
}

/// Each room from none to more than enough, whatever is under way.
#[test]
fn every_room() {
    let mut pair = Pair::default();
    let mut rng = Prng::new(53);
    for number in 0..300 {
        let memory = random::memory(&mut rng);
        for room in 0..6 {
            for time in [0, 1, 2099, 2100, u32::MAX] {
                let result = pair.call(&mut memory.clone(), Call::Time { milliseconds: time, room });
                expect(&mut pair, &format!("memory {number}, room {room}, time {time}"), result.map(drop));
            }
        }
    }
    for answer in [0, 5] {
        pair.counts.met_in_both("time", answer, 500);
        pair.counts.met_on_both("time", answer, 500);
    }
}

/// One time at every place of a stream with uploads, data in line and commands, and the rest after it.
#[test]
fn one_time_between_any_two_bytes() {
    let mut pair = Pair::default();
    let mut rng = Prng::new(54);
    for (height, edition) in [(LOW, EDITIONS[0]), (TALL, EDITIONS[1]), (LOW, EDITIONS[1])] {
        let board = Board::fresh(pair.font(), height, edition, vec![0; 1024]);
        let picture = upload(edition, 94, 2, &[8, 1, 129]);
        let font = upload(edition, 36, 3, &[4, 1, 65, 65, 0, 7, 2, 192]);
        let bytes = [&picture[..], &[254, 100, 0, 0, 7, 2, 255, 1, 129, 254, 52, 1, 2], &font, &[65]].concat();
        for place in 0..=bytes.len() {
            for time in [0, 2099, 2100, u32::MAX] {
                let mut stream = of_bytes(&bytes);
                stream.insert(place, Input::Time(time));
                let mut memory = Memory::of(&board);
                let result = run(&mut pair, &mut memory, &stream, Plan::plain(Cuts::Whole), &mut rng);
                expect(&mut pair, &format!("{time} before byte {place} in edition {edition}"), result);
            }
        }
    }
}

/// Times before, between and behind all bytes of chance streams, with any room.
#[test]
fn times_everywhere() {
    let mut pair = Pair::default();
    for seed in 0..150 {
        let mut rng = Prng::new(seed ^ 0x55);
        let mut memory = random::memory(&mut rng);
        let bytes = streams::commands(&mut rng, &memory);
        let mut stream = Vec::new();
        for &byte in bytes.iter().take(300) {
            let time = if rng.percent(90) { rng.below(40) as u32 } else { milliseconds(&mut rng) };
            stream.extend([Input::Time(time), Input::Byte(byte)]);
        }
        let plan = Plan { cuts: Cuts::Bytes, rooms: Rooms::Mixed, between: 3 };
        let result = run(&mut pair, &mut memory, &stream, plan, &mut rng);
        expect(&mut pair, &format!("seed {seed}"), result);
    }
    for answer in [0, 5] {
        pair.counts.met_in_both("time", answer, 500);
    }
}

/// One to three things wrong at once, with and without room: the memory's answers in their order, then 5.
#[test]
fn order_of_the_answers() {
    let mut pair = Pair::default();
    let mut rng = Prng::new(56);
    for (height, edition) in HEIGHTS.into_iter().flat_map(|height| EDITIONS.map(|edition| (height, edition))) {
        for faults in 0..1 << 8 {
            let mut bad = random::memory_with(&mut rng, height, edition);
            let has = |fault: usize| faults >> fault & 1 == 1;
            spoil(&mut bad, &has);
            for (time, room) in [(0, 0), (0, 2), (2100, 1), (2100, 2)] {
                let result = pair.call(&mut bad.clone(), Call::Time { milliseconds: time, room });
                expect(&mut pair, &format!("faults {faults:b}, {time} with room {room}"), result.map(drop));
            }
            let result = waiting_too_long(&mut pair, &bad, &has);
            expect(&mut pair, &format!("faults {faults:b}, waiting"), result);
        }
    }
    for answer in 1..=4 {
        pair.counts.met("time", answer, 20);
    }
}

fn spoil(bad: &mut Memory, has: &dyn Fn(usize) -> bool) {
    if has(0) {
        bad.state.truncate(STATE_BYTES - 1);
    } else if has(1) {
        bad.state[HEIGHT] = 0;
    }
    if has(2) {
        bad.glass.pop();
    }
    if has(3) {
        bad.store.truncate(1000);
    }
    if has(4) {
        bad.state[EDITION] = 3;
    }
    if has(5) {
        bad.state[FLOW] = 2;
    }
    if has(6) {
        bad.store[DIRECTORY - 1] = 1;
    }
    if has(7) && !has(0) {
        bad.state[USED] ^= 1;
    }
}

/// The same with an upload that has waited too long, which is 3 in the place of the rest of the record.
fn waiting_too_long(pair: &mut Pair, memory: &Memory, has: &dyn Fn(usize) -> bool) -> Run {
    let mut bad = memory.clone();
    if !has(0) && bad.state[PHASE] == 4 {
        bad.state[WAITED..WAITED + 2].copy_from_slice(&2100u16.to_le_bytes());
        pair.call(&mut bad, Call::Time { milliseconds: 0, room: 0 })?;
        pair.call(&mut bad, Call::Feed { piece: &[1], room: 2 })?;
    }
    Ok(())
}
