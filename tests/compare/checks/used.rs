//! The used room: every sum in the record, in every phase and for every call; its 3 among the other answers; and what
//! stands there after every call.

use compare::compare::{Call, Pair};
use compare::expect::Expect;
use compare::lists::Run;
use compare::memory::Memory;
use compare::random;
use compare::record::{decode_state, EDITION, FLOW, HEIGHT, PHASE, STATE_BYTES, UPLOAD, USED, WAITED};
use compare::report::expect;
use compare::streams;
use reference::board::Board;
use reference::book_used::sizes;
use reference::case_file::{upload, upload_begun};
use reference::coverage_used::{phase, PHASES};
use reference::directory::{Kind, Record, DIRECTORY};
use reference::edition::{number_sent, EDITIONS};
use reference::files::Files;
use reference::generator_start::put_records;
use reference::glass::{HEIGHTS, LOW};
use reference::prng::Prng;
use reference::start::Choice;
use reference::state::{Sort, Upload};

fn kept(memory: &Memory) -> u16 {
    u16::from_le_bytes([memory.state[USED], memory.state[USED + 1]])
}

fn keep(memory: &mut Memory, sum: u16) {
    memory.state[USED..].copy_from_slice(&sum.to_le_bytes());
}

/// Sums that are not this one: near it, one byte off, none, the most, and what an area can just hold and just not.
fn others(sum: u16) -> Vec<u16> {
    let mut all = vec![sum.wrapping_sub(1), sum.wrapping_add(1), sum ^ 256, sum ^ 0xFF00, sum ^ 1, sum ^ 255];
    all.extend([0, 255, 256, 768, 769, 32512, 32513, 65535, sum.swap_bytes()]);
    all.retain(|&other| other != sum);
    all
}

/// Memory with files that is not refused, one for each phase of each height and edition.
fn of_each_phase(rng: &mut Prng) -> Vec<Memory> {
    let mut all: Vec<Memory> = Vec::new();
    for (height, edition) in HEIGHTS.into_iter().flat_map(|height| EDITIONS.map(|edition| (height, edition))) {
        for wanted in PHASES {
            let found = std::iter::repeat_with(|| random::memory_with(rng, height, edition)).find(|memory| {
                let state = decode_state(&memory.state).expect("a sound record");
                let fits = memory.store.len() <= 4096 && state.used > 0 && phase(&state) == wanted;
                fits && Expect::default().feed(&mut memory.clone(), &[], &mut []).answer == 0
            });
            all.extend(found);
        }
    }
    all
}

/// Pieces, empty and not, and times, with room and without; arriving and taking; a start.
fn all_calls(pair: &mut Pair, memory: &Memory) -> Run {
    for room in [0, 1, 2, 9] {
        for piece in [&[][..], &[1], &[254, 33, 89, 33]] {
            pair.call(&mut memory.clone(), Call::Feed { piece, room })?;
        }
        for milliseconds in [0, 2100] {
            pair.call(&mut memory.clone(), Call::Time { milliseconds, room })?;
        }
    }
    pair.call(&mut memory.clone(), Call::Arrive(7))?;
    pair.call(&mut memory.clone(), Call::Take)?;
    if let (Some(&height), Some(&edition)) = (memory.state.get(HEIGHT), memory.state.get(EDITION)) {
        pair.call(&mut memory.clone(), Call::Start(Choice::of(height, edition)))?;
    }
    Ok(())
}

/// All sums of two bytes, on stores with files of a few bytes, of more than 255, and up to the last byte.
#[test]
fn every_sum() {
    let mut pair = Pair::default();
    for (number, sizes) in [&[][..], &[9], &[300, 9], &[768]].into_iter().enumerate() {
        let mut store = vec![0; 1024];
        let record = |(k, &size)| Record { kind: [Kind::Bitmap, Kind::NewerFont][k], number: 9, size };
        put_records(&mut store, &sizes.iter().enumerate().map(record).collect::<Vec<_>>());
        let board = Board::fresh(pair.font(), HEIGHTS[number % 2], EDITIONS[number / 2], store);
        let mut memory = Memory::of(&board);
        for sum in 0..=65535 {
            keep(&mut memory, sum);
            let call = match sum % 4 {
                0 => Call::Feed { piece: &[], room: 0 },
                1 => Call::Feed { piece: &[13], room: 2 },
                2 => Call::Time { milliseconds: 9, room: 2 },
                _ => Call::Time { milliseconds: 9, room: 1 },
            };
            let result = pair.call(&mut memory.clone(), call);
            expect(&mut pair, &format!("sum {sum} on {sizes:?}"), result.map(drop));
            let result = pair.call(&mut memory.clone(), if sum % 2 == 0 { Call::Arrive(7) } else { Call::Take });
            expect(&mut pair, &format!("queue call with sum {sum}"), result.map(drop));
        }
    }
    pair.counts.met("feed", 3, 100_000);
    pair.counts.met("time", 3, 100_000);
    pair.counts.met("arrive", 0, 100_000);
    pair.counts.met("take", 6, 100_000);
}

/// 3 in every phase, before 5, and never to arriving, taking or start; with the right sum everything goes on.
#[test]
fn wrong_sums_in_every_phase() {
    let mut pair = Pair::default();
    let mut rng = Prng::new(71);
    let memories = of_each_phase(&mut rng);
    assert_eq!(memories.len(), 24);
    for (number, memory) in memories.iter().enumerate() {
        let result = all_calls(&mut pair, memory);
        expect(&mut pair, &format!("memory {number}"), result);
        for sum in others(kept(memory)) {
            let mut wrong = memory.clone();
            keep(&mut wrong, sum);
            let result = all_calls(&mut pair, &wrong);
            expect(&mut pair, &format!("memory {number} with {sum}"), result);
        }
    }
    for (call, answer) in [("feed", 3), ("time", 3)] {
        pair.counts.met_on_both(call, answer, 1000);
        pair.counts.met_in_both(call, answer, 1000);
    }
    for (call, answer) in [("feed", 0), ("feed", 5), ("time", 0), ("time", 5), ("start", 0)] {
        pair.counts.met_in_both(call, answer, 20);
    }
}

/// Every mixture of faults: length or height, glass, store, the rest of the record, directory, upload, sum.
#[test]
fn order_of_the_answers() {
    let mut pair = Pair::default();
    let mut rng = Prng::new(72);
    for memory in of_each_phase(&mut rng) {
        for faults in 0..1 << 8 {
            let has = |fault: usize| faults >> fault & 1 == 1;
            let mut bad = memory.clone();
            spoil(&mut bad, &has, &mut rng);
            let result = all_calls(&mut pair, &bad);
            expect(&mut pair, &format!("faults {faults:b}"), result);
        }
    }
    for answer in 1..=4 {
        pair.counts.met("feed", answer, 1000);
        pair.counts.met("time", answer, 1000);
    }
}

fn spoil(bad: &mut Memory, has: &dyn Fn(usize) -> bool, rng: &mut Prng) {
    if has(7) {
        let sum = rng.pick(&others(kept(bad)));
        keep(bad, sum);
    }
    if has(6) {
        running(bad, Upload::new(Sort::Font, 1, 9));
    }
    if has(5) {
        bad.store[DIRECTORY - 1] = 1;
    }
    if has(4) {
        bad.state[FLOW] = 2;
    }
    if has(3) {
        bad.store.truncate(1023);
    }
    if has(2) {
        bad.glass.pop();
    }
    if has(1) {
        bad.state[HEIGHT] = 65;
    }
    if has(0) {
        bad.state.truncate(STATE_BYTES - 2);
    }
}

/// An upload under way in the place of whatever was.
fn running(memory: &mut Memory, upload: Upload) {
    memory.state[PHASE..WAITED + 2].fill(0);
    memory.state[PHASE] = 4;
    memory.state[UPLOAD] = if upload.sort == Sort::Font { 1 } else { 2 };
    let words = [upload.number, upload.size, upload.stored].map(u16::to_le_bytes);
    memory.state[UPLOAD + 1..UPLOAD + 7].copy_from_slice(words.as_flattened());
}

/// Whether an upload under way still fits goes by the directory: sizes about the unused room, with sums that deny it.
#[test]
fn room_goes_by_the_directory() {
    let mut pair = Pair::default();
    let mut rng = Prng::new(73);
    for memory in of_each_phase(&mut rng) {
        let files = Files::read(&memory.store).expect("a good directory");
        let (unused, sum) = (files.unused() as u16, kept(&memory));
        for size in [unused.saturating_sub(2), unused.saturating_sub(1), unused, unused + 1, unused + 2] {
            for off in -3..=3 {
                let mut other = memory.clone();
                running(&mut other, Upload::new(Sort::Bitmap, 250, size.max(1)));
                keep(&mut other, sum.wrapping_add_signed(off));
                let result = all_calls(&mut pair, &other);
                expect(&mut pair, &format!("{size} of {unused}, sum off by {off}"), result);
            }
        }
    }
    for answer in [0, 3, 4] {
        pair.counts.met_in_both("feed", answer, 100);
        pair.counts.met_in_both("time", answer, 20);
    }
}

/// Whatever stood in the record before.
#[test]
fn start_counts_the_files() {
    let mut pair = Pair::default();
    let mut rng = Prng::new(74);
    for number in 0..1500 {
        let mut memory = random::memory(&mut rng);
        let own = Choice::of(memory.state[HEIGHT], memory.state[EDITION]);
        let sum = sizes(&memory.store[..DIRECTORY]) as u16;
        if number % 2 == 0 {
            memory.state = random::bytes(&mut rng, STATE_BYTES);
        } else {
            keep(&mut memory, rng.pick(&others(sum)));
        }
        let result = pair.call(&mut memory, Call::Start(own));
        expect(&mut pair, &format!("memory {number}"), result.map(drop));
        assert_eq!(kept(&memory), sum, "memory {number}");
    }
    pair.counts.met_in_both("start", 0, 500);
}

/// Uploads of every fate, deletes and purges: after each call the two bytes are the sum of the raw directory.
#[test]
fn sum_after_every_call() {
    let mut pair = Pair::default();
    let (mut changes, mut starved) = (0, 0);
    for seed in 0..300 {
        let mut rng = Prng::new(seed ^ 0x75);
        let mut memory = random::memory(&mut rng);
        for _ in 0..60 {
            let piece = filing(&mut rng, &memory);
            let enough = 2 * piece.len();
            let room = rng.pick(&[0, 2, 3, 4, 5, 9, enough, enough, enough, enough]);
            let before = kept(&memory);
            let call = match rng.below(6) {
                0 => Call::Time { milliseconds: rng.pick(&[0, 2099, 2100]), room },
                _ => Call::Feed { piece: &piece, room },
            };
            match pair.call(&mut memory, call) {
                Ok(returned) if returned.answer == 0 || returned.answer == 5 => {
                    assert_eq!(kept(&memory) as u64, sizes(&memory.store[..DIRECTORY]), "seed {seed}");
                    let changed = kept(&memory) != before;
                    changes += changed as usize;
                    starved += (changed && returned.answer == 5) as usize;
                }
                result => expect(&mut pair, &format!("seed {seed}"), result.map(drop)),
            }
        }
    }
    assert!(changes > 2000, "the sum changed {changes} times only");
    assert!(starved > 200, "it changed {starved} times only in a call that stopped");
}

/// A piece about files, or part of one; what it ends with wants reply room.
fn filing(rng: &mut Prng, memory: &Memory) -> Vec<u8> {
    let edition = memory.state[EDITION];
    let held = Files::read(&memory.store).map_or(Vec::new(), |files| files.list);
    let file = held.get(rng.below(held.len() + 1)).map(|file| ((file.sort() == Sort::Bitmap) as u8, file.number));
    let (sort, number) = file.unwrap_or((1, 9));
    let (code, fresh) = (rng.pick(&[36, 94]), rng.below(256) as u16);
    let size = rng.pick(&[1, 2, 9, 256, 300]);
    let piece = match rng.below(8) {
        0..=2 => upload(edition, code, fresh, &vec![7; size]),
        3 => [upload_begun(edition, code, fresh, 9), vec![7, 1, 7, 1, 7, 8]].concat(),
        4 | 5 => [vec![254, 173, sort], number_sent(edition, number)].concat(),
        6 => vec![254, 33, rng.pick(&[88, 89, 89]), 33],
        _ => streams::noise(rng, 20),
    };
    let mut piece = [piece, [254, 52, 1, 2].repeat(3)].concat();
    if rng.percent(20) {
        piece.truncate(rng.below(piece.len() + 1));
    }
    piece
}

/// The whole area of the smallest and the largest store, in one file, by upload and by start, and all of it free again.
#[test]
fn full_stores() {
    let mut pair = Pair::default();
    for (bytes, edition) in [1024, 1025, 32767, 32768].into_iter().flat_map(|bytes| EDITIONS.map(|of| (bytes, of))) {
        let area = bytes - DIRECTORY;
        let mut memory = Memory::of(&Board::fresh(pair.font(), LOW, edition, vec![0; bytes]));
        let deleted = [vec![254, 173, 1], number_sent(edition, 9)].concat();
        let begun = upload_begun(edition, 94, 8, 1);
        for (piece, sum) in [(upload(edition, 94, 9, &vec![5; area]), area), (begun, area), (deleted, 0)] {
            let result = pair.call(&mut memory, Call::Feed { piece: &piece, room: 2 * piece.len() });
            expect(&mut pair, &format!("store of {bytes}"), result.map(drop));
            assert_eq!(kept(&memory) as usize, sum, "store of {bytes}");
            let result = pair.call(&mut memory.clone(), Call::Start(Choice::of(LOW, edition)));
            expect(&mut pair, &format!("start on a store of {bytes}"), result.map(drop));
        }
    }
    pair.counts.met_in_both("feed", 0, 12);
}
