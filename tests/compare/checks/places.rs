//! Damaged memory, place by place: records, directory, lengths, and the order of the answers.

use compare::compare::{Call, Pair};
use compare::damage::{self, glass_lengths, lengths, STORE_LENGTHS};
use compare::damage_directory;
use compare::expect::Expect;
use compare::lists::{any_calls, Run};
use compare::memory::Memory;
use compare::random;
use compare::record::{EDITION, HEIGHT, PHASE, QUEUE_BYTES, STATE_BYTES};
use compare::report::expect;
use compare::streams;
use reference::case_file::upload_begun;
use reference::directory::{Kind, Record, DIRECTORY};
use reference::edition::{number_sent, EDITIONS};
use reference::generator_start::put_records;
use reference::glass::HEIGHTS;
use reference::prng::Prng;
use reference::start::Choice;

/// Random sound memory with a short store, to be quick.
fn short_memory(rng: &mut Prng) -> Memory {
    loop {
        let memory = random::memory(rng);
        if memory.store.len() <= 4096 {
            return memory;
        }
    }
}

/// Memories that a feed does not refuse, `each` of them in each phase of each height and edition.
fn of_each_phase(rng: &mut Prng, each: usize) -> Vec<Memory> {
    let mut found = [[0; 5]; 4];
    let mut all = Vec::new();
    while found.iter().flatten().any(|&count| count < each) {
        let memory = short_memory(rng);
        let (tall, newer) = (memory.state[HEIGHT] == HEIGHTS[1], memory.state[EDITION] == EDITIONS[1]);
        let count = &mut found[2 * tall as usize + newer as usize][memory.state[PHASE] as usize];
        let accepted = Expect::default().feed(&mut memory.clone(), &[], &mut []).answer == 0;
        if *count < each && accepted {
            *count += 1;
            all.push(memory);
        }
    }
    all
}

/// All five functions on copies of the same memory; start for either glass.
fn five(pair: &mut Pair, memory: &Memory, piece: &[u8]) -> Run {
    pair.call(&mut memory.clone(), Call::Feed { piece, room: 3 })?;
    pair.call(&mut memory.clone(), Call::Time { milliseconds: 1, room: 2 })?;
    pair.call(&mut memory.clone(), Call::Time { milliseconds: 2100, room: piece.len() })?;
    for height in HEIGHTS {
        let edition = EDITIONS[piece.len() % 2];
        pair.call(&mut memory.clone(), Call::Start(Choice::of(height, edition)))?;
    }
    both_of_the_queue(pair, memory)
}

fn both_of_the_queue(pair: &mut Pair, memory: &Memory) -> Run {
    pair.call(&mut memory.clone(), Call::Arrive(7))?;
    pair.call(&mut memory.clone(), Call::Take)?;
    Ok(())
}

/// Each of the 209 places with each value, in every phase of each height and edition.
#[test]
fn every_place_of_the_state_record() {
    let mut pair = Pair::default();
    let mut rng = Prng::new(21);
    for (number, memory) in of_each_phase(&mut rng, 1).iter().enumerate() {
        let mut bad = memory.clone();
        for place in 0..STATE_BYTES {
            for value in 0..=255 {
                bad.state[place] = value;
                let piece = &[254, 3][..value as usize % 3];
                let result = match value {
                    0..4 | 255 => five(&mut pair, &bad, piece),
                    _ if value % 4 == 0 => {
                        pair.call(&mut bad.clone(), Call::Time { milliseconds: 0, room: 2 }).map(drop)
                    }
                    _ => pair.call(&mut bad.clone(), Call::Feed { piece, room: 3 }).map(drop),
                };
                expect(&mut pair, &format!("memory {number}, place {place}, value {value}"), result);
            }
            bad.state[place] = memory.state[place];
        }
    }
    for (call, good, bad) in [("feed", 40_000, 100_000), ("time", 10_000, 25_000)] {
        pair.counts.met(call, 0, good);
        pair.counts.met(call, 3, bad);
    }
}

/// The same for arriving and taking, which are quick, over more memories.
#[test]
fn every_place_for_arriving_and_taking() {
    let mut pair = Pair::default();
    let mut rng = Prng::new(22);
    for (number, memory) in of_each_phase(&mut rng, 1).iter().enumerate() {
        let mut bad = memory.clone();
        (bad.glass, bad.store) = (Vec::new(), Vec::new());
        for place in 0..STATE_BYTES + QUEUE_BYTES {
            for value in 0..=255 {
                let mut change = |value: u8| match place.checked_sub(STATE_BYTES) {
                    None => std::mem::replace(&mut bad.state[place], value),
                    Some(place) => std::mem::replace(&mut bad.queue[place], value),
                };
                let old = change(value);
                let result = both_of_the_queue(&mut pair, &bad);
                expect(&mut pair, &format!("memory {number}, place {place}, value {value}"), result);
                match place.checked_sub(STATE_BYTES) {
                    None => bad.state[place] = old,
                    Some(place) => bad.queue[place] = old,
                }
            }
        }
    }
    pair.counts.met("arrive", 3, 10_000);
    pair.counts.met("take", 3, 10_000);
}

/// Each byte of the directory with each value, with files in it and without; where it is still good, also with its sum.
#[test]
fn every_place_of_the_directory() {
    let mut pair = Pair::default();
    let mut rng = Prng::new(23);
    for (number, memory) in of_each_phase(&mut rng, 1).iter().enumerate() {
        let mut bad = memory.clone();
        for place in 0..DIRECTORY {
            for value in 0..=255 {
                bad.store[place] = value;
                let own = Choice::of(bad.state[HEIGHT], bad.state[EDITION]);
                let result = match value % 8 {
                    0 => pair.call(&mut bad.clone(), Call::Start(own)),
                    1 => pair.call(&mut bad.clone(), Call::Time { milliseconds: 2100, room: 2 }),
                    _ => pair.call(&mut bad.clone(), Call::Feed { piece: &[65][..place % 2], room: 2 }),
                };
                expect(&mut pair, &format!("memory {number}, place {place}, value {value}"), result.map(drop));
                let mut counted = bad.clone();
                counted.recount();
                if counted.state != bad.state {
                    let result = pair.call(&mut counted, Call::Feed { piece: &[65][..place % 2], room: 2 });
                    expect(
                        &mut pair,
                        &format!("memory {number}, place {place}, value {value}, counted"),
                        result.map(drop),
                    );
                }
            }
            bad.store[place] = memory.store[place];
        }
    }
    pair.counts.met("feed", 0, 1_000);
    pair.counts.met("feed", 3, 1_000);
    pair.counts.met("feed", 4, 10_000);
    pair.counts.met("start", 4, 1_000);
    pair.counts.met("time", 4, 1_000);
}

/// Each wrong length with each other one, so that the order of the answers shows too.
#[test]
fn every_length() {
    let mut pair = Pair::default();
    let mut rng = Prng::new(24);
    for memory in HEIGHTS.map(|height| random::memory_of(&mut rng, height)) {
        every_length_with(&mut pair, &memory, &mut rng);
    }
    for (answer, least) in [(1, 50), (2, 5), (3, 100)] {
        pair.counts.met_on_both("start", answer, least);
        pair.counts.met_on_both("feed", answer, least);
    }
}

fn every_length_with(pair: &mut Pair, memory: &Memory, rng: &mut Prng) {
    let mut bad = memory.clone();
    for glass in glass_lengths() {
        bad.glass = sized(&memory.glass, glass);
        for store in STORE_LENGTHS {
            bad.store = sized(&memory.store, store);
            for state in lengths(STATE_BYTES) {
                bad.state = sized(&memory.state, state);
                let queue = [QUEUE_BYTES, rng.pick(&lengths(QUEUE_BYTES))][rng.below(2)];
                bad.queue = sized(&memory.queue, queue);
                let result = five(pair, &bad, &[65]);
                expect(pair, &format!("lengths {glass} {store} {state} {queue}"), result);
            }
        }
    }
}

fn sized(bytes: &[u8], length: usize) -> Vec<u8> {
    let mut other = bytes.to_vec();
    other.resize(length, 0);
    other
}

/// Stores just inside and just outside their range, each with files up to the last byte.
#[test]
fn stores_at_their_limits() {
    let mut pair = Pair::default();
    let mut rng = Prng::new(25);
    for length in [1023, 1024, 1025, 32767, 32768, 32769] {
        for number in 0..25 {
            let mut memory = random::memory(&mut rng);
            let area = length - DIRECTORY;
            let first = [1, 100, area - 1, area, area + 1][number % 5];
            memory.store = random::bytes(&mut rng, length);
            let kind = [Kind::Bitmap, Kind::NewerBitmap][number / 5 % 2];
            put_records(&mut memory.store, &[Record { kind, number: 9, size: first as u32 }]);
            memory.recount();
            let rest = area.saturating_sub(first).max(1);
            let edition = memory.state[EDITION];
            let mut piece = upload_begun(edition, 94, 10, rest);
            piece.extend([5, 1, 6, 1, 254, 173, 1]);
            piece.extend(number_sent(edition, 9));
            piece.extend(streams::commands(&mut rng, &memory));
            let result = five(&mut pair, &memory, &piece);
            expect(&mut pair, &format!("store of {length}, number {number}"), result);
        }
    }
    pair.counts.met("feed", 2, 10);
    pair.counts.met("feed", 4, 10);
}

/// Uploads under way with the directory changed behind them: 4, or they go on.
#[test]
fn uploads_that_would_be_refused_now() {
    let mut pair = Pair::default();
    let mut rng = Prng::new(26);
    for number in 0..12_000 {
        let mut memory = short_memory(&mut rng);
        damage::upload(&mut rng, &mut memory);
        if rng.percent(50) {
            damage_directory::directory(&mut rng, &mut memory.store);
        }
        if rng.percent(80) {
            memory.recount();
        }
        let call = match number % 3 {
            0 => Call::Time { milliseconds: [0, 1, 2099, 2100][number / 3 % 4], room: 2 },
            _ => Call::Feed { piece: &[1, 1, 7, 1, 254, 1], room: 9 },
        };
        let result = pair.call(&mut memory, call);
        expect(&mut pair, &format!("memory {number}"), result.map(drop));
    }
    pair.counts.met("feed", 0, 500);
    pair.counts.met("feed", 4, 500);
    for call in ["feed", "time"] {
        pair.counts.met_in_both(call, 0, 100);
        pair.counts.met_in_both(call, 4, 100);
    }
}

/// Several things wrong at once, and a few calls on what is left.
#[test]
fn damage_of_every_kind() {
    let mut pair = Pair::default();
    for seed in 0..6000 {
        let mut rng = Prng::new(seed ^ 0xDA3A);
        let mut memory = random::memory(&mut rng);
        damage::any(&mut rng, &mut memory);
        let stream = streams::noise(&mut rng, 40);
        let result = any_calls(&mut pair, &mut memory, &stream, &mut rng);
        expect(&mut pair, &format!("seed {seed}"), result);
    }
    for answer in 0..=5 {
        pair.counts.met("feed", answer, 50);
        pair.counts.met("time", answer, 50);
    }
}
