//! Both heights: what start is given, what stands in the record, and which glass is lent with it.

use compare::compare::{Call, Pair};
use compare::damage::{glass_lengths, lengths};
use compare::lists::{run, Cuts, Plan, Run};
use compare::memory::Memory;
use compare::random;
use compare::record::{BARS, FLOW, HEIGHT, QUEUE_BYTES, STATE_BYTES};
use compare::report::expect;
use compare::streams;
use reference::checks_start::UNKNOWN;
use reference::edition::{EDITIONS, OLDER};
use reference::glass::{glass_bytes, HEIGHTS, LOW, TALL};
use reference::prng::Prng;
use reference::start::Choice;

fn sized(slice: &[u8], length: usize) -> Vec<u8> {
    let mut all = slice.to_vec();
    all.resize(length, 0);
    all
}

fn older(height: u32) -> Call<'static> {
    Call::Start(Choice { height, edition: OLDER as u32 })
}

fn feed_and_queue(pair: &mut Pair, memory: &Memory) -> Run {
    pair.call(&mut memory.clone(), Call::Feed { piece: &[254, 88, 65], room: 9 })?;
    pair.call(&mut memory.clone(), Call::Feed { piece: &[], room: 0 })?;
    pair.call(&mut memory.clone(), Call::Time { milliseconds: 2100, room: 2 })?;
    pair.call(&mut memory.clone(), Call::Time { milliseconds: 0, room: 1 })?;
    pair.call(&mut memory.clone(), Call::Arrive(7))?;
    pair.call(&mut memory.clone(), Call::Take)?;
    Ok(())
}

/// Every height of one byte, and many larger ones, with the glass of each height and with one of just so many rows.
#[test]
fn every_height_given_to_start() {
    let mut pair = Pair::default();
    let mut rng = Prng::new(31);
    let memory = random::memory(&mut rng);
    let near_the_top = (0..200).map(|k| u32::MAX - k);
    let same_low_byte = (0..24).flat_map(|bit| HEIGHTS.map(|height| height as u32 + (256 << bit)));
    for height in (0..1000).chain(near_the_top).chain(same_low_byte).chain(UNKNOWN) {
        for glass in [glass_bytes(LOW), glass_bytes(TALL), height.min(300) as usize * 30] {
            let mut other = memory.clone();
            other.glass = random::bytes(&mut rng, glass);
            let result = pair.call(&mut other, older(height));
            expect(&mut pair, &format!("height {height}, glass of {glass}"), result.map(drop));
        }
    }
    pair.counts.met_on_both("start", 0, 1);
    pair.counts.met_on_both("start", 1, 1);
    pair.counts.met("start", 3, 3000);
}

/// Every byte in the height's place, with the glass of each height and with one of just so many rows.
#[test]
fn every_height_in_the_record() {
    let mut pair = Pair::default();
    let mut rng = Prng::new(32);
    for own in HEIGHTS {
        let memory = random::memory_of(&mut rng, own);
        for height in 0..=255 {
            let mut bad = memory.clone();
            bad.state[HEIGHT] = height;
            for glass in [glass_bytes(LOW), glass_bytes(TALL), glass_bytes(height), 0, 1919, 3841] {
                bad.glass = sized(&memory.glass, glass);
                let result = feed_and_queue(&mut pair, &bad);
                expect(&mut pair, &format!("height {height}, glass of {glass}"), result);
            }
        }
    }
    pair.counts.met("feed", 3, 5000);
    pair.counts.met("time", 3, 5000);
    pair.counts.met("arrive", 3, 2000);
    pair.counts.met("take", 3, 2000);
}

/// Sound records of one height lent with the glass of the other: 1, until the record has the other height too.
#[test]
fn record_of_one_and_glass_of_the_other() {
    let mut pair = Pair::default();
    let mut rng = Prng::new(33);
    for number in 0..400 {
        let own = HEIGHTS[number % 2];
        let other = HEIGHTS[1 - number % 2];
        let mut memory = random::memory_of(&mut rng, own);
        memory.glass = random::bytes(&mut rng, glass_bytes(other));
        let result = feed_and_queue(&mut pair, &memory);
        expect(&mut pair, &format!("memory {number}"), result);
        // bars and strips below row 63 are no longer sound, the rest goes on
        memory.state[HEIGHT] = other;
        let result = feed_and_queue(&mut pair, &memory);
        expect(&mut pair, &format!("memory {number} with the other height"), result);
        let result = pair.call(&mut memory, Call::Start(Choice::of(other, EDITIONS[number / 2 % 2])));
        expect(&mut pair, &format!("memory {number} started"), result.map(drop));
        let bytes = streams::commands(&mut rng, &memory);
        let stream = streams::with_times(&mut rng, &bytes);
        let result = run(&mut pair, &mut memory, &stream, Plan::plain(Cuts::Mixed), &mut rng);
        expect(&mut pair, &format!("memory {number} after its start"), result);
    }
    pair.counts.met_on_both("feed", 1, 300);
    pair.counts.met_on_both("feed", 0, 300);
    pair.counts.met("feed", 3, 20);
}

/// What may be wrong with a call, one of each kind at a time.
#[test]
fn order_of_the_answers() {
    let mut pair = Pair::default();
    let mut rng = Prng::new(34);
    for own in HEIGHTS {
        let good = random::memory_of(&mut rng, own);
        for (glass, store) in
            glass_lengths().into_iter().flat_map(|glass| [1023, 1024, 32769].map(|store| (glass, store)))
        {
            for (state, queue) in [(0, 0), (0, 1), (1, 0), (1, 1)] {
                for damage in 0..5 {
                    let mut bad = good.clone();
                    bad.glass = sized(&good.glass, glass);
                    bad.store = sized(&good.store, store);
                    damage_record(&mut bad, damage);
                    bad.state = sized(&bad.state, STATE_BYTES - state);
                    bad.queue = sized(&good.queue, QUEUE_BYTES + queue);
                    let result = both(&mut pair, &bad);
                    expect(&mut pair, &format!("{glass} {store} {state} {queue} damage {damage}"), result);
                }
            }
        }
    }
    for answer in 1..=3 {
        pair.counts.met_on_both("feed", answer, 20);
        pair.counts.met_on_both("start", answer, 20);
        pair.counts.met_on_both("time", answer, 20);
    }
    pair.counts.met("start", 4, 1);
}

/// Nothing, the height, a flag, the thresholds or a bar's row; and each with a directory that breaks its rules.
fn damage_record(bad: &mut Memory, damage: usize) {
    let below = bad.state[HEIGHT];
    match damage {
        1 => bad.state[HEIGHT] = 65,
        2 => bad.state[FLOW] = 2,
        3 => bad.state[FLOW + 1..FLOW + 3].copy_from_slice(&[40, 40]),
        4 => bad.state[BARS..BARS + 7].copy_from_slice(&[1, 0, 0, 0, 9, below, 0]),
        _ => {}
    }
    if damage % 2 == 0 {
        bad.store[255] = 7;
    }
}

fn both(pair: &mut Pair, memory: &Memory) -> Run {
    feed_and_queue(pair, memory)?;
    for height in [64, 128, 65, 320] {
        pair.call(&mut memory.clone(), older(height))?;
    }
    Ok(())
}

/// Wrong record lengths at start with each height, known or not, and each glass.
#[test]
fn record_lengths_at_start() {
    let mut pair = Pair::default();
    let mut rng = Prng::new(35);
    let memory = random::memory_of(&mut rng, TALL);
    // the lengths that a record had before it knew of heights, of editions, and of the used room, among them
    for state in lengths(STATE_BYTES).into_iter().chain([201, 202, 207]) {
        for queue in lengths(QUEUE_BYTES) {
            for (height, glass) in [(64, 1920), (64, 3840), (128, 3840), (128, 1920), (0, 0), (384, 3840), (64, 1919)] {
                let mut bad = memory.clone();
                bad.glass = sized(&memory.glass, glass);
                bad.state = sized(&memory.state, state);
                bad.queue = sized(&memory.queue, queue);
                let result = pair.call(&mut bad, older(height));
                expect(
                    &mut pair,
                    &format!("records {state} {queue}, height {height}, glass {glass}"),
                    result.map(drop),
                );
            }
        }
    }
    pair.counts.met_on_both("start", 0, 1);
    pair.counts.met_on_both("start", 1, 1);
    pair.counts.met_on_both("start", 3, 100);
}
