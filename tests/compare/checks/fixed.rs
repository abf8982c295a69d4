//! Streams and lists of calls over fixed seeds, the library beside the reference.

use compare::compare::{Call, Pair};
use compare::lists::{arrivals, run, run_seed, set_flow, takes, Cuts, Plan, Rooms, Run};
use compare::memory::Memory;
use compare::record::{DRAWING, FLOW, HELD, LOST, PLACE, REFUSALS};
use compare::report::expect;
use compare::{random, streams};
use reference::board::Board;
use reference::case_file::{upload, upload_begun};
use reference::coverage::ANSWERS;
use reference::edition::{EDITIONS, NEWER, OLDER};
use reference::generator::program_stream;
use reference::glass::{HEIGHTS, LOW, TALL};
use reference::input::of_bytes;
use reference::prng::Prng;
use reference::properties::{scenes, SEEDS};

/// All scenes with one way of cutting, each from its own beginning.
fn all_scenes(count: u64, plan: impl Fn(u64) -> Plan) -> Pair {
    let mut pair = Pair::default();
    let font = pair.font().to_vec();
    for scene in scenes(&font, count) {
        let mut memory = Memory::of(&scene.begin);
        let mut rng = Prng::new(scene.seed);
        let result = run(&mut pair, &mut memory, &scene.stream, plan(scene.seed), &mut rng);
        expect(&mut pair, &format!("scene {}", scene.seed), result);
    }
    pair
}

/// The same scenes with which the reference shows that it reaches every command and refusal.
#[test]
fn scenes_whole() {
    let pair = all_scenes(SEEDS, |_| Plan::plain(Cuts::Whole));
    assert!(pair.counts.bytes_fed > 2_000_000, "only {} bytes", pair.counts.bytes_fed);
    pair.counts.met_on_both("feed", 0, SEEDS * 2 / 5);
    pair.counts.met_in_both("feed", 0, SEEDS * 2 / 5);
    pair.counts.met_on_both("time", 0, SEEDS);
    pair.counts.met_in_both("time", 0, SEEDS);
}

#[test]
fn scenes_byte_by_byte() {
    all_scenes(500, |_| Plan::plain(Cuts::Bytes));
}

#[test]
fn scenes_in_pieces_with_little_room() {
    let pair = all_scenes(SEEDS, |seed| {
        // eight seeds in a row meet both heights, both editions and both beginnings
        let cuts = [Cuts::Few, Cuts::Mixed, Cuts::Long, Cuts::Whole][seed as usize / 8 % 4];
        let rooms = [Rooms::Scarce, Rooms::Mixed][seed as usize / 32 % 2];
        Plan { cuts, rooms, between: 0 }
    });
    pair.counts.met("feed", 5, 10_000);
    pair.counts.met("time", 5, 1_000);
}

/// What the fuzzer does, over seeds that stay; every answer and signal is met.
#[test]
fn lists_of_calls() {
    let mut pair = Pair::default();
    for seed in 0..1500 {
        let result = run_seed(&mut pair, seed);
        expect(&mut pair, &format!("seed {seed}"), result);
    }
    for (name, answers) in ANSWERS {
        for &answer in answers {
            pair.counts.met(name, answer as u32, 100);
            pair.counts.met_on_both(name, answer as u32, 10);
            pair.counts.met_in_both(name, answer as u32, 10);
        }
    }
    for signal in [254, 255] {
        assert!(pair.counts.signals.get(&signal).is_some_and(|&count| count >= 100), "signal {signal}");
    }
}

/// Every byte as the next one, from memory of every kind.
#[test]
fn every_next_byte() {
    let mut pair = Pair::default();
    let mut rng = Prng::new(11);
    for number in 0..250 {
        let memory = random::memory(&mut rng);
        for byte in 0..=255 {
            let result = pair.call(&mut memory.clone(), Call::Feed { piece: &[byte], room: 2 });
            expect(&mut pair, &format!("memory {number}, byte {byte}"), result.map(drop));
        }
    }
}

/// Every byte as the colour of each command that reads one, over pixels of both colours; the record keeps 0 or 1.
#[test]
fn every_colour_byte() {
    let mut pair = Pair::default();
    let mut rng = Prng::new(14);
    for height in HEIGHTS {
        for colour in 0..=255 {
            let board = Board::fresh(pair.font(), height, EDITIONS[colour as usize % 2], vec![0; 1024]);
            let drawing = [254, 99, colour, 254, 112, 3, 60, 254, 108, 0, 9, 50, 63, 254, 101, 9, 9];
            let shapes = [254, 114, colour, 60, 5, 90, 70, 254, 120, colour, 100, 5, 140, 70, 254, 112, 5, 60];
            for cuts in [Cuts::Whole, Cuts::Bytes] {
                let mut memory = Memory::of(&board);
                memory.glass = random::bytes(&mut rng, memory.glass.len());
                memory.state[DRAWING] = rng.below(2) as u8;
                let stream = of_bytes(&[&drawing[..], &shapes].concat());
                let result = run(&mut pair, &mut memory, &stream, Plan::plain(cuts), &mut rng);
                expect(&mut pair, &format!("colour {colour}, {height} rows"), result);
                assert_eq!(memory.state[DRAWING], (colour != 0) as u8, "colour {colour}");
            }
        }
    }
}

/// The same piece with each room from none to more than enough.
#[test]
fn every_room() {
    let mut pair = Pair::default();
    let mut rng = Prng::new(12);
    let uploads = |rng: &mut Prng, edition: u8| {
        let file = random::bytes(rng, 9);
        let mut stream = vec![254, 52, 3, 4];
        stream.extend(upload(edition, 94, 200, &file));
        stream.extend(upload_begun(edition, 36, 1, 1));
        stream.extend([254, 52, 5, 6, 65, 254, 112, 3, 3]);
        stream
    };
    for number in 0..48 {
        let (height, edition) = (HEIGHTS[number / 2 % 2], EDITIONS[number / 8 % 2]);
        let board = Board::fresh(pair.font(), height, edition, random::store(&mut rng, height));
        let memory = if number % 2 == 0 { Memory::of(&board) } else { random::memory_with(&mut rng, height, edition) };
        let piece = if number % 4 < 2 { uploads(&mut rng, edition) } else { streams::commands(&mut rng, &memory) };
        for room in 0..40 {
            let result = pair.call(&mut memory.clone(), Call::Feed { piece: &piece, room });
            expect(&mut pair, &format!("memory {number}, room {room}"), result.map(drop));
        }
    }
}

/// Pieces and replies of more than two bytes' count.
#[test]
fn long_pieces() {
    let mut pair = Pair::default();
    for height in HEIGHTS {
        let mut memory = Memory::of(&Board::fresh(pair.font(), height, OLDER, vec![0; 32768]));
        let mut piece = Vec::new();
        for seed in 0.. {
            piece.extend(program_stream(pair.font(), height, seed));
            if piece.len() > 70_000 {
                break;
            }
        }
        let result = pair.call(&mut memory, Call::Feed { piece: &piece, room: 2 * piece.len() });
        expect(&mut pair, &format!("a long stream of {height} rows"), result.map(drop));
    }
    let mut memory = Memory::of(&Board::fresh(pair.font(), TALL, NEWER, vec![0; 1024]));
    let serial = [254, 52, 7, 9].repeat(40_000);
    let result = pair.call(&mut memory, Call::Feed { piece: &serial, room: 100_000 });
    expect(&mut pair, "many replies", result.map(drop));
    assert!(pair.counts.replies > 65_536 && pair.counts.bytes_fed > 140_000);
}

/// Every pair of thresholds: the ring filled beyond its end and emptied beyond its beginning.
#[test]
fn every_threshold() {
    let mut pair = Pair::default();
    let mut rng = Prng::new(13);
    let mut memory = random::memory(&mut rng);
    for full in 0..80 {
        for empty in 0..80 - full {
            memory.state[FLOW..FLOW + 3].copy_from_slice(&[(full + empty) % 5 / 4 ^ 1, full, empty]);
            memory.queue[PLACE] = rng.below(80) as u8;
            let result = fill_and_empty(&mut pair, &mut memory, &mut rng);
            expect(&mut pair, &format!("thresholds {full} {empty}"), result);
        }
    }
}

fn fill_and_empty(pair: &mut Pair, memory: &mut Memory, rng: &mut Prng) -> Run {
    while pair.call(memory, Call::Arrive(rng.byte()))?.answer == 0 {}
    while pair.call(memory, Call::Take)?.answer == 0 {}
    Ok(())
}

/// Arrivals and takes with flow turned on, off and over between.
#[test]
fn flow_changed_between() {
    let mut pair = Pair::default();
    for seed in 0..400 {
        let mut rng = Prng::new(seed);
        let mut memory = random::memory(&mut rng);
        let result = (0..40).try_for_each(|_| match rng.below(5) {
            0 | 1 => arrivals(&mut pair, &mut memory, &mut rng),
            2 | 3 => takes(&mut pair, &mut memory, &mut rng),
            _ => set_flow(&mut pair, &mut memory, &mut rng),
        });
        expect(&mut pair, &format!("seed {seed}"), result);
    }
    assert!(pair.counts.signals.values().all(|&count| count > 100) && pair.counts.signals.len() == 2);
}

/// Both counts go from 65,535 to 0, through every carry from the low byte.
#[test]
fn counts_roll_over() {
    let mut pair = Pair::default();
    let mut memory = Memory::of(&Board::fresh(pair.font(), LOW, OLDER, vec![0; 1024]));
    memory.queue[HELD] = 80;
    for count in [0u16, 1, 254, 255, 256, 511, 32767, 65279, 65280, 65534, 65535] {
        memory.state[REFUSALS..REFUSALS + 2].copy_from_slice(&count.to_le_bytes());
        memory.queue[LOST..].copy_from_slice(&count.to_le_bytes());
        let result = pair.call(&mut memory, Call::Feed { piece: &[254, 3], room: 2 });
        expect(&mut pair, &format!("refusals {count}"), result.map(drop));
        assert_eq!(memory.state[REFUSALS..REFUSALS + 2], count.wrapping_add(1).to_le_bytes());
        let result = pair.call(&mut memory, Call::Arrive(1));
        expect(&mut pair, &format!("lost {count}"), result.map(drop));
        assert_eq!(memory.queue[LOST..], count.wrapping_add(1).to_le_bytes());
    }
}
