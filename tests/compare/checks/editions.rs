//! Both editions: what start is given, what stands in the record, numbers and sizes of every width, mixed directories.

use compare::compare::{Call, Pair};
use compare::lists::Run;
use compare::memory::Memory;
use compare::random;
use compare::record::{decode_state, EDITION, HEIGHT, UPLOAD, WAITED};
use compare::report::expect;
use reference::board::Board;
use reference::case_file::{folder, read_all, upload_begun, Case};
use reference::checks_start::UNKNOWN_EDITIONS;
use reference::commands::NAMING;
use reference::directory::{Kind, Record, DIRECTORY, KINDS};
use reference::edition::{number_sent, EDITIONS, NEWER, OLDER};
use reference::generator_start::put_records;
use reference::glass::{glass_bytes, Glass, HEIGHTS, LOW, TALL};
use reference::input::{leading_bytes, Input};
use reference::listing::listing;
use reference::prng::Prng;
use reference::start::Choice;
use reference::state::{Sort, Upload};

fn sized(slice: &[u8], length: usize) -> Vec<u8> {
    let mut all = slice.to_vec();
    all.resize(length, 0);
    all
}

fn all_but_start(pair: &mut Pair, memory: &Memory) -> Run {
    pair.call(&mut memory.clone(), Call::Feed { piece: &[254, 88, 65], room: 9 })?;
    pair.call(&mut memory.clone(), Call::Feed { piece: &[], room: 0 })?;
    pair.call(&mut memory.clone(), Call::Time { milliseconds: 2100, room: 2 })?;
    pair.call(&mut memory.clone(), Call::Time { milliseconds: 0, room: 1 })?;
    pair.call(&mut memory.clone(), Call::Arrive(7))?;
    pair.call(&mut memory.clone(), Call::Take)?;
    Ok(())
}

/// Every edition of one byte and many larger ones, with each height, each glass, and each store.
#[test]
fn every_edition_given_to_start() {
    let mut pair = Pair::default();
    let mut rng = Prng::new(41);
    let memory = random::memory(&mut rng);
    let near_the_top = (0..50).map(|k| u32::MAX - k);
    let same_low_byte = (0..24).flat_map(|bit| EDITIONS.map(|edition| edition as u32 + (256 << bit)));
    for edition in (0..300).chain(near_the_top).chain(same_low_byte).chain(UNKNOWN_EDITIONS) {
        for (height, glass) in [(64, 1920), (64, 3840), (128, 3840), (128, 1920), (65, 1950), (edition, 1920)] {
            for (store, last) in [(memory.store.len(), 0), (memory.store.len(), 7), (1023, 7)] {
                let mut other = memory.clone();
                other.glass = random::bytes(&mut rng, glass);
                other.store = sized(&memory.store, store);
                other.store[DIRECTORY - 1] = last;
                let result = pair.call(&mut other, Call::Start(Choice { height, edition }));
                expect(&mut pair, &format!("edition {edition}, height {height}, glass of {glass}"), result.map(drop));
            }
        }
    }
    for answer in 0..=4 {
        pair.counts.met_in_both("start", answer, 1);
    }
    pair.counts.met("start", 3, 500);
}

/// Every byte in the edition's place, alone and beside another fault: after 1 and 2, before 4.
#[test]
fn every_edition_in_the_record() {
    let mut pair = Pair::default();
    let mut rng = Prng::new(42);
    for (height, own) in [(LOW, OLDER), (LOW, NEWER), (TALL, OLDER), (TALL, NEWER)] {
        let memory = random::memory_with(&mut rng, height, own);
        for edition in 0..=255 {
            let mut bad = memory.clone();
            bad.state[EDITION] = edition;
            for fault in 0..5 {
                let mut bad = bad.clone();
                match fault {
                    1 => bad.glass.truncate(1919),
                    2 => bad.store = sized(&bad.store, 1023),
                    3 => bad.store[DIRECTORY - 1] = 7,
                    4 => bad.state[HEIGHT] = 65,
                    _ => {}
                }
                let result = all_but_start(&mut pair, &bad);
                expect(&mut pair, &format!("edition {edition} of {own}, fault {fault}"), result);
            }
        }
    }
    for call in ["feed", "time", "arrive", "take"] {
        pair.counts.met(call, 3, 1000);
    }
}

/// The record's other edition decides how its bytes and its upload go on, and which kind is written.
#[test]
fn edition_changed_in_the_record() {
    let mut pair = Pair::default();
    let mut rng = Prng::new(43);
    for number in 0..600 {
        let mut memory = random::memory(&mut rng);
        memory.state[EDITION] = 3 - memory.state[EDITION];
        let stream = random::bytes(&mut rng, 12);
        let stream = [&[1, 7, 1, 7, 1][..], &stream].concat();
        let result = pair.call(&mut memory, Call::Feed { piece: &stream, room: 99 });
        expect(&mut pair, &format!("memory {number}"), result.map(drop));
    }
    pair.counts.met_in_both("feed", 0, 100);
}

/// Files of every kind, with numbers that are alike in their low bytes.
fn files() -> Vec<u8> {
    let records = [
        Record { kind: Kind::Font, number: 5, size: 8 },
        Record { kind: Kind::NewerFont, number: 261, size: 8 },
        Record { kind: Kind::NewerBitmap, number: 1023, size: 3 },
        Record { kind: Kind::Bitmap, number: 255, size: 3 },
        Record { kind: Kind::NewerBitmap, number: 256, size: 3 },
        Record { kind: Kind::NewerFont, number: 1023, size: 3 },
    ];
    let mut store = vec![0; 1024];
    put_records(&mut store, &records);
    let font = [4, 1, 65, 65, 0, 7, 2, 192];
    let bytes = [&font[..], &font, &[8, 1, 129, 8, 1, 255, 8, 1, 60, 4, 1, 65]].concat();
    store[DIRECTORY..DIRECTORY + bytes.len()].copy_from_slice(&bytes);
    store
}

/// Every number of two bytes in every command that names a file; in the older edition its low byte names one.
#[test]
fn every_number_in_every_command() {
    let mut pair = Pair::default();
    for edition in EDITIONS {
        let memory = Memory::of(&Board::fresh(pair.font(), LOW, edition, files()));
        for number in (0..=u16::MAX).filter(|&number| edition == NEWER || number < 256) {
            for code in NAMING {
                let mut piece = match code {
                    36 | 94 => upload_begun(edition, code, number, 1),
                    173 => [vec![254, 173, (number % 2) as u8], number_sent(edition, number)].concat(),
                    _ => [vec![254, code], number_sent(edition, number)].concat(),
                };
                piece.extend([65, 1, 65]);
                let result = pair.call(&mut memory.clone(), Call::Feed { piece: &piece, room: 20 });
                expect(&mut pair, &format!("number {number} in command {code}"), result.map(drop));
            }
        }
    }
}

/// Every current font with every font deleted: only the same number, in all its bytes, puts font 1 in its place.
#[test]
fn deletes_beside_any_current_font() {
    let mut pair = Pair::default();
    for edition in EDITIONS {
        let mut board = Board::fresh(pair.font(), LOW, edition, files());
        for current in [0, 1, 5, 255, 256, 257, 261, 517, 1023, 1029, 65535] {
            board.state.text.font = current;
            for gone in [5, 255, 256, 261, 1023] {
                let mut piece = [vec![65, 254, 173, 0], number_sent(edition, gone)].concat();
                piece.extend([65, 254, 71, 1, 1]);
                let result = pair.call(&mut Memory::of(&board), Call::Feed { piece: &piece, room: 20 });
                expect(&mut pair, &format!("font {current}, {gone} deleted in edition {edition}"), result.map(drop));
            }
        }
    }
}

/// Sizes at every edge of one to four bytes.
#[test]
fn sizes_of_every_width() {
    let mut pair = Pair::default();
    for area in [768, 769, 3840, 32512] {
        let memory = Memory::of(&Board::fresh(pair.font(), LOW, NEWER, vec![0; DIRECTORY + area]));
        let edges = (0..32).flat_map(|bit| [(1u64 << bit) - 1, 1 << bit, (1 << bit) + 1, (1 << bit) + area as u64]);
        let near = (0..4).flat_map(|high| [area - 1, area, area + 1].map(|size| size as u64 + (high << 16)));
        for size in edges.chain(near).chain([u32::MAX as u64]).filter(|&size| size <= u32::MAX as u64) {
            for code in [36, 94] {
                let mut piece = upload_begun(NEWER, code, 300, size as usize);
                piece.extend([7, 1, 8, 1, 65]);
                let result = pair.call(&mut memory.clone(), Call::Feed { piece: &piece, room: 20 });
                expect(&mut pair, &format!("size {size} of {area}"), result.map(drop));
            }
        }
    }
}

/// Records of 240 to 256 bytes in every mixture of kinds: sound or not, and what each edition may still add.
#[test]
fn records_at_their_limit() {
    let mut pair = Pair::default();
    let mut rng = Prng::new(44);
    for newer in 0..=36 {
        for length in 240..=256 {
            let older = (length as usize).checked_sub(7 * newer).filter(|rest| rest % 4 == 0).map(|rest| rest / 4);
            let Some(older) = older else {
                continue;
            };
            let mut records: Vec<Record> = (0..newer + older)
                .map(|k| (KINDS[2 * (k < newer) as usize + rng.below(2)], k as u16 + 100))
                .map(|(kind, number)| Record { kind, number, size: 1 })
                .collect();
            let places = records.len();
            (0..places).for_each(|k| records.swap(k, rng.below(places)));
            let bytes: Vec<u8> = records.iter().flat_map(Record::bytes).collect();
            let mut store = vec![0; 1024];
            store[..bytes.len()].copy_from_slice(&bytes);
            for edition in EDITIONS {
                let mut memory = Memory::of(&Board::fresh(pair.font(), LOW, edition, vec![0; 1024]));
                memory.store = store.clone();
                memory.recount();
                let mut piece = upload_begun(edition, 94, 9, 1);
                piece.extend([7, 1]);
                let first = records[0];
                piece.extend([254, 173, (first.kind.sort() == Sort::Bitmap) as u8]);
                piece.extend(number_sent(edition, first.number));
                piece.extend(upload_begun(edition, 36, 9, 1));
                piece.extend([7, 1]);
                let result = pair.call(&mut memory, Call::Feed { piece: &piece, room: 40 });
                expect(&mut pair, &format!("{newer} newer of {length} bytes, edition {edition}"), result.map(drop));
            }
        }
    }
    pair.counts.met_in_both("feed", 0, 50);
    pair.counts.met_in_both("feed", 4, 5);
}

/// One number in each two kinds, numbers about the range, huge sizes: what breaks a directory.
#[test]
fn directories_of_two_records() {
    let mut pair = Pair::default();
    let numbers = [0, 1, 2, 255, 256, 257, 1022, 1023, 1024, 1025, 65535];
    let sizes = [0, 1, 2, 767, 768, 769, 65535, 65536, 65537, 1 << 24, (1 << 31) + 1, u32::MAX - 1, u32::MAX];
    let memory = Memory::of(&Board::fresh(pair.font(), LOW, OLDER, vec![0; 1024]));
    for (one, other) in KINDS.into_iter().flat_map(|one| KINDS.map(|other| (one, other))) {
        for number in numbers {
            for size in sizes {
                for second in [number, 2] {
                    let records = [Record { kind: one, number, size }, Record { kind: other, number: second, size: 1 }];
                    let mut bad = memory.clone();
                    put_records(&mut bad.store, &records);
                    bad.recount();
                    let result = pair.call(&mut bad.clone(), Call::Feed { piece: &[65], room: 2 });
                    expect(&mut pair, &format!("{records:?}"), result.map(drop));
                    let result = pair.call(&mut bad, Call::Start(Choice::of(LOW, NEWER)));
                    expect(&mut pair, &format!("start with {records:?}"), result.map(drop));
                }
            }
        }
    }
    for call in ["feed", "start"] {
        pair.counts.met(call, 0, 100);
        pair.counts.met(call, 4, 1000);
    }
}

/// Uploads in a record, of every number and wait that matters, in both editions.
#[test]
fn uploads_in_the_record() {
    let mut pair = Pair::default();
    for edition in EDITIONS {
        let mut board = Board::fresh(pair.font(), LOW, edition, files());
        for number in [0, 1, 2, 5, 254, 255, 256, 257, 261, 1022, 1023, 1024, 1025, 65535] {
            for (sort, size) in [(Sort::Font, 3), (Sort::Bitmap, 3), (Sort::Bitmap, 60_000)] {
                board.state.upload = Some(Upload { stored: 2, echoed: Some(9), ..Upload::new(sort, number, size) });
                for waited in [0, 1, 255, 256, 2098, 2099, 2100, 2101, 2355, 32768, 65535] {
                    let mut memory = Memory::of(&board);
                    memory.state[WAITED..WAITED + 2].copy_from_slice(&u16::to_le_bytes(waited));
                    let name = format!("edition {edition}, number {number}, size {size}, waited {waited}");
                    let result = all_but_start(&mut pair, &memory);
                    expect(&mut pair, &name, result);
                    let result = pair.call(&mut memory, Call::Feed { piece: &[1, 254, 88], room: 9 });
                    expect(&mut pair, &name, result.map(drop));
                }
            }
        }
        assert_eq!(Memory::of(&board).state[UPLOAD], 2);
    }
    for (call, answer) in [("feed", 0), ("feed", 3), ("feed", 4), ("time", 0), ("time", 3), ("time", 4)] {
        pair.counts.met_in_both(call, answer, 50);
    }
}

fn run_case(pair: &mut Pair, memory: &mut Memory, case: &Case, replies: &mut Vec<u8>) -> Run {
    pair.call(memory, Call::Start(Choice::of(case.height, case.edition)))?;
    let mut left = &case.input[..];
    while let Some(&next) = left.first() {
        let piece = leading_bytes(left);
        let call = match next {
            Input::Time(milliseconds) => Call::Time { milliseconds, room: 2 },
            Input::Byte(_) => Call::Feed { piece: &piece, room: 2 * piece.len() },
        };
        let returned = pair.call(memory, call)?;
        replies.extend(pair.replies(&returned));
        left = &left[piece.len().max(1)..];
    }
    Ok(())
}

/// Every case through the calls themselves, from a start on memory full of old bytes, also those that no program can run.
#[test]
fn named_cases() {
    let mut pair = Pair::default();
    let mut rng = Prng::new(45);
    let cases = read_all(&folder());
    assert!(cases.len() >= 400, "only {} cases found", cases.len());
    for case in &cases {
        let mut memory = Memory::of(&case.begin(pair.font()));
        memory.glass = random::bytes(&mut rng, glass_bytes(case.height));
        memory.state = random::bytes(&mut rng, memory.state.len());
        let mut replies = Vec::new();
        let result = run_case(&mut pair, &mut memory, case, &mut replies);
        expect(&mut pair, &case.name, result);
        let state = decode_state(&memory.state).expect("a sound record");
        let glass = Glass::from_bytes(&memory.glass);
        assert_eq!(listing(&glass, state.refusals, state.last_refusal, &replies), case.expected, "{}", case.name);
    }
    assert!(HEIGHTS.iter().all(|&height| cases.iter().any(|case| (case.height, case.edition) == (height, NEWER))));
}
