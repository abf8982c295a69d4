//! Sound memory with every field anywhere in its range.

use crate::memory::Memory;
use crate::record::{encode_queue, encode_state};
use reference::commands::{arguments, COMMANDS};
use reference::directory::{Record, DIRECTORY, KINDS, RECORDS_MOST};
use reference::edition::{EDITIONS, NEWER, NUMBER_MOST};
use reference::files::{Files, STORE_LEAST, STORE_MOST};
use reference::generator::EDGES;
use reference::generator_files::{bad_bitmap, bad_font, good_bitmap, good_font};
use reference::generator_start::put_records;
use reference::generator_uploads::NUMBERS;
use reference::glass::{glass_bytes, HEIGHTS};
use reference::prng::Prng;
use reference::queue::{Queue, RING};
use reference::state::{Bar, Gathering, Inline, Sort, State, Strip, Upload};

/// Of either height and either edition.
pub fn memory(rng: &mut Prng) -> Memory {
    let height = rng.pick(&HEIGHTS);
    memory_of(rng, height)
}

/// Of either edition.
pub fn memory_of(rng: &mut Prng, height: u8) -> Memory {
    let edition = rng.pick(&EDITIONS);
    memory_with(rng, height, edition)
}

pub fn memory_with(rng: &mut Prng, height: u8, edition: u8) -> Memory {
    let store = store(rng, height);
    let state = encode_state(&state(rng, height, edition, &store)).to_vec();
    Memory { glass: bytes(rng, glass_bytes(height)), store, state, queue: encode_queue(&queue(rng)).to_vec() }
}

pub fn bytes(rng: &mut Prng, count: usize) -> Vec<u8> {
    let mut all = Vec::with_capacity(count + 8);
    while all.len() < count {
        all.extend(rng.next().to_le_bytes());
    }
    all.truncate(count);
    all
}

pub fn edge(rng: &mut Prng) -> u8 {
    if rng.percent(50) {
        rng.pick(&EDGES)
    } else {
        rng.byte()
    }
}

/// Any number of two bytes, most often one at an edge.
pub fn any_number(rng: &mut Prng) -> u16 {
    if rng.percent(70) {
        rng.pick(&NUMBERS)
    } else {
        rng.next() as u16
    }
}

/// Short stores most often, since long ones cost time and show little more; records of all kinds among each other.
pub fn store(rng: &mut Prng, height: u8) -> Vec<u8> {
    let length = match rng.below(20) {
        0 => STORE_MOST,
        1 => STORE_MOST - 1,
        2 => rng.between(STORE_LEAST, STORE_MOST),
        3..=6 => rng.between(STORE_LEAST, 4096),
        7..=9 => STORE_LEAST + 1,
        _ => STORE_LEAST,
    };
    let mut store = bytes(rng, length);
    if rng.percent(20) {
        store.fill(0);
    }
    store[..DIRECTORY].fill(0);
    let most = rng.pick(&[0, 1, 3, 6, 6, 20, 62, 63]);
    // how many in a hundred are of the newer kinds
    let newer = rng.pick(&[0, 10, 50, 50, 100]);
    let mut records: Vec<Record> = Vec::new();
    let (mut held, mut at) = (0, DIRECTORY);
    while records.len() < most && at < length {
        let from = if rng.percent(newer) { 2 } else { 0 };
        let kind = KINDS[from + rng.below(2)];
        let mut number = if rng.percent(70) { rng.below(most + 2) as u16 } else { edge(rng) as u16 };
        if kind.edition() == NEWER && rng.percent(30) {
            number = any_number(rng).min(NUMBER_MOST);
        }
        let file = file(rng, height, kind.sort(), length - at, most);
        let record = Record { kind, number, size: file.len() as u32 };
        let twice = records.iter().any(|other| other.kind.sort() == kind.sort() && other.number == number);
        let passes = at + file.len() > length || held + kind.record_bytes() > RECORDS_MOST;
        if twice || record.broken() || passes {
            // some numbers are taken: try the next, but not for ever
            if rng.percent(10) {
                break;
            }
            continue;
        }
        store[at..at + file.len()].copy_from_slice(&file);
        records.push(record);
        held += kind.record_bytes();
        at += file.len();
    }
    put_records(&mut store, &records);
    assert!(Files::read(&store).is_some());
    store
}

fn file(rng: &mut Prng, height: u8, sort: Sort, room: usize, most: usize) -> Vec<u8> {
    if most > 20 && rng.percent(90) {
        // many files must be small ones to fit
        let count = rng.between(1, 9);
        return bytes(rng, count);
    }
    match (rng.below(8), sort) {
        (0, _) => bytes(rng, room),
        (1, _) => {
            let count = rng.between(1, 60);
            bytes(rng, count)
        }
        (2, Sort::Font) => bad_font(rng, height),
        (2, Sort::Bitmap) => bad_bitmap(rng),
        (_, Sort::Font) => good_font(rng, height),
        (_, Sort::Bitmap) => good_bitmap(rng),
    }
}

pub fn queue(rng: &mut Prng) -> Queue {
    Queue {
        ring: bytes(rng, RING),
        place: rng.below(RING),
        held: rng.pick(&[0, 1, 39, 40, 41, 78, 79, 80]).min(rng.between(0, RING + 20)),
        mark: rng.percent(50),
        lost: rng.pick(&[0, 255, 256, 65534, 65535]),
    }
}

/// A first and a last column or row below the limit, the first smaller.
fn span(rng: &mut Prng, limit: usize) -> (u8, u8) {
    let last = if rng.percent(30) { limit - 1 } else { rng.between(1, limit - 1) };
    let first = if rng.percent(30) { last - 1 } else { rng.below(last) };
    (first as u8, last as u8)
}

fn bar(rng: &mut Prng, height: u8) -> Bar {
    let ((x1, x2), (y1, y2)) = (span(rng, 240), span(rng, height as usize));
    let mut bar = Bar { side: rng.below(4) as u8, x1, y1, x2, y2, value: 0 };
    let length = bar.length();
    bar.value = [0, 1, length - 1, length, rng.between(0, length)][rng.below(5)] as u8;
    bar
}

fn strip(rng: &mut Prng, height: u8) -> Strip {
    let ((x1, x2), (y1, y2)) = (span(rng, 240), span(rng, height as usize));
    Strip { x1, y1, x2, y2 }
}

pub fn state(rng: &mut Prng, height: u8, edition: u8, store: &[u8]) -> State {
    let files = Files::read(store).expect("a good directory");
    let mut state = State::at_start(height, edition);
    state.used = files.used() as u16;
    let text = &mut state.text;
    let known = files.list.get(rng.below(files.list.len() + 1)).map_or(1, |file| file.number);
    text.font = match rng.below(10) {
        0 => any_number(rng),
        // alike in its low byte
        1 | 2 => known ^ 256,
        _ => known,
    };
    (text.left, text.top) = (edge(rng), edge(rng));
    if rng.percent(60) {
        (text.left, text.top) = (rng.below(9) as u8, rng.below(9) as u8);
    }
    (text.char_space, text.line_space) = (rng.pick(&[0, 1, 2, 255]), rng.pick(&[0, 1, 2, 57, 255]));
    text.scroll_row = if rng.percent(50) { height } else { edge(rng) };
    (text.wrap, text.scroll) = (rng.percent(60), rng.percent(60));
    text.x = [0, 239, 240, 255, 256, 494, 495, rng.below(496)][rng.below(8)] as u16;
    text.y = edge(rng) as u16;
    state.black = rng.percent(50);
    (state.line_x, state.line_y) = (edge(rng), edge(rng));
    let share = rng.pick(&[0, 20, 100]);
    state.bars = std::array::from_fn(|_| rng.percent(share).then(|| bar(rng, height)));
    state.strips = std::array::from_fn(|_| rng.percent(share).then(|| strip(rng, height)));
    state.serial = rng.percent(50).then(|| (rng.byte(), rng.byte()));
    (state.contrast, state.backlight, state.minutes) = (rng.byte(), rng.percent(50), rng.byte());
    state.flow = rng.percent(60);
    state.full = rng.below(80) as u8;
    let most = 79 - state.full as usize;
    state.empty = if rng.percent(30) { most } else { rng.between(0, most) } as u8;
    state.refusals = rng.pick(&[0, 255, 256, 65534, 65535]);
    state.last_refusal = edge(rng);
    under_way(rng, &mut state, &files);
    assert!(state.sound() && state.thresholds_fit());
    state
}

/// Each phase alike; an upload may be one that the directory no longer lets in.
fn under_way(rng: &mut Prng, state: &mut State, files: &Files) {
    match rng.below(6) {
        0 => state.gathering = Some(Gathering { bytes: Vec::new() }),
        1 => {
            let (code, _) = rng.pick(&COMMANDS);
            let needs = arguments(code, state.edition).expect("a known code");
            if needs > 0 {
                let got = rng.below(needs);
                let mut bytes = vec![code];
                bytes.extend((0..got).map(|_| if rng.percent(50) { rng.below(20) as u8 } else { edge(rng) }));
                state.gathering = Some(Gathering { bytes });
            }
        }
        2 => {
            let (a, b, c, d) = (edge(rng), edge(rng), edge(rng), edge(rng));
            let mut inline = Inline { x1: a.min(b), y1: c.min(d), x2: a.max(b), y2: c.max(d), come: 0 };
            let total = inline.total();
            inline.come = [0, total - 1, rng.below(total)][rng.below(3)];
            state.inline = Some(inline);
        }
        3 => {
            let sort = if rng.percent(50) { Sort::Font } else { Sort::Bitmap };
            let known = files.list.get(rng.below(files.list.len() + 1)).map_or(1, |file| file.number);
            let number = [known, any_number(rng), edge(rng) as u16, edge(rng) as u16, edge(rng) as u16][rng.below(5)];
            let unused = files.unused();
            let size = match rng.below(6) {
                0 => unused,
                1 => unused + 1,
                2 => rng.between(1, 65535),
                _ => rng.between(1, 30),
            };
            let size = size.clamp(1, 65535);
            let stored = [0, size - 1, rng.below(size)][rng.below(3)] as u16;
            let echoed = rng.percent(50).then(|| edge(rng));
            let waited = [0, 1, 255, 256, 2098, 2099, rng.below(2100) as u16][rng.below(7)];
            state.upload = Some(Upload { sort, number, size: size as u16, stored, echoed, waited });
        }
        _ => {}
    }
}
