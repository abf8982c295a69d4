//! Things a stream may begin with: stores, glasses and sound states.

use crate::commands::{arguments, COMMANDS};
use crate::directory::{Kind, Record, DIRECTORY, KINDS, RECORDS_MOST};
use crate::edition::{NEWER, NUMBER_MOST};
use crate::files::Files;
use crate::generator_files::{bad_bitmap, bad_font, good_bitmap, good_font};
use crate::glass::{glass_bytes, Glass};
use crate::prng::Prng;
use crate::queue::{Queue, RING};
use crate::state::{Bar, Gathering, Inline, Sort, State, Strip, Upload};

/// A store of an allowed size with leftovers, and files of every kind in it more often than not;
/// its good fonts are good on that glass.
pub fn random_store(rng: &mut Prng, height: u8) -> Vec<u8> {
    let size = match rng.below(10) {
        0 => 32768,
        1 => 1025,
        2 => 2048,
        3 => 4000,
        _ => 1024,
    };
    let mut store = vec![0; size];
    if rng.percent(60) {
        for byte in &mut store[256..] {
            *byte = rng.byte();
        }
    }
    if rng.percent(12) {
        many_records(rng, &mut store);
        return store;
    }
    let mut records = Vec::new();
    let mut at = DIRECTORY;
    for k in 2..rng.between(2, 7) as u16 {
        let (sort, file) = match rng.below(6) {
            0 => (Sort::Font, bad_font(rng, height)),
            1 => (Sort::Bitmap, bad_bitmap(rng)),
            2 | 3 => (Sort::Bitmap, good_bitmap(rng)),
            _ => (Sort::Font, good_font(rng, height)),
        };
        let kind = rng.pick(&KINDS.map(|kind| Kind::written_by(kind.edition(), sort)));
        // each number differs from the others in its low byte too
        let high = if kind.edition() == NEWER { rng.pick(&[0, 0, 1, 3]) } else { 0 };
        if at + file.len() <= size {
            records.push(Record { kind, number: 256 * high + k, size: file.len() as u32 });
            store[at..at + file.len()].copy_from_slice(&file);
            at += file.len();
        }
    }
    put_records(&mut store, &records);
    assert!(Files::read(&store).is_some());
    store
}

pub fn put_records(store: &mut [u8], records: &[Record]) {
    let bytes: Vec<u8> = records.iter().flat_map(Record::bytes).collect();
    store[..DIRECTORY].fill(0);
    store[..bytes.len()].copy_from_slice(&bytes);
}

/// One-byte files of mixed kinds whose records come to 252 bytes or a few less or more.
fn many_records(rng: &mut Prng, store: &mut [u8]) {
    let newer = rng.pick(&[0, 1, 5, 20, 33, 36]);
    let mut records = Vec::new();
    let mut length = 0;
    let most = rng.between(240, RECORDS_MOST);
    for number in 100.. {
        let edition = if records.len() < newer { NEWER } else { crate::edition::OLDER };
        let kind = Kind::written_by(edition, rng.pick(&[Sort::Font, Sort::Bitmap]));
        length += kind.record_bytes();
        if length > most {
            break;
        }
        let place = rng.below(records.len() + 1);
        records.insert(place, Record { kind, number, size: 1 });
    }
    put_records(store, &records);
    assert!(Files::read(store).is_some());
}

pub fn random_glass(rng: &mut Prng, height: u8) -> Glass {
    let fill = rng.pick(&[0, 255, 170]);
    let bytes: Vec<u8> = (0..glass_bytes(height)).map(|_| if rng.percent(50) { fill } else { rng.byte() }).collect();
    Glass::from_bytes(&bytes)
}

/// An empty queue anywhere in its ring.
pub fn random_queue(rng: &mut Prng) -> Queue {
    let ring = (0..RING).map(|_| rng.byte()).collect();
    Queue { ring, place: rng.below(RING), held: 0, mark: rng.percent(50), lost: rng.pick(&[0, 9, 65500, 65535]) }
}

/// Any sound state that such a store does not refuse.
pub fn random_state(rng: &mut Prng, height: u8, edition: u8, store: &[u8]) -> State {
    let mut state = State::at_start(height, edition);
    let files = Files::read(store).expect("a good directory");
    state.used = files.used() as u16;
    let text = &mut state.text;
    let held = files.list.iter().map(|file| file.number).collect::<Vec<_>>();
    text.font = rng.pick(&[1, 1, 2, 3, 4, 5, 6, 9, 258, 1024, 65535]);
    if !held.is_empty() && rng.percent(60) {
        text.font = rng.pick(&held);
    }
    text.left = rng.pick(&[0, 0, 7, 239, 255]);
    text.top = rng.pick(&[0, 0, 9, height - 1, 255]);
    text.char_space = rng.pick(&[0, 1, 255]);
    text.line_space = rng.pick(&[0, 1, 60, 255]);
    text.scroll_row = rng.pick(&[height, 64, 0, 30, 255]);
    (text.wrap, text.scroll) = (rng.percent(70), rng.percent(70));
    (text.x, text.y) = (rng.pick(&[0, 235, 240, 495]), rng.pick(&[0, 40, 57, height as u16 - 7, 255]));
    state.black = rng.percent(50);
    (state.line_x, state.line_y) = (rng.byte(), rng.byte());
    for bar in state.bars.iter_mut().take(6) {
        let (x1, y1) = (rng.below(200) as u8, rng.below(height as usize - 14) as u8);
        let (x2, y2) = (x1 + rng.between(1, 39) as u8, y1 + rng.between(1, 13) as u8);
        let mut new = Bar { side: rng.below(4) as u8, x1, y1, x2, y2, value: 0 };
        new.value = rng.between(0, new.length()) as u8;
        *bar = rng.percent(50).then_some(new);
    }
    for strip in state.strips.iter_mut() {
        let (y1, x2) = (rng.below(30) as u8, rng.between(4, 239) as u8);
        *strip = rng.percent(40).then_some(Strip { x1: 3, y1, x2, y2: height - 1 });
    }
    state.serial = rng.percent(50).then_some((rng.byte(), rng.byte()));
    (state.contrast, state.backlight, state.minutes) = (rng.byte(), rng.percent(50), rng.byte());
    (state.flow, state.full, state.empty) = (rng.percent(60), rng.below(41) as u8, rng.below(40) as u8);
    state.refusals = rng.pick(&[0, 5, 65530, 65535]);
    state.last_refusal = rng.pick(&[0, 16, 29]);
    under_way(rng, &mut state, &files);
    assert!(state.sound());
    state
}

/// A command, data or an upload in the middle.
fn under_way(rng: &mut Prng, state: &mut State, files: &Files) {
    match rng.below(5) {
        0 => {
            let (code, _) = rng.pick(&COMMANDS);
            let needs = arguments(code, state.edition).expect("a known code");
            let bytes = if needs == 0 { 0 } else { rng.between(1, needs) };
            let bytes = (0..bytes).map(|k| if k == 0 { code } else { rng.between(0, 60) as u8 }).collect();
            state.gathering = Some(Gathering { bytes });
        }
        1 => {
            let (x1, y1) = (rng.below(250) as u8, rng.below(state.height as usize + 6) as u8);
            let mut inline = Inline { x1, y1, x2: x1.saturating_add(20), y2: y1.saturating_add(9), come: 0 };
            inline.come = rng.below(inline.total());
            state.inline = Some(inline);
        }
        2 => {
            let sort = if rng.percent(50) { Sort::Font } else { Sort::Bitmap };
            let size = rng.between(1, 40) as u16;
            let stored = rng.below(size as usize) as u16;
            let echoed = rng.percent(50).then_some(rng.byte());
            let number = if state.edition == NEWER { rng.pick(&[40, 40, 400, NUMBER_MOST]) } else { 40 };
            let waited = rng.pick(&[0, 1, 1000, 2098, 2099]);
            let upload = Upload { sort, number, size, stored, echoed, waited };
            if !files.upload_impossible(state.edition, &upload) {
                state.upload = Some(upload);
            }
        }
        _ => {}
    }
}
