//! Directories made bad, or only otherwise: records of any kind about every limit.

use crate::damage::scatter;
use crate::random::any_number;
use reference::directory::{Kind, Record, DIRECTORY, KINDS};
use reference::edition::{EDITIONS, NEWER, OLDER};
use reference::generator_start::put_records;
use reference::prng::Prng;

/// Where each record begins, and behind them where the next one would.
fn places(store: &[u8]) -> Vec<usize> {
    let mut all = vec![0];
    while let Some(kind) = store[..DIRECTORY].get(*all.last().unwrap()).and_then(|&byte| Kind::from_byte(byte)) {
        all.push(all.last().unwrap() + kind.record_bytes());
    }
    all.retain(|&place| place < DIRECTORY);
    all
}

pub fn directory(rng: &mut Prng, store: &mut [u8]) {
    if store.len() < 1024 {
        return;
    }
    let places = places(store);
    let (one, other) = (rng.pick(&places), rng.pick(&places));
    let end = *places.last().unwrap();
    let wide = Kind::from_byte(store[one]).map_or(4, Kind::record_bytes);
    let cut = |from: usize, length: usize| from.min(DIRECTORY)..(from + length).min(DIRECTORY);
    match rng.below(15) {
        // an entry twice, two changed round, one put out, one more
        0 => store.copy_within(cut(one, wide.min(DIRECTORY - end)), end),
        1 => (0..wide).filter(|k| one.max(other) + k < DIRECTORY).for_each(|k| store.swap(one + k, other + k)),
        2 => store[cut(one, wide)].fill(0),
        3 => {
            let more = [rng.between(1, 5) as u8, rng.byte(), rng.between(0, 2) as u8, 0, 0, 0, 0];
            let range = cut(end, 7);
            store[range.clone()].copy_from_slice(&more[..range.len()]);
        }
        4 => store[cut(one + 1, 1)].fill(rng.pick(&[0, 1, 2])),
        5 => store[cut(one, 2)].fill(1),
        6 => store[cut(one + wide / 2, wide - wide / 2)].fill(0),
        7 => sum_at_the_limit(rng, store),
        8 => many(rng, store),
        9 => store[rng.between(end, 255)] = rng.byte(),
        // the same file in the other edition's kind, a number about the range, font 1, a size of any width
        10 => in_both_kinds(rng, store),
        11 | 12 => one_record(rng, store),
        _ => scatter(rng, &mut store[..DIRECTORY], 0),
    }
}

/// Two files that fill the area just so, or pass it by one, of any kinds.
fn sum_at_the_limit(rng: &mut Prng, store: &mut [u8]) {
    let area = store.len() - DIRECTORY;
    let first = rng.between(1, area - 1);
    let second = (area - first + rng.below(3)).saturating_sub(1);
    let record = |kind, size: usize| Record { kind, number: 7, size: size as u32 };
    let (font, bitmap) = (rng.pick(&[Kind::Font, Kind::NewerFont]), rng.pick(&[Kind::Bitmap, Kind::NewerBitmap]));
    put_records(store, &[record(font, first), record(bitmap, second)]);
}

/// Files of one byte whose records come to 245 to 256 bytes: 63 of four, 36 of seven, or mixed.
fn many(rng: &mut Prng, store: &mut [u8]) {
    let newer = rng.pick(&[0, 0, 1, 3, 4, 20, 33, 35, 36]);
    let least = rng.between(245, 256);
    let from = rng.below(600) as u16;
    let mut records = Vec::new();
    let mut held = 0;
    while held < least {
        let edition = if records.len() < newer { NEWER } else { OLDER };
        let kind = KINDS[2 * (edition == NEWER) as usize + rng.below(2)];
        held += kind.record_bytes();
        records.push(Record {
            kind,
            number: (from + records.len() as u16) % if newer == 0 { 256 } else { 1024 },
            size: 1,
        });
    }
    if rng.percent(50) {
        records.reverse();
    }
    if held > 256 {
        records.pop();
    }
    put_records(store, &records);
}

/// One number in two kinds of one sort, or of both sorts.
fn in_both_kinds(rng: &mut Prng, store: &mut [u8]) {
    let number = rng.byte() as u16;
    let (one, other) = (rng.pick(&KINDS), rng.pick(&KINDS));
    put_records(store, &[one, other].map(|kind| Record { kind, number, size: 1 }));
}

/// A lone record with its number or its size at an edge.
fn one_record(rng: &mut Prng, store: &mut [u8]) {
    let area = (store.len() - DIRECTORY) as u32;
    let number = if rng.percent(50) { any_number(rng) } else { rng.below(3) as u16 };
    let sizes = [0, 1, area, area + 1, 65535, 65536, 65537, area + 65536, 1 << 24, 1 << 31, u32::MAX - 255, u32::MAX];
    let edition = rng.pick(&EDITIONS);
    let kind = KINDS[2 * (edition == NEWER) as usize + rng.below(2)];
    let record = Record { kind, number, size: rng.pick(&sizes) };
    let huge = Record { kind: Kind::NewerBitmap, number: 9, size: u32::MAX };
    if rng.percent(20) {
        // sums that no 32 bits hold
        put_records(store, &[record, huge]);
    } else {
        put_records(store, &[record]);
    }
}
