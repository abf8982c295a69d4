//! Memory made bad in one place or many; some of it stays sound, and the reference says which.

use crate::damage_directory::directory;
use crate::memory::Memory;
use crate::random::{any_number, bytes};
use crate::record::{BARS, EDITION, FLOW, GOT, HEIGHT, INLINE, PHASE, QUEUE_BYTES, SERIAL, STATE_BYTES, STRIPS};
use crate::record::{TEXT, UPLOAD, USED, WAITED};
use reference::directory::DIRECTORY;
use reference::edition::{NEWER, OLDER};
use reference::files::Files;
use reference::glass::{glass_bytes, HEIGHTS, LOW, TALL};
use reference::prng::Prng;

/// Lengths near the right one, none at all, and those that look right in one or two bytes.
pub fn lengths(right: usize) -> Vec<usize> {
    vec![0, 1, right - 1, right, right + 1, 2 * right, right + 256, right + 65536]
}

/// Near the length of either glass, and between the two.
pub fn glass_lengths() -> Vec<usize> {
    let mut all: Vec<usize> = HEIGHTS.iter().flat_map(|&height| lengths(glass_bytes(height))).collect();
    all.extend([30, 1890, 1950, 2880, 3810, 3870]);
    all.sort();
    all.dedup();
    all
}

pub const STORE_LENGTHS: [usize; 18] =
    [0, 1, 255, 256, 257, 512, 1023, 1024, 1025, 2000, 32767, 32768, 32769, 40000, 65535, 65536, 66560, 98304];

/// Damages one to three things.
pub fn any(rng: &mut Prng, memory: &mut Memory) {
    for _ in 0..rng.pick(&[1, 1, 1, 2, 3]) {
        match rng.below(16) {
            0..=2 => state(rng, &mut memory.state),
            9 => height(rng, &mut memory.state),
            10 => other_glass(rng, memory),
            11 => edition(rng, &mut memory.state),
            12 => waited(rng, &mut memory.state),
            3 => queue(rng, &mut memory.queue),
            4 | 5 => {
                directory(rng, &mut memory.store);
                if rng.percent(70) {
                    // else every directory that is still a good one would be 3
                    memory.recount();
                }
            }
            6 | 13 => length(rng, memory),
            14 | 15 => used(rng, memory),
            7 => upload(rng, memory),
            _ => aimed(rng, &mut memory.state),
        }
    }
}

/// One byte otherwise, some bytes otherwise, or all.
pub fn scatter(rng: &mut Prng, bytes: &mut [u8], from: usize) {
    if bytes.len() <= from {
        return;
    }
    let place = rng.between(from, bytes.len() - 1);
    match rng.below(10) {
        0..=2 => bytes[place] ^= 1 << rng.below(8),
        3 | 4 => bytes[place] = rng.byte(),
        5 => bytes[place] = bytes[place].wrapping_add(1),
        6 => bytes[place] = bytes[place].wrapping_sub(1),
        7 => bytes[place] = rng.pick(&[0, 1, 2, 255]),
        8 => {
            for _ in 0..rng.between(2, 8) {
                bytes[rng.between(from, bytes.len() - 1)] = rng.byte();
            }
        }
        _ => bytes[from..].iter_mut().for_each(|byte| *byte = rng.byte()),
    }
}

pub fn state(rng: &mut Prng, state: &mut Vec<u8>) {
    if rng.percent(4) {
        resize(rng, state, &lengths(STATE_BYTES));
    } else {
        scatter(rng, state, 0);
    }
}

pub fn queue(rng: &mut Prng, queue: &mut Vec<u8>) {
    match rng.below(10) {
        0 => resize(rng, queue, &lengths(QUEUE_BYTES)),
        // the ring takes anything, so the five numbers matter most
        1..=7 => scatter(rng, queue, 80),
        _ => scatter(rng, queue, 0),
    }
}

fn resize(rng: &mut Prng, slice: &mut Vec<u8>, lengths: &[usize]) {
    let length = rng.pick(lengths);
    let old = slice.len();
    slice.resize(length, 0);
    if length > old && rng.percent(50) {
        let more = bytes(rng, length - old);
        slice[old..].copy_from_slice(&more);
    }
}

pub fn length(rng: &mut Prng, memory: &mut Memory) {
    match rng.below(4) {
        0 => resize(rng, &mut memory.glass, &glass_lengths()),
        1 => resize(rng, &mut memory.store, &STORE_LENGTHS),
        2 => resize(rng, &mut memory.state, &lengths(STATE_BYTES)),
        _ => resize(rng, &mut memory.queue, &lengths(QUEUE_BYTES)),
    }
}

/// Another height in the record: one that no glass has, or the other one.
pub fn height(rng: &mut Prng, state: &mut [u8]) {
    let any = rng.byte();
    put(state, HEIGHT, rng.pick(&[LOW, TALL, 0, 1, 63, 65, 127, 129, 192, 255, any]));
}

/// Another edition in the record: one that there is not, or the other one, by which its gathering is judged then.
pub fn edition(rng: &mut Prng, state: &mut [u8]) {
    let any = rng.byte();
    put(state, EDITION, rng.pick(&[OLDER, NEWER, OLDER, NEWER, 0, 3, 4, 128, 254, 255, any]));
}

/// The milliseconds of an upload about its limit, or where there is none.
pub fn waited(rng: &mut Prng, state: &mut [u8]) {
    let sum = [2098, 2099, 2100, 2101, 1, 255, 256, 65535, rng.next() as u16][rng.below(9)];
    let [low, high] = sum.to_le_bytes();
    put(state, WAITED, low);
    put(state, WAITED + 1, high);
}

/// A kept sum that is not the directory's: off by little, in one byte or in both, or by the bytes of an upload.
pub fn used(rng: &mut Prng, memory: &mut Memory) {
    if memory.state.len() != STATE_BYTES {
        return;
    }
    let word = |place: usize| u16::from_le_bytes([memory.state[place], memory.state[place + 1]]);
    let (sum, size, stored) = (word(USED), word(UPLOAD + 3), word(UPLOAD + 5));
    let other = rng.between(1, 255) as u16;
    #[rustfmt::skip]
    let sums = [
        sum.wrapping_sub(1), sum.wrapping_add(1), sum ^ other, sum ^ other << 8, sum.swap_bytes(),
        sum.wrapping_add(size), sum.wrapping_sub(size), sum.wrapping_add(stored), 0, 768, 32512, 32513, 65535,
        rng.next() as u16,
    ];
    memory.state[USED..].copy_from_slice(&rng.pick(&sums).to_le_bytes());
}

/// The record as it is, lent with the glass of the other height.
pub fn other_glass(rng: &mut Prng, memory: &mut Memory) {
    let (low, tall) = (glass_bytes(LOW), glass_bytes(TALL));
    let length = if memory.glass.len() == low { tall } else { low };
    resize(rng, &mut memory.glass, &[length]);
}

/// Writes at a place if the record has it.
fn put(record: &mut [u8], place: usize, value: u8) {
    if let Some(byte) = record.get_mut(place) {
        *byte = value;
    }
}

/// Fields set to values at the edge of what is sound.
pub fn aimed(rng: &mut Prng, state: &mut [u8]) {
    let (bar, strip) = (BARS + 7 * rng.below(16), STRIPS + 5 * rng.below(8));
    match rng.below(10) {
        0 => {
            put(state, TEXT + 2, rng.pick(&[238, 239, 240, 255]));
            put(state, TEXT + 3, rng.pick(&[0, 1, 2]));
        }
        1 => {
            let full = rng.below(81) as u8;
            put(state, FLOW, rng.below(2) as u8);
            put(state, FLOW + 1, full);
            put(state, FLOW + 2, rng.pick(&[79, 80, 81]) - full.min(79));
        }
        2 => {
            #[rustfmt::skip]
            let corners = rng.pick(&[
                [0, 0, 239, 63], [0, 0, 240, 63], [0, 0, 239, 64], [5, 5, 5, 9], [5, 9, 9, 9],
                [0, 0, 239, 127], [0, 0, 239, 128], [0, 63, 9, 64], [0, 126, 9, 127],
            ]);
            for (k, value) in [1, rng.below(5) as u8].into_iter().chain(corners).enumerate() {
                put(state, bar + k, value);
            }
            put(state, bar + 6, rng.pick(&[0, 2, 5, 6, 63, 64, 65, 127, 128, 129, 239, 240, 241]));
        }
        3 => {
            #[rustfmt::skip]
            let corners = rng.pick(&[
                [0, 0, 239, 63], [0, 0, 240, 63], [0, 0, 239, 64], [7, 0, 7, 1], [0, 7, 1, 7],
                [0, 0, 239, 127], [0, 0, 239, 128], [0, 64, 9, 65],
            ]);
            for (k, value) in [1].into_iter().chain(corners).enumerate() {
                put(state, strip + k, value);
            }
        }
        4 => put(state, rng.pick(&[bar, strip, SERIAL]), rng.below(3) as u8),
        5 => put(state, PHASE, rng.below(7) as u8),
        6 => {
            put(state, PHASE, 2);
            put(state, PHASE + 1, rng.pick(&[33, 36, 49, 50, 88, 94, 98, 100, 103, 106, 107, 120, 173, 254]));
            put(state, GOT, rng.below(8) as u8);
        }
        7 => {
            let total = rng.pick(&[8192, 8191, 256, 255, 1, 0]);
            let values = [0, 0, 255, 255, total as u8, (total / 256) as u8];
            put(state, PHASE, 3);
            values.into_iter().enumerate().for_each(|(k, value)| put(state, INLINE + k, value));
        }
        8 => {
            put(state, PHASE, 4);
            put(state, UPLOAD, rng.below(4) as u8);
            put(state, UPLOAD + 7, rng.below(3) as u8);
        }
        _ => put(state, rng.between(1, TEXT - 1), 1),
    }
}

/// An upload under way beside files that may be in its way.
pub fn upload(rng: &mut Prng, memory: &mut Memory) {
    if memory.state.len() != STATE_BYTES || memory.store.len() < DIRECTORY {
        return;
    }
    let files = Files::read(&memory.store).map_or(Vec::new(), |files| files.list);
    let held = files.get(rng.below(files.len() + 1)).map(|file| (file.sort() as u8 + 1, file.number));
    let any = if rng.percent(75) { rng.byte() as u16 } else { any_number(rng) };
    let (sort, number) = held.filter(|_| rng.percent(40)).unwrap_or((rng.between(1, 2) as u8, any));
    let used: usize = files.iter().map(|file| file.bytes.len()).sum();
    let unused = memory.store.len().saturating_sub(DIRECTORY + used);
    let size = [unused, unused + 1, unused.saturating_sub(1), 1, rng.below(65536)][rng.below(5)].min(65535);
    let stored = [0, size.saturating_sub(1), size][rng.below(3)];
    memory.state[PHASE] = 4;
    memory.state[1..UPLOAD].fill(0);
    memory.state[UPLOAD] = sort;
    let words = [number, size as u16, stored as u16].map(u16::to_le_bytes);
    memory.state[UPLOAD + 1..UPLOAD + 7].copy_from_slice(words.as_flattened());
    let waiting = rng.below(2) as u8;
    memory.state[UPLOAD + 7..WAITED].copy_from_slice(&[waiting, waiting * rng.byte()]);
    let sum: u16 = rng.pick(&[0, 0, 0, 1, 1, 2000, 2099, 2099, 2100]);
    memory.state[WAITED..TEXT].copy_from_slice(&sum.to_le_bytes());
}
