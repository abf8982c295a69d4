//! Streams for memory that the reference's own generator did not make.

use crate::memory::Memory;
use crate::random::{any_number, bytes, edge};
use crate::record::{EDITION, HEIGHT};
use reference::case_file::{upload, upload_begun};
use reference::commands::{arguments, COMMANDS, NAMING};
use reference::edition::{number_sent, EDITIONS, NEWER, OLDER};
use reference::files::Files;
use reference::generator_files::{bad_font, good_bitmap, good_font};
use reference::generator_times::among;
use reference::glass::{HEIGHTS, LOW};
use reference::input::Input;
use reference::prng::Prng;
use reference::state::Sort;

/// Bytes with times among them, none or few or many.
pub fn with_times(rng: &mut Prng, bytes: &[u8]) -> Vec<Input> {
    let often = rng.pick(&[0, 1, 5, 30]);
    among(rng, bytes, often)
}

/// Commands with chance arguments, characters, uploads and noise, as the record's edition has them;
/// files that are there are named often.
pub fn commands(rng: &mut Prng, memory: &Memory) -> Vec<u8> {
    let files: Vec<(Sort, u16)> = match Files::read(&memory.store) {
        Some(files) => files.list.iter().map(|file| (file.sort(), file.number)).collect(),
        None => Vec::new(),
    };
    let height = memory.state.get(HEIGHT).copied().filter(|height| HEIGHTS.contains(height)).unwrap_or(LOW);
    let edition = memory.state.get(EDITION).copied().filter(|edition| EDITIONS.contains(edition)).unwrap_or(OLDER);
    let mut stream = Vec::new();
    let pieces = rng.between(5, 80);
    for _ in 0..pieces {
        match rng.below(13) {
            0..=3 => any_command(rng, edition, &mut stream),
            4 | 5 => characters(rng, &mut stream),
            6 => known_file(rng, edition, &files, &mut stream),
            7 => {
                let (code, file) = match rng.below(8) {
                    0 => (36, bad_font(rng, height)),
                    1..=3 => (36, good_font(rng, height)),
                    _ => (94, good_bitmap(rng)),
                };
                let number = if rng.percent(60) { edge(rng) as u16 } else { any_number(rng) };
                stream.extend(upload(edition, code, number, &file));
                if code == 36 && rng.percent(50) {
                    naming(edition, 49, number, &mut stream);
                    characters(rng, &mut stream);
                }
            }
            8 => on_the_glass(rng, height as usize, &mut stream),
            9 => {
                // enough to end whatever is under way, most often
                let count = rng.pick(&[1, 2, 8, 40]);
                stream.extend(bytes(rng, count));
            }
            10 => stream.extend([254, rng.byte()]),
            11 => any_naming(rng, edition, &mut stream),
            _ => stream.extend([rng.byte(), 1]),
        }
    }
    stream
}

fn any_command(rng: &mut Prng, edition: u8, stream: &mut Vec<u8>) {
    let (code, _) = rng.pick(&COMMANDS);
    let needs = arguments(code, edition).expect("a known code");
    stream.extend([254, code]);
    stream.extend((0..needs).map(|_| if rng.percent(30) { rng.below(8) as u8 } else { edge(rng) }));
}

fn naming(edition: u8, code: u8, number: u16, stream: &mut Vec<u8>) {
    stream.extend([254, code]);
    stream.extend(number_sent(edition, number));
}

/// Any number in each of the commands that name a file, with sizes of any width.
fn any_naming(rng: &mut Prng, edition: u8, stream: &mut Vec<u8>) {
    let (code, number) = (rng.pick(&NAMING), any_number(rng));
    match code {
        36 | 94 => {
            let widest = if edition == NEWER { u32::MAX as usize } else { 65535 };
            let size = [0, 1, 2, 9, 40_000, 65_535, 65_536, 65_540, 1 << 24, widest][rng.below(10)].min(widest);
            stream.extend(upload_begun(edition, code, number, size));
            stream.extend([7, 1, 8, 1, 9, 1]);
        }
        173 => {
            stream.extend([254, 173, rng.below(3) as u8]);
            stream.extend(number_sent(edition, number));
        }
        _ => naming(edition, code, number, stream),
    }
}

fn characters(rng: &mut Prng, stream: &mut Vec<u8>) {
    let (low, high) = rng.pick(&[(32, 126), (40, 95), (0, 255)]);
    let count = rng.between(1, 30);
    stream.extend((0..count).map(|_| rng.between(low, high) as u8));
}

fn known_file(rng: &mut Prng, edition: u8, files: &[(Sort, u16)], stream: &mut Vec<u8>) {
    if files.is_empty() {
        return;
    }
    let (sort, number) = rng.pick(files);
    let bitmap = (sort == Sort::Bitmap) as u8;
    match (rng.below(4), sort) {
        (0, _) => {
            stream.extend([254, 173, bitmap]);
            stream.extend(number_sent(edition, number));
        }
        (_, Sort::Font) => {
            naming(edition, 49, number, stream);
            characters(rng, stream);
        }
        _ => {
            naming(edition, 98, number, stream);
            stream.extend([edge(rng), edge(rng)]);
        }
    }
}

/// Bars, strips and shapes whose corners are good ones.
fn on_the_glass(rng: &mut Prng, height: usize, stream: &mut Vec<u8>) {
    let (x1, y1) = (rng.below(239), rng.below(height - 1));
    let (x2, y2) = (rng.between(x1 + 1, 239), rng.between(y1 + 1, height - 1));
    let corners = [x1 as u8, y1 as u8, x2 as u8, y2 as u8];
    let (bar, strip) = (rng.below(16) as u8, rng.below(8) as u8);
    match rng.below(4) {
        0 => {
            stream.extend([254, 103, bar, rng.below(4) as u8]);
            stream.extend(corners);
            for _ in 0..rng.below(4) {
                stream.extend([254, 105, bar, edge(rng)]);
            }
        }
        1 => {
            stream.extend([254, 106, strip]);
            stream.extend(corners);
            stream.extend([254, 107, strip, 254, 107, strip + 128]);
        }
        _ => {
            stream.extend([254, rng.pick(&[114, 120]), rng.pick(&[0, 0, 0, 1, 2, 128, 254, 255])]);
            stream.extend(corners);
        }
    }
}

/// As many bytes as asked for, whatever they mean.
pub fn noise(rng: &mut Prng, count: usize) -> Vec<u8> {
    (0..count).map(|_| if rng.percent(15) { 254 } else { rng.byte() }).collect()
}
