//! Font and bitmap files for the generator: good ones, and each way of being malformed.

use crate::prng::Prng;

/// A small well-formed font for a glass of so many rows.
pub fn good_font(rng: &mut Prng, rows: u8) -> Vec<u8> {
    let rows = rows as usize;
    let height = match rng.below(12) {
        0 => rows,
        1 => 1,
        2 => 40,
        3 => rng.between(rows / 2, rows),
        _ => rng.between(1, 12),
    };
    let mut count = if height > 64 { rng.between(1, 2) } else { rng.between(1, 5) };
    let first = match rng.below(6) {
        0 => 0,
        1 => 256 - count,
        2 => {
            // about 8, 10 and 13, with one of them or more
            count += rng.below(4);
            rng.between(6, 13)
        }
        _ => rng.between(40, 90),
    };
    let widest = if height > 12 { 6 } else { 14 };
    let mut header =
        vec![rng.pick(&[1, 3, 5, 8, 20, 100, 240]) as u8, height as u8, first as u8, (first + count - 1) as u8];
    let gap = if rng.percent(20) { rng.below(4) } else { 0 };
    let mut offset = 4 + 3 * count + gap;
    let mut glyphs = vec![rng.byte(); gap];
    for _ in 0..count {
        let width = if height <= 2 && rng.percent(10) { 240 } else { rng.between(1, widest) };
        let bytes = (width * height).div_ceil(8);
        if rng.percent(15) && offset >= 4 + bytes {
            // shares bytes with what stands before it
            let back = rng.between(bytes, offset) - bytes;
            header.extend([0, back.min(255) as u8, width as u8]);
            continue;
        }
        header.extend([(offset / 256) as u8, (offset % 256) as u8, width as u8]);
        glyphs.extend((0..bytes).map(|_| rng.byte() | rng.byte()));
        offset += bytes;
    }
    header.extend(glyphs);
    if rng.percent(20) {
        header.push(rng.byte());
    }
    // a shared glyph may still reach beyond: that one is malformed on purpose
    header
}

/// A font with one thing wrong on a glass of so many rows.
pub fn bad_font(rng: &mut Prng, rows: u8) -> Vec<u8> {
    let mut font = good_font(rng, rows);
    let count = (font[3] - font[2]) as usize + 1;
    let entry = 4 + 3 * rng.below(count);
    match rng.below(10) {
        0 => font.truncate(rng.between(1, 3)),
        1 => font[0] = 0,
        2 => font[0] = rng.between(241, 255) as u8,
        3 => font[1] = 0,
        4 => {
            // on the low glass most often one that the tall one would take
            let rows = rows as usize;
            font[1] =
                [rows + 1, rng.between(rows + 1, rows + 6), rng.between(rows + 1, 2 * rows - 1)][rng.below(3)] as u8;
            font.resize(font.len() + 14 * font[1] as usize / 8 + 1, 7);
        }
        5 => (font[2], font[3]) = (font[3].max(1), font[2].min(font[3].max(1) - 1)),
        6 => font.truncate(rng.between(4, 3 + 3 * count)),
        7 => font[entry + 2] = 0,
        8 => {
            // nothing else is wrong: one row high, and bytes enough from the file's start
            font[1] = 1;
            font[entry..entry + 3].copy_from_slice(&[0, 0, rng.between(241, 255) as u8]);
            font.resize(font.len().max(32), 9);
        }
        _ => {
            // one byte too far
            let bytes = (font[entry + 2] as usize * font[1] as usize).div_ceil(8);
            let offset = font.len() + 1 - bytes.min(font.len() + 1);
            (font[entry], font[entry + 1]) = ((offset / 256) as u8, (offset % 256) as u8);
        }
    }
    font
}

pub fn good_bitmap(rng: &mut Prng) -> Vec<u8> {
    let (width, height) = match rng.below(10) {
        0 => (255, rng.between(1, 3)),
        1 => (rng.between(1, 3), 255),
        2 => (240, 2),
        3 => (1, 1),
        _ => (rng.between(1, 20), rng.between(1, 20)),
    };
    let mut bitmap = vec![width as u8, height as u8];
    bitmap.extend((0..(width * height).div_ceil(8)).map(|_| rng.byte()));
    bitmap
}

pub fn bad_bitmap(rng: &mut Prng) -> Vec<u8> {
    let mut bitmap = good_bitmap(rng);
    match rng.below(5) {
        0 => bitmap.truncate(1),
        1 => bitmap[0] = 0,
        2 => bitmap[1] = 0,
        3 => bitmap.push(rng.byte()),
        _ => bitmap.truncate(bitmap.len() - 1),
    }
    bitmap
}
