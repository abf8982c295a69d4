//! The facts of the built-in font's 764 numbers.

use reference::builtin::{built_in_font, shapes};
use reference::font::Font;
use reference::glass::{HEIGHTS, LOW};
use std::collections::HashSet;

#[test]
fn ninety_five_shapes_in_order() {
    let numbers: Vec<u8> = shapes().iter().map(|(number, _)| *number).collect();
    assert_eq!(numbers, (32..=126).collect::<Vec<u8>>());
}

#[test]
fn header_table_and_length() {
    let font = built_in_font();
    assert_eq!(font.len(), 764);
    assert_eq!(font[..4], [5, 7, 32, 126]);
    for k in 0..95 {
        let offset = 289 + 5 * k;
        assert_eq!(font[4 + 3 * k..7 + 3 * k], [(offset / 256) as u8, (offset % 256) as u8, 5]);
    }
    assert_eq!(289 + 5 * 95, 764);
    assert!(HEIGHTS.iter().all(|&height| Font::open(&font, height).is_some()));
}

#[test]
fn spare_bits_are_clear() {
    let font = built_in_font();
    for glyph in font[289..].chunks(5) {
        assert_eq!(glyph[4] & 31, 0);
    }
}

#[test]
fn all_different_and_one_blank() {
    let font = built_in_font();
    let glyphs: Vec<&[u8]> = font[289..].chunks(5).collect();
    assert_eq!(glyphs.len(), 95);
    assert_eq!(glyphs.iter().collect::<HashSet<_>>().len(), 95);
    for (k, glyph) in glyphs.iter().enumerate() {
        assert_eq!(glyph.iter().all(|&byte| byte == 0), k == 0, "character {}", 32 + k);
    }
}

#[test]
fn fifth_column_is_white() {
    for (number, rows) in shapes() {
        assert!(rows.iter().all(|row| !row[4]), "character {number}");
    }
}

/// In how many of their cells two shapes differ.
fn distance(one: &[Vec<bool>], other: &[Vec<bool>]) -> usize {
    one.concat().iter().zip(other.concat()).filter(|(a, b)| **a != *b).count()
}

#[test]
fn shapes_and_digits_are_apart() {
    let all = shapes();
    for (k, (one, rows)) in all.iter().enumerate() {
        for (other, others) in &all[k + 1..] {
            let least = if one.is_ascii_digit() && other.is_ascii_digit() { 4 } else { 2 };
            assert!(distance(rows, others) >= least, "characters {one} and {other}");
        }
    }
}

#[test]
fn glyphs_are_the_drawn_shapes() {
    let bytes = built_in_font();
    let font = Font::open(&bytes, LOW).unwrap();
    for (number, rows) in shapes() {
        for (row, cells) in rows.iter().enumerate() {
            for (column, &black) in cells.iter().enumerate() {
                assert_eq!(font.dot(number, column, row), black);
            }
        }
    }
}
