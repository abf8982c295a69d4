//! The two editions of the upload: how wide the numbers and sizes are that a host sends.

use crate::mutants::{is, Mutant as M};

pub const OLDER: u8 = 1;
pub const NEWER: u8 = 2;
pub const EDITIONS: [u8; 2] = [OLDER, NEWER];

/// The greatest number that a file may have.
pub const NUMBER_MOST: u16 = 1023;

pub fn number_bytes(edition: u8) -> usize {
    if edition == NEWER {
        2
    } else {
        1
    }
}

pub fn size_bytes(edition: u8) -> usize {
    2 * number_bytes(edition)
}

/// The greatest number that an edition's commands can name at all.
pub fn nameable_most(edition: u8) -> u16 {
    if edition == NEWER {
        u16::MAX
    } else {
        255
    }
}

/// One, two or four bytes, the lowest first.
pub fn low_first(bytes: &[u8]) -> u32 {
    bytes.iter().rev().fold(0, |number, &byte| number * 256 + byte as u32)
}

/// The number at the front of a command's arguments, and what follows it.
pub fn split_number(edition: u8, arguments: &[u8]) -> (u16, &[u8]) {
    let (number, rest) = arguments.split_at(number_bytes(edition));
    let high_first = is(M::NumberHighByteFirst) && number.len() == 2;
    let number = if high_first { low_first(&[number[1], number[0]]) } else { low_first(number) };
    (if is(M::NumberHighByteDropped) { number % 256 } else { number } as u16, rest)
}

/// A number as the edition sends it.
pub fn number_sent(edition: u8, number: u16) -> Vec<u8> {
    number.to_le_bytes()[..number_bytes(edition)].to_vec()
}

/// A size as the edition sends it.
pub fn size_sent(edition: u8, size: u32) -> Vec<u8> {
    size.to_le_bytes()[..size_bytes(edition)].to_vec()
}
