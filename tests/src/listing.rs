//! The program's listing of what a stream leaves.

use crate::board::Board;
use crate::edition::OLDER;
use crate::glass::{Glass, LOW, TALL, WIDTH};
use crate::mutants::{is, Mutant as M};
use std::ffi::OsStr;

pub const REPLIES_SHOWN: usize = 4096;
/// The program's store starts as so many zero bytes.
pub const PROGRAM_STORE: usize = 32768;

/// The rows that the program's first argument asks for: exactly `128`, and anything else or nothing is 64.
pub fn height_asked(argument: Option<&OsStr>) -> u8 {
    if is(M::ArgumentReadAsNumber) {
        let number = argument.and_then(|word| word.to_str()?.trim().parse::<u32>().ok());
        return if number == Some(128) { TALL } else { LOW };
    }
    if is(M::ArgumentOnlyBegins128) {
        return if argument.is_some_and(|word| word.to_string_lossy().starts_with("128")) { TALL } else { LOW };
    }
    if argument.is_some_and(|word| word == "128") {
        TALL
    } else {
        LOW
    }
}

/// Runs a stream from a fresh start of the older edition on the program's store and lists the end.
pub fn listing_of_stream(font: &[u8], height: u8, stream: &[u8]) -> String {
    let mut board = Board::fresh(font, height, OLDER, vec![0; PROGRAM_STORE]);
    let replies = board.feed(stream, 2 * stream.len()).replies;
    listing(&board.glass, board.state.refusals, board.state.last_refusal, &replies)
}

pub fn listing(glass: &Glass, refusals: u16, last: u8, replies: &[u8]) -> String {
    let rows = if is(M::ListingShows64Rows) { 64 } else { glass.rows() };
    let mut out = format!("glass 240 {}\n", if is(M::ListingSays64) { 64 } else { glass.rows() });
    for y in 0..rows {
        let runs = runs(glass, y);
        if !runs.is_empty() || is(M::ListingShowsBlankRows) {
            out += &format!("{y}: {}\n", runs.join(" "));
        }
    }
    out += &format!("refused {refusals} last {last}\nreplies");
    let shown = if is(M::ListingShowsAllReplies) { replies.len() } else { REPLIES_SHOWN };
    for reply in replies.iter().take(shown) {
        out += &format!(" {reply}");
    }
    out.push('\n');
    out
}

/// The black runs of a row, first to last column of each.
fn runs(glass: &Glass, y: usize) -> Vec<String> {
    let mut runs = Vec::new();
    let mut x = 0;
    while x < WIDTH {
        if !glass.get(x, y) {
            x += 1;
            continue;
        }
        let first = x;
        while x + 1 < WIDTH && glass.get(x + 1, y) {
            x += 1;
        }
        if first == x && is(M::ListingLoneDotOnce) {
            runs.push(format!("{first}"));
        } else {
            runs.push(format!("{first}-{x}"));
        }
        x += 1;
    }
    runs
}
