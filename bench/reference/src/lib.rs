//! The independent implementation behind C functions, so that one program can time it beside the library.

use reference::board::Board;
use reference::builtin::built_in_font;
use reference::glass::LOW;
use std::slice;

/// A board just started on an empty store of this length. It lives as long as the program.
#[no_mangle]
pub extern "C" fn reference_start(edition: u32, store_length: usize) -> *mut Board {
    Box::into_raw(Box::new(Board::fresh(&built_in_font(), LOW, edition as u8, vec![0; store_length])))
}

/// Feeds a piece; the answer is the call's, and `replied` counts the bytes written to `replies`.
///
/// # Safety
/// `board` comes from `reference_start`, and each length is the number of bytes at its pointer.
#[no_mangle]
pub unsafe extern "C" fn reference_feed(
    board: *mut Board,
    piece: *const u8,
    piece_length: usize,
    replies: *mut u8,
    replies_length: usize,
    replied: *mut usize,
) -> u32 {
    let fed = (*board).feed(slice::from_raw_parts(piece, piece_length), replies_length);
    slice::from_raw_parts_mut(replies, fed.replies.len()).copy_from_slice(&fed.replies);
    *replied = fed.replies.len();
    fed.answer as u32
}

/// Lets time pass; the answer is the call's, and `replied` counts the bytes written to `replies`.
///
/// # Safety
/// `board` comes from `reference_start`, and the length is the number of bytes at its pointer.
#[no_mangle]
pub unsafe extern "C" fn reference_time(
    board: *mut Board,
    milliseconds: u32,
    replies: *mut u8,
    replies_length: usize,
    replied: *mut usize,
) -> u32 {
    let fed = (*board).time(milliseconds, replies_length);
    slice::from_raw_parts_mut(replies, fed.replies.len()).copy_from_slice(&fed.replies);
    *replied = fed.replies.len();
    fed.answer as u32
}

/// Puts a byte into the queue and takes it out again; the answer is the byte.
///
/// # Safety
/// `board` comes from `reference_start`.
#[no_mangle]
pub unsafe extern "C" fn reference_queue(board: *mut Board, byte: u8) -> u8 {
    (*board).arrive(byte);
    (*board).take().byte
}

/// Writes the 1,920 bytes of the glass.
///
/// # Safety
/// `board` comes from `reference_start`, and `glass` has room.
#[no_mangle]
pub unsafe extern "C" fn reference_glass(board: *const Board, glass: *mut u8) {
    let bytes = (*board).glass.to_bytes();
    slice::from_raw_parts_mut(glass, bytes.len()).copy_from_slice(&bytes);
}

/// Writes the 764 bytes of the built-in font.
///
/// # Safety
/// `font` has room.
#[no_mangle]
pub unsafe extern "C" fn reference_font(font: *mut u8) {
    let bytes = built_in_font();
    slice::from_raw_parts_mut(font, bytes.len()).copy_from_slice(&bytes);
}
