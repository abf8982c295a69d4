//! Reads bytes from standard input and prints the listing, for the rows that the first argument asks for.

use reference::builtin::built_in_font;
use reference::listing::{height_asked, listing_of_stream};
use std::io::{Read, Write};

fn main() {
    let height = height_asked(std::env::args_os().nth(1).as_deref());
    let mut stream = Vec::new();
    std::io::stdin().read_to_end(&mut stream).expect("standard input");
    let listing = listing_of_stream(&built_in_font(), height, &stream);
    std::io::stdout().write_all(listing.as_bytes()).expect("standard output");
}
