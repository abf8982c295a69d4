//! Writes the generated stream of a seed to standard output, for the program's store;
//! a second number cuts it to that many bytes, and a third one that is 128 makes it one for the tall glass.

use reference::builtin::built_in_font;
use reference::generator::program_stream;
use reference::listing::height_asked;
use std::io::Write;

fn main() {
    let number = |place| std::env::args().nth(place).and_then(|word| word.parse::<u64>().ok());
    let height = height_asked(std::env::args_os().nth(3).as_deref());
    let mut stream = program_stream(&built_in_font(), height, number(1).expect("a seed"));
    stream.truncate(number(2).unwrap_or(u64::MAX) as usize);
    std::io::stdout().write_all(&stream).expect("standard output");
}
