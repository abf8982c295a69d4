//! Prints streams, each with its height and edition and with what the book says after it: the height and the edition,
//! a colon, the bytes with times such as `t2100` among them, a colon, and for each of the 16 bars 1 where it is sure,
//! else 0. Only streams in which a bar was sure for a while. The argument is how many.

use reference::board::Board;
use reference::book::Book;
use reference::builtin::built_in_font;
use reference::generator::{edition_of, height_of, small_stream};
use reference::input::Input;

/// Longer ones are cut off here: the prover has a limit for the computing of one claim.
const LONGEST: usize = 128;

fn main() {
    let count: usize = std::env::args().nth(1).and_then(|word| word.parse().ok()).expect("how many streams");
    let font = built_in_font();
    let mut printed = 0;
    for seed in 1.. {
        if printed == count {
            return;
        }
        let (height, edition) = (height_of(seed), edition_of(seed));
        let mut stream = small_stream(&font, height, edition, seed);
        stream.truncate(LONGEST);
        let mut board = Board::fresh(&font, height, edition, vec![0; 1024]);
        let mut book = Book::open(&board.glass, &board.store, &board.state);
        let mut ever = false;
        board.run_watched(&stream, &mut |step, glass, files, state| {
            book.input(step, glass, files, state).expect("the book holds");
            ever |= book.sure().contains(&true);
        });
        if ever {
            let inputs: Vec<String> = stream.iter().map(Input::to_string).collect();
            let sure: Vec<&str> = book.sure().iter().map(|&sure| if sure { "1" } else { "0" }).collect();
            println!("{height} {edition} : {} : {}", inputs.join(" "), sure.join(" "));
            printed += 1;
        }
    }
}
