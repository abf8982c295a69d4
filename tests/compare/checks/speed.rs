//! The one timed test: a rectangle over the whole glass against its pixels set one by one.

use compare::library::Library;
use compare::memory::Memory;
use reference::board::Board;
use reference::builtin::built_in_font;
use reference::edition::OLDER;
use reference::glass::{glass_bytes, LOW};
use std::time::{Duration, Instant};

/// Taken in turn, and the best of each kept, so that whatever else runs meets both or neither.
const ROUNDS: usize = 100;
/// Rectangles in a round, an even number: enough for any clock.
const REPEATED: u32 = 32;

fn rectangle(colour: u8) -> [u8; 7] {
    [254, 120, colour, 0, 0, 239, 63]
}

/// Black and white by turns, so that none finds its work done.
fn rectangles() -> Vec<u8> {
    (0..REPEATED).flat_map(|number| rectangle((number % 2 == 0) as u8)).collect()
}

fn pixels() -> Vec<u8> {
    let each = (0..64).flat_map(|y| (0..240).flat_map(move |x| [254, 112, x, y]));
    [254, 99, 1].into_iter().chain(each).collect()
}

/// On a white glass, all the bytes in one call.
fn feed(library: &mut Library, white: &Memory, bytes: &[u8]) {
    let returned = library.feed(white, bytes, &[0; 2]).expect("nothing written beside what is lent");
    assert_eq!((returned.answer, returned.consumed, returned.replied), (0, bytes.len(), 0));
}

fn timed(library: &mut Library, white: &Memory, bytes: &[u8]) -> Duration {
    let begin = Instant::now();
    feed(library, white, bytes);
    begin.elapsed()
}

#[test]
fn rectangle_takes_under_half_the_time_of_its_pixels() {
    let mut library = Library::default();
    let white = Memory::of(&Board::fresh(&built_in_font(), LOW, OLDER, vec![0; 1024]));
    let (rectangles, pixels) = (rectangles(), pixels());
    for (bytes, left) in [(&rectangle(1)[..], 255), (&pixels, 255), (&rectangles, 0)] {
        feed(&mut library, &white, bytes);
        assert!(library.glass.contents() == vec![left; glass_bytes(LOW)], "not every byte became {left}");
    }
    let (mut whole, mut single) = (Duration::MAX, Duration::MAX);
    for _ in 0..ROUNDS {
        whole = whole.min(timed(&mut library, &white, &rectangles) / REPEATED);
        single = single.min(timed(&mut library, &white, &pixels));
    }
    let ratio = whole.as_secs_f64() / single.as_secs_f64();
    println!("a rectangle {whole:?}, its pixels {single:?}, {ratio:.4} of their time");
    assert!(2 * whole < single, "{ratio:.3} of the time of its pixels");
}
