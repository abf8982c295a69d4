//! Prints how often everything was reached over the fixed seeds.

use reference::builtin::built_in_font;
use reference::coverage::Coverage;
use reference::properties::{book_holds, check, lists_hold, SEEDS};

fn main() {
    let font = built_in_font();
    let mut coverage = Coverage::default();
    check("book", &font, SEEDS, book_holds, &mut coverage);
    check("lists", &font, SEEDS, lists_hold, &mut coverage);
    print!("{}", coverage.report());
    println!("not reached: {:?}", coverage.missing());
}
