//! Generated streams over fixed seeds: the book, cuts, starving, lists of calls, coverage.

use reference::builtin::built_in_font;
use reference::coverage::Coverage;
use reference::edition::{NEWER, OLDER};
use reference::generator::{any_scene, edition_of, fresh_scene, height_of, program_stream, small_stream};
use reference::glass::{LOW, TALL};
use reference::properties::{book_holds, check, cuts_agree, lists_hold, split_times_agree, starving_agrees, SEEDS};
use reference::shrink::shrink;

#[test]
fn book_holds_after_every_byte_and_everything_is_reached() {
    let font = built_in_font();
    let mut coverage = Coverage::default();
    check("book", &font, SEEDS, book_holds, &mut coverage);
    check("lists", &font, SEEDS, lists_hold, &mut coverage);
    println!("{}", coverage.report());
    assert_eq!(coverage.missing(), Vec::<String>::new());
}

#[test]
fn cutting_changes_nothing() {
    check("cuts", &built_in_font(), SEEDS, cuts_agree, &mut Coverage::default());
}

#[test]
fn starving_changes_nothing() {
    check("starving", &built_in_font(), SEEDS, starving_agrees, &mut Coverage::default());
}

#[test]
fn splitting_times_changes_nothing() {
    check("split times", &built_in_font(), SEEDS, split_times_agree, &mut Coverage::default());
}

/// Each of the four has a quarter of the fresh starts and a quarter of the others.
#[test]
fn every_height_meets_every_edition() {
    for odd in [0, 1] {
        let seeds = || (0..SEEDS).filter(|seed| seed % 2 == odd);
        for (height, edition) in [(LOW, OLDER), (LOW, NEWER), (TALL, OLDER), (TALL, NEWER)] {
            let count = seeds().filter(|&seed| (height_of(seed), edition_of(seed)) == (height, edition)).count();
            assert_eq!(count as u64, SEEDS / 8);
        }
    }
}

#[test]
fn a_seed_always_gives_the_same_stream() {
    let font = built_in_font();
    for seed in 0..20 {
        let height = height_of(seed);
        assert_eq!(program_stream(&font, height, seed), program_stream(&font, height, seed));
        assert_eq!(fresh_scene(&font, seed).stream, fresh_scene(&font, seed).stream);
        assert_eq!(any_scene(&font, seed).begin, any_scene(&font, seed).begin);
    }
    assert_ne!(program_stream(&font, LOW, 1), program_stream(&font, LOW, 2));
    assert_ne!(program_stream(&font, LOW, 1), program_stream(&font, TALL, 1));
    assert_ne!(small_stream(&font, LOW, OLDER, 1), small_stream(&font, LOW, NEWER, 1));
}

#[test]
fn shrinking_leaves_what_matters() {
    let mut stream: Vec<u8> = (0..200).collect();
    stream.extend([7, 254, 88, 9]);
    let short = shrink(&stream, &mut |bytes| bytes.windows(2).any(|two| two == [254, 88]));
    assert_eq!(short, [254, 88]);
}
