//! Breaks one rule at a time and says which cases, checks and streams notice.

use reference::builtin::built_in_font;
use reference::calls::run_list;
use reference::case_file::{folder, read_all};
use reference::checks;
use reference::coverage::Coverage;
use reference::generator::{height_of, program_stream};
use reference::listing::listing_of_stream;
use reference::mutants::{with, Mutant, ALL};
use reference::properties::scenes;
use reference::trace::trace;
use std::panic::{catch_unwind, set_hook, AssertUnwindSafe};

const SCENES: u64 = 200;
const LISTS: usize = 60;
const PROGRAM_STREAMS: u64 = 60;

/// Runs with a rule broken; a panic is a result like any other.
fn attempt<T>(mutant: Mutant, run: impl FnOnce() -> T) -> Option<T> {
    with(Some(mutant), || catch_unwind(AssertUnwindSafe(run)).ok())
}

fn main() {
    set_hook(Box::new(|_| {}));
    let font = built_in_font();
    let cases = read_all(&folder());
    let checks = checks::all();
    let scenes: Vec<_> = scenes(&font, SCENES).map(|scene| (trace(&scene), scene)).collect();
    let streams: Vec<_> = (0..PROGRAM_STREAMS)
        .map(|seed| (height_of(seed), program_stream(&font, height_of(seed), 1_000_000 + seed)))
        .map(|(height, stream)| (listing_of_stream(&font, height, &stream), height, stream))
        .collect();
    let mut unnoticed = Vec::new();
    let mut by_streams_only = 0;
    println!("{:32} {:>5} {:>6} {:>7} {:>5}  first case or check", "mutant", "cases", "checks", "streams", "lists");
    for &mutant in ALL {
        let by_case: Vec<&str> = cases
            .iter()
            .filter(|case| attempt(mutant, || case.listing(&font)).as_ref() != Some(&case.expected))
            .map(|case| &case.name[..])
            .collect();
        let by_check: Vec<&str> =
            checks.iter().filter(|(_, check)| attempt(mutant, check).is_none()).map(|(name, _)| &name[..]).collect();
        let by_scene =
            scenes.iter().filter(|(right, scene)| attempt(mutant, || trace(scene)).as_ref() != Some(right)).count();
        let by_stream = streams
            .iter()
            .filter(|(right, height, stream)| {
                let list = || listing_of_stream(&font, *height, stream);
                attempt(mutant, list).as_ref() != Some(right)
            })
            .count();
        let by_streams = by_scene + by_stream;
        let by_book = scenes
            .iter()
            .take(LISTS)
            .filter(|(_, scene)| {
                let run = || run_list(scene, &scene.stream, &mut Coverage::default());
                attempt(mutant, run) != Some(Ok(()))
            })
            .count();
        let first = by_case.first().or(by_check.first()).unwrap_or(&"-");
        let name = format!("{mutant:?}");
        println!("{name:32} {:5} {:6} {by_streams:7} {by_book:5}  {first}", by_case.len(), by_check.len());
        if by_case.is_empty() && by_check.is_empty() {
            if by_streams + by_book == 0 {
                unnoticed.push(mutant);
            } else {
                by_streams_only += 1;
            }
        }
    }
    println!("{} wrong versions, {} noticed by streams alone, unnoticed: {unnoticed:?}", ALL.len(), by_streams_only);
    std::process::exit(if unnoticed.is_empty() { 0 } else { 1 });
}
