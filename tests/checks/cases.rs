//! Every named case gives exactly its listing.

use reference::builtin::built_in_font;
use reference::case_file::{folder, read_all};
use reference::edition::NEWER;
use reference::glass::TALL;
use reference::input::Input;

#[test]
fn every_case_gives_its_listing() {
    let font = built_in_font();
    let cases = read_all(&folder());
    assert!(cases.len() >= 80, "only {} cases found", cases.len());
    let tall = cases.iter().filter(|case| case.height == TALL).count();
    assert!(tall >= 40, "only {tall} cases of the tall glass found");
    let newer = cases.iter().filter(|case| case.edition == NEWER).count();
    assert!(newer >= 40, "only {newer} cases of the newer edition found");
    let timed = cases.iter().filter(|case| case.input.iter().any(|input| matches!(input, Input::Time(_)))).count();
    assert!(timed >= 30, "only {timed} cases with time found");
    // in these a wrong sum ends the listing at the next call
    let used = cases.iter().filter(|case| case.name.starts_with("used/")).count();
    assert!(used >= 25, "only {used} cases of the used room found");
    let mut wrong = 0;
    for case in &cases {
        let listing = case.listing(&font);
        if listing != case.expected {
            wrong += 1;
            println!("--- {}\nexpected:\n{}got:\n{}", case.name, case.expected, listing);
        }
    }
    assert_eq!(wrong, 0, "of {} cases", cases.len());
}
