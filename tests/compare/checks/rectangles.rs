//! Solids and frames with their ends at every column of a byte, clipped and out of order, on every ground.

use compare::sweep::{colour_name, Ground, Sweep, GROUNDS};
use reference::glass::{HEIGHTS, LOW, TALL, WIDTH};
use std::collections::BTreeSet;

const SOLID: u8 = 120;
const FRAME: u8 = 114;
const LAST_BYTE: u8 = 29;
/// Left and right corners about the last column, and about the ends of the bytes that would follow it.
const LEFT_CORNERS: std::ops::RangeInclusive<u8> = 225..=255;
const RIGHT_CORNERS: [u8; 7] = [238, 239, 240, 241, 247, 248, 255];
const WIDTHS: std::ops::RangeInclusive<u8> = 1..=17;
const GREAT_WIDTHS: std::ops::RangeInclusive<u8> = 232..=240;
/// Columns for every kind of rows: bytes whole and in part, the whole width, clipped, beyond, out of order.
#[rustfmt::skip]
const FEW_COLUMNS: [(u8, u8); 16] = [
    (0, 239), (1, 238), (0, 0), (239, 239), (8, 15), (3, 5), (7, 8), (5, 42), (8, 31), (16, 50), (13, 47), (230, 255),
    (232, 243), (240, 255), (9, 4), (255, 0),
];
const ROWS: [&str; 8] = [
    "first row",
    "a middle row",
    "last row",
    "two rows",
    "all rows",
    "rows clipped below",
    "rows below the glass",
    "rows out of order",
];

/// Every two ends with any number of bytes from one to the other, every small and every great width, and the corners about
/// the edge.
fn columns() -> BTreeSet<(u8, u8)> {
    let mut all = BTreeSet::new();
    for (left, right) in every_two() {
        for apart in 0..=LAST_BYTE {
            for first in [0, LAST_BYTE - apart] {
                all.insert((8 * first + left, 8 * (first + apart) + right));
            }
        }
    }
    for left in 96..104 {
        all.extend(WIDTHS.map(|width| (left, left + (width - 1))));
    }
    for left in 0..=8 {
        all.extend(GREAT_WIDTHS.map(|width| (left, left + (width - 1))));
    }
    for left in LEFT_CORNERS.chain(0..8).chain(112..120) {
        all.extend(RIGHT_CORNERS.map(|right| (left, right)));
    }
    all
}

fn every_two() -> impl Iterator<Item = (u8, u8)> {
    (0..8).flat_map(|left| (0..8).map(move |right| (left, right)))
}

fn rows(height: u8) -> Vec<(u8, u8)> {
    let (middle, last) = (height / 2, height - 1);
    let mut all = vec![(0, 0), (middle, middle), (last, last), (0, 1), (middle - 1, middle), (last - 1, last)];
    all.extend([(0, last), (5, middle), (last, last + 1), (last - 2, last + 9), (0, 255)]);
    all.extend([(last + 1, last + 2), (height, 255), (9, 4), (height, last), (255, 0)]);
    all
}

fn rows_name(height: u8, y1: u8, y2: u8) -> Option<&'static str> {
    let last = height - 1;
    let name = match (y1, y2) {
        _ if y1 > y2 => 7,
        _ if y1 > last => 6,
        _ if y2 > last => 5,
        (0, 0) => 0,
        _ if y1 == last => 2,
        _ if y1 == y2 => 1,
        _ if y1 + 1 == y2 => 3,
        _ if (y1, y2) == (0, last) => 4,
        _ => return None,
    };
    Some(ROWS[name])
}

fn ends_name(left: u8, right: u8, apart: u8) -> String {
    format!("ends {left} and {right}, {apart} bytes on")
}

fn width_name(width: u8, left: u8) -> String {
    format!("width {width} from {left}")
}

fn corners_name(left: u8, right: u8) -> String {
    format!("columns {left} to {right}")
}

/// What a rectangle is an instance of, from its corners alone.
fn things(height: u8, [x1, y1, x2, y2]: [u8; 4]) -> Vec<String> {
    let mut things = Vec::new();
    if x1 <= x2 && (x1 as usize) < WIDTH {
        things.extend(rows_name(height, y1, y2).map(String::from));
    }
    if y1 > y2 || y1 >= height {
        return things;
    }
    if LEFT_CORNERS.contains(&x1) && RIGHT_CORNERS.contains(&x2) {
        things.push(corners_name(x1, x2));
    }
    if x1 > x2 {
        things.push("columns out of order".into());
        return things;
    }
    // 256 columns are told as 255, which nothing below asks for
    let width = (x2 - x1).saturating_add(1);
    if (x2 as usize) < WIDTH {
        things.push(ends_name(x1 % 8, x2 % 8, x2 / 8 - x1 / 8));
    }
    if WIDTHS.contains(&width) && (x2 as usize) < WIDTH {
        things.push(width_name(width, x1 % 8));
    }
    if GREAT_WIDTHS.contains(&width) && x1 <= 8 {
        things.push(width_name(width, x1));
    }
    things
}

fn wanted() -> Vec<String> {
    let mut things: Vec<String> = ROWS.map(String::from).into();
    things.push("columns out of order".into());
    for (left, right) in every_two() {
        // within a byte the others are out of order
        let from = (left > right) as u8;
        things.extend((from..=LAST_BYTE).map(|apart| ends_name(left, right, apart)));
    }
    things.extend(WIDTHS.flat_map(|width| (0..8).map(move |left| width_name(width, left))));
    things.extend(GREAT_WIDTHS.flat_map(|width| (0..=8).map(move |left| width_name(width, left))));
    things.extend(LEFT_CORNERS.flat_map(|left| RIGHT_CORNERS.map(|right| corners_name(left, right))));
    let mut wanted = Vec::new();
    for place in GROUNDS.into_iter().flat_map(|ground| [false, true].map(|black| place_name(black, ground))) {
        wanted.extend(things.iter().map(|thing| format!("{place}: {thing}")));
    }
    wanted
}

fn place_name(black: bool, ground: Ground) -> String {
    format!("{} on {ground:?}", colour_name(black))
}

fn draw(sweep: &mut Sweep, code: u8, black: bool, corners: [u8; 4]) {
    let [x1, y1, x2, y2] = corners;
    let done = sweep.feed(&[254, code, black as u8, x1, y1, x2, y2]);
    let ordered = x1 <= x2 && y1 <= y2;
    let on_glass = ordered && (x1 as usize) < WIDTH && y1 < sweep.height;
    let hidden = sweep.ground.hides(black);
    assert_eq!(done.refusal, (!ordered).then_some(18), "{corners:?}");
    if sweep.ground == Ground::Random {
        assert!(on_glass || !done.changed, "{corners:?}");
    } else {
        assert_eq!(done.changed, on_glass && !hidden, "{corners:?}");
    }
    // what random pixels hid was not looked at
    if done.changed || hidden || !on_glass {
        let place = place_name(black, sweep.ground);
        things(sweep.height, corners).iter().for_each(|thing| sweep.note(format!("{place}: {thing}")));
    }
}

fn every_rectangle(height: u8, code: u8) {
    let mut sweep = Sweep::new(height);
    let (middle, last) = (height / 2, height - 1);
    let (columns, rows) = (columns(), rows(height));
    let few_rows = [(middle, middle), (last - 1, last), (last - 1, last + 2), (0, last)];
    for (ground, black) in GROUNDS.into_iter().flat_map(|ground| [false, true].map(|black| (ground, black))) {
        sweep.lay(ground);
        for &(x1, x2) in &columns {
            few_rows.iter().for_each(|&(y1, y2)| draw(&mut sweep, code, black, [x1, y1, x2, y2]));
        }
        for (x1, x2) in FEW_COLUMNS {
            rows.iter().for_each(|&(y1, y2)| draw(&mut sweep, code, black, [x1, y1, x2, y2]));
        }
    }
    sweep.ends(&wanted());
}

#[test]
fn solids_on_the_low_glass() {
    every_rectangle(LOW, SOLID);
}

#[test]
fn solids_on_the_tall_glass() {
    every_rectangle(TALL, SOLID);
}

#[test]
fn frames_on_the_low_glass() {
    every_rectangle(LOW, FRAME);
}

#[test]
fn frames_on_the_tall_glass() {
    every_rectangle(TALL, FRAME);
}

#[test]
fn clear_on_every_ground() {
    for height in HEIGHTS {
        let mut sweep = Sweep::new(height);
        for ground in GROUNDS {
            sweep.lay(ground);
            assert_eq!(sweep.feed(&[254, 88]).changed, ground != Ground::White);
        }
    }
}
