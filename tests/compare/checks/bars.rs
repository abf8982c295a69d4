//! Bars with their sides at every column of a byte, the stripes between two values, and boxes of missing letters.

use compare::sweep::{colour_name, Ground, Sweep, GROUNDS};
use reference::case_file::upload;
use reference::edition::OLDER;
use reference::glass::{LOW, TALL, WIDTH};

const SIDES: [&str; 4] = ["bottom", "left", "top", "right"];
/// Bytes from one side of a bar to the other; the stripes of short bars meet the first three besides.
const APART: [u8; 4] = [0, 1, 2, 26];

/// A bar that is set up on both sides, with the value that was written last.
struct Bar {
    side: u8,
    x1: u8,
    x2: u8,
    value: u8,
}

impl Bar {
    /// Eight rows high, about the middle of the glass.
    fn set_up(sweep: &mut Sweep, side: u8, x1: u8, x2: u8) -> Bar {
        let middle = sweep.height / 2;
        let done = sweep.feed(&[254, 103, 5, side, x1, middle - 4, x2, middle + 3]);
        assert!(done.refusal.is_none() && !done.changed);
        Bar { side, x1, x2, value: 0 }
    }

    fn length(&self) -> u8 {
        if self.side % 2 == 0 {
            8
        } else {
            self.x2 - self.x1 + 1
        }
    }

    /// The colour of a write and its first and last column; nothing where the value stays.
    fn stripe(&self, value: u8) -> Option<(bool, u8, u8)> {
        let (low, high) = (self.value.min(value), self.value.max(value));
        match self.side {
            _ if value == 0 => Some((false, self.x1, self.x2)),
            _ if low == high => None,
            1 => Some((value == high, self.x1 + low, self.x1 + high - 1)),
            3 => Some((value == high, self.x2 + 1 - high, self.x2 - low)),
            _ => Some((value == high, self.x1, self.x2)),
        }
    }

    fn write(&mut self, sweep: &mut Sweep, asked: u8) {
        let value = asked.min(self.length());
        let done = sweep.feed(&[254, 105, 5, asked]);
        let stripe = self.stripe(value);
        self.value = value;
        let Some((black, from, to)) = stripe else {
            assert!(!done.changed);
            return;
        };
        let hidden = sweep.ground.hides(black);
        if sweep.ground != Ground::Random {
            assert_eq!(done.changed, !hidden, "columns {from} to {to}");
        }
        if done.changed || hidden {
            sweep.note(stripe_name(self.side, black, sweep.ground, from % 8, to % 8, to / 8 - from / 8));
        }
    }
}

fn stripe_name(side: u8, black: bool, ground: Ground, left: u8, right: u8, apart: u8) -> String {
    let (side, colour) = (SIDES[side as usize], colour_name(black));
    format!("{side}, {colour} on {ground:?}: from {left} to {right}, {apart} bytes on")
}

/// Every two columns of a byte, for each colour and ground.
fn wanted() -> Vec<String> {
    let mut wanted = Vec::new();
    for (side, ground) in (0..4).flat_map(|side| GROUNDS.map(|ground| (side, ground))) {
        for (left, right) in (0..8).flat_map(|left| (0..8).map(move |right| (left, right))) {
            // a bar has two columns at least, a stripe one
            let fits = left < right || left == right && side % 2 == 1;
            for apart in &APART[if fits { 0 } else { 1 }..] {
                wanted.extend([false, true].map(|of| stripe_name(side, of, ground, left, right, *apart)));
            }
        }
    }
    wanted
}

fn every_bar(height: u8) {
    let mut sweep = Sweep::new(height);
    for (ground, side) in GROUNDS.into_iter().flat_map(|ground| (0..4).map(move |side| (ground, side))) {
        sweep.lay(ground);
        for (left, right) in (0..8).flat_map(|left| (0..8).map(move |right| (left, right))) {
            for apart in APART.into_iter().filter(|&apart| apart > 0 || left < right) {
                let mut bar = Bar::set_up(&mut sweep, side, 8 + left, 8 * (1 + apart) + right);
                let length = bar.length();
                for value in [255, 1, length - 1, 0, length / 2, length, 0] {
                    bar.write(&mut sweep, value);
                }
            }
        }
        if side % 2 == 1 {
            every_stripe(&mut sweep, side);
        }
    }
    sweep.ends(&wanted());
}

/// White and black again between every two values of a bar of three bytes.
fn every_stripe(sweep: &mut Sweep, side: u8) {
    let mut bar = Bar::set_up(sweep, side, 16, 39);
    for high in 1..=24 {
        bar.write(sweep, high);
        for low in 0..high {
            bar.write(sweep, low);
            bar.write(sweep, high);
        }
    }
}

#[test]
fn bars_on_the_low_glass() {
    every_bar(LOW);
}

#[test]
fn bars_on_the_tall_glass() {
    every_bar(TALL);
}

const BOX_WIDTHS: [u8; 24] =
    [1, 2, 3, 4, 5, 6, 7, 8, 9, 10, 11, 12, 13, 14, 15, 16, 17, 24, 232, 233, 234, 235, 239, 240];

/// The box of byte 127 in a font that lacks it, at a text point.
fn boxed(sweep: &mut Sweep, width: u8, x: u8, y: u8) {
    let done = sweep.feed(&[254, 121, x, y, 127]);
    assert!(done.refusal.is_none());
    if sweep.ground != Ground::Random {
        assert_eq!(done.changed, sweep.ground == Ground::White);
    }
    if done.changed || sweep.ground == Ground::Black {
        sweep.note(box_name(sweep.ground, width, x % 8));
    }
}

fn box_name(ground: Ground, width: u8, left: u8) -> String {
    format!("on {ground:?}: a box of {width} from {left}")
}

/// Boxes of the built-in font at every column, and of fonts of other nominal widths wherever a left end can be.
fn every_box(height: u8) {
    let mut sweep = Sweep::new(height);
    let mut wanted = Vec::new();
    for width in BOX_WIDTHS {
        let font = [width, 3, 65, 65, 0, 7, 1, 0];
        let chosen = [upload(OLDER, 36, 6, &font), vec![254, 49, 6]].concat();
        assert_eq!(sweep.feed(&chosen).refusal, None);
        let most = WIDTH as u8 - width;
        let columns: Vec<u8> = (0..=most).filter(|&x| x < 16 || x > most - 8).collect();
        for ground in GROUNDS {
            sweep.lay(ground);
            for &x in &columns {
                boxed(&mut sweep, width, x, height / 2 - 1);
                boxed(&mut sweep, width, x, height - 3);
            }
            wanted.extend((0..=most.min(7)).map(|left| box_name(ground, width, left)));
        }
        assert_eq!(sweep.feed(&[254, 173, 0, 6]).refusal, None);
    }
    for ground in GROUNDS {
        sweep.lay(ground);
        for x in 0..=235 {
            boxed(&mut sweep, 5, x, height / 2 - 3);
        }
    }
    sweep.ends(&wanted);
}

#[test]
fn boxes_on_the_low_glass() {
    every_box(LOW);
}

#[test]
fn boxes_on_the_tall_glass() {
    every_box(TALL);
}
