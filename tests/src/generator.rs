//! Meaningful streams of bytes and times, made from a seed.
//!
//! The stream is built piece by piece beside a board that obeys it, so that
//! later pieces can use the bars, files and fonts that earlier ones made.

use crate::board::Board;
use crate::commands::{arguments, COMMANDS, NAMING};
use crate::edition::{number_bytes, EDITIONS, NEWER, OLDER};
use crate::generator_start::{random_glass, random_queue, random_state, random_store};
use crate::glass::HEIGHTS;
use crate::input::{of_bytes, only_bytes, Input};
use crate::listing::PROGRAM_STORE;
use crate::prng::Prng;

#[rustfmt::skip]
pub const EDGES: [u8; 33] = [
    0, 1, 2, 3, 4, 7, 8, 9, 14, 15, 16, 31, 32, 39, 40, 41, 62, 63, 64, 65, 79, 80, 126, 127, 128, 135, 136, 238, 239,
    240, 241, 254, 255,
];

/// A board to begin with and the inputs to give it.
#[derive(Clone, Debug)]
pub struct Scene {
    pub seed: u64,
    pub begin: Board,
    pub stream: Vec<Input>,
}

/// A stream from a fresh start on the program's store, of the older edition and without times, as the program is.
pub fn program_stream(font: &[u8], height: u8, seed: u64) -> Vec<u8> {
    let begin = Board::fresh(font, height, OLDER, vec![0; PROGRAM_STORE]);
    only_bytes(&stream(&begin, &mut Prng::new(seed), false)).expect("bytes only")
}

/// A stream from a fresh start on a store of 1,024 zero bytes.
pub fn small_stream(font: &[u8], height: u8, edition: u8, seed: u64) -> Vec<Input> {
    stream(&Board::fresh(font, height, edition, vec![0; 1024]), &mut Prng::new(seed), true)
}

/// Two seeds for one glass, then two for the other: even and odd ones meet both.
pub fn height_of(seed: u64) -> u8 {
    HEIGHTS[(seed / 2 % 2) as usize]
}

/// Four seeds for one edition, then four for the other: each height meets both.
pub fn edition_of(seed: u64) -> u8 {
    EDITIONS[(seed / 4 % 2) as usize]
}

/// A stream from a fresh start, on a store of any size with files and leftovers.
pub fn fresh_scene(font: &[u8], seed: u64) -> Scene {
    let mut rng = Prng::new(seed);
    let height = height_of(seed);
    let begin = Board::fresh(font, height, edition_of(seed), random_store(&mut rng, height));
    let stream = stream(&begin, &mut rng, true);
    Scene { seed, begin, stream }
}

/// A stream from any sound state.
pub fn any_scene(font: &[u8], seed: u64) -> Scene {
    let mut rng = Prng::new(seed ^ 0xA5A5_0000);
    let (height, edition) = (height_of(seed), edition_of(seed));
    let mut begin = Board::fresh(font, height, edition, random_store(&mut rng, height));
    begin.glass = random_glass(&mut rng, height);
    begin.state = random_state(&mut rng, height, edition, &begin.store);
    begin.queue = random_queue(&mut rng);
    let stream = stream(&begin, &mut rng, true);
    Scene { seed, begin, stream }
}

fn stream(begin: &Board, rng: &mut Prng, with_times: bool) -> Vec<Input> {
    let flavour = rng.pick(&[Flavour::Mixed, Flavour::Mixed, Flavour::Bars, Flavour::Text, Flavour::Files]);
    let times = if with_times { rng.pick(&[0, 1, 1, 4]) } else { 0 };
    let mut maker = Maker { board: begin.clone(), rng: rng.clone(), flavour, with_times, times };
    let mut inputs = Vec::new();
    for _ in 0..maker.rng.between(20, 120) {
        let piece = maker.piece();
        maker.board.run(&piece);
        inputs.extend(piece);
        inputs.extend(maker.leave_long_waits());
        if maker.rng.percent(1) {
            // a piece that is broken off somewhere
            let piece = maker.piece();
            let part = &piece[..maker.rng.below(piece.len() + 1)];
            maker.board.run(part);
            inputs.extend(part);
        }
    }
    if maker.rng.percent(30) {
        inputs.truncate(maker.rng.below(inputs.len() + 1));
    }
    inputs
}

/// What a stream is mostly about.
#[derive(Clone, Copy, Debug)]
enum Flavour {
    Mixed,
    Bars,
    Text,
    Files,
}

/// The board that obeys the stream so far, and the random source.
pub struct Maker {
    pub board: Board,
    pub rng: Prng,
    flavour: Flavour,
    /// Whether time may pass at all.
    with_times: bool,
    /// How often in a hundred it does before a byte.
    pub times: usize,
}

impl Maker {
    pub fn edge(&mut self) -> u8 {
        if self.rng.percent(70) {
            self.rng.pick(&EDGES)
        } else {
            self.rng.byte()
        }
    }

    /// A column, most often on or near the glass.
    pub fn column(&mut self) -> u8 {
        match self.rng.below(4) {
            0 => self.edge(),
            1 => self.rng.between(228, 245) as u8,
            _ => self.rng.below(40) as u8,
        }
    }

    /// A row near the lower edge, near row 64, or anywhere above.
    pub fn row(&mut self) -> u8 {
        let height = self.height();
        match self.rng.below(8) {
            0 | 1 => self.edge(),
            2 | 3 => self.rng.between(height - 14, height + 6) as u8,
            4 => self.rng.between(56, 70) as u8,
            5 => self.rng.below(height) as u8,
            _ => self.rng.below(30) as u8,
        }
    }

    pub fn height(&self) -> usize {
        self.board.state.height as usize
    }

    pub fn edition(&self) -> u8 {
        self.board.state.edition
    }

    /// This many rows above the lower edge of the glass, and now and then above row 64.
    pub fn above_the_edge(&mut self, rows: usize) -> u8 {
        let edge = if self.rng.percent(75) { self.height() } else { 64 };
        (edge - rows) as u8
    }

    /// Two numbers, the first at most the second.
    pub fn ordered(a: u8, b: u8) -> (u8, u8) {
        (a.min(b), a.max(b))
    }

    /// Corners in order, on the glass or reaching beyond it.
    pub fn corners(&mut self) -> [u8; 4] {
        let (x1, x2) = Maker::ordered(self.column(), self.column());
        let (y1, y2) = Maker::ordered(self.row(), self.row());
        [x1, y1, x2, y2]
    }

    fn piece(&mut self) -> Vec<Input> {
        if self.with_times && self.rng.percent(3) {
            return self.waiting();
        }
        let bytes = self.piece_of_bytes();
        self.with_times_between(&bytes)
    }

    fn piece_of_bytes(&mut self) -> Vec<u8> {
        let weights: [usize; 22] = match self.flavour {
            Flavour::Mixed => [12, 10, 14, 5, 16, 5, 7, 3, 3, 2, 7, 3, 4, 5, 1, 1, 1, 1, 1, 4, 6, 5],
            Flavour::Bars => [2, 8, 60, 5, 4, 0, 2, 0, 0, 0, 3, 0, 4, 2, 0, 1, 0, 0, 0, 1, 8, 0],
            Flavour::Text => [2, 2, 3, 1, 50, 12, 10, 4, 1, 0, 10, 2, 1, 4, 1, 1, 0, 0, 1, 2, 16, 2],
            Flavour::Files => [3, 2, 1, 1, 8, 1, 20, 8, 8, 8, 14, 16, 1, 3, 0, 1, 2, 3, 1, 1, 4, 14],
        };
        let mut left = self.rng.below(weights.iter().sum());
        let mut choice = 0;
        while left >= weights[choice] {
            left -= weights[choice];
            choice += 1;
        }
        match choice {
            0 => self.any_command(),
            1 => self.drawing(),
            2 => self.bars(),
            3 => self.strips(),
            4 => self.text(),
            5 => self.metrics(),
            6 => self.good_upload(),
            7 => self.bad_upload(),
            8 => self.broken_upload(),
            9 => self.refused_upload(),
            10 => self.use_files(),
            11 => self.delete(),
            12 => self.in_line(),
            13 => self.competing_refusals(),
            14 => self.noise(),
            15 => vec![254, self.rng.byte()],
            16 => self.fill_directory(),
            17 => self.fill_area(),
            18 => vec![254, 33, 89, 33],
            19 => self.settings(),
            20 => self.missing(),
            _ => self.any_number(),
        }
    }

    /// Flow, contrast, backlight and the serial number.
    fn settings(&mut self) -> Vec<u8> {
        match self.rng.below(6) {
            0 => vec![254, 58, self.rng.pick(&[0, 1, 10, 39, 40]), self.rng.pick(&[0, 1, 20, 39])],
            1 => vec![254, 58, self.rng.pick(&[40, 79, 80, 255]), self.rng.pick(&[0, 1, 40, 80, 255])],
            2 => vec![254, 59],
            3 => vec![254, 52, self.edge(), self.edge()],
            4 => vec![254, 80, self.edge()],
            _ => vec![254, 66, self.edge(), 254, 70],
        }
    }

    /// Any code with its number of arguments, each an edge or anything.
    fn any_command(&mut self) -> Vec<u8> {
        let (code, _) = self.rng.pick(&COMMANDS);
        let needs = arguments(code, self.edition()).expect("a known code");
        let mut bytes = vec![254, code];
        bytes.extend((0..needs).map(|_| self.edge()));
        if self.edition() == NEWER && NAMING.contains(&code) && self.rng.percent(80) {
            // else few numbers and sizes would be good ones
            bytes[if code == 173 { 4 } else { 3 }] %= 5;
            bytes.iter_mut().skip(6).for_each(|byte| *byte = 0);
        }
        if code == 98 && self.rng.percent(50) {
            bytes.truncate(2 + number_bytes(self.edition()));
        }
        bytes
    }

    /// White, the usual black, and other bytes that are black.
    pub fn colour(&mut self) -> u8 {
        self.rng.pick(&[0, 0, 0, 0, 1, 1, 2, 127, 128, 129, 254, 255])
    }

    fn drawing(&mut self) -> Vec<u8> {
        let colour = self.colour();
        let [x1, y1, x2, y2] = self.corners();
        let (x, y) = (self.column(), self.row());
        match self.rng.below(8) {
            0 => vec![254, 112, x, y],
            1 => vec![254, 108, x1, y1, x, y],
            2 => vec![254, 108, x, y, x1, y1, 254, 101, x2, y2],
            3 => vec![254, 101, x, y],
            4 => vec![254, 114, colour, x1, y1, x2, y2],
            5 => vec![254, 120, colour, x1, y1, x2, y2],
            6 => vec![254, 99, colour],
            _ => vec![254, 88],
        }
    }

    fn noise(&mut self) -> Vec<u8> {
        let count = self.rng.between(1, 30);
        (0..count).map(|_| if self.rng.percent(20) { 254 } else { self.rng.byte() }).collect()
    }

    /// Ends long data in line or a long upload that a chance command began.
    fn leave_long_waits(&mut self) -> Vec<Input> {
        let mut bytes = Vec::new();
        if let Some(inline) = self.board.state.inline {
            let left = inline.total() - inline.come;
            if left > 200 {
                bytes.extend((0..left).map(|_| self.rng.byte()));
            }
        }
        if let Some(upload) = self.board.state.upload {
            if upload.size - upload.stored > 200 {
                bytes.extend(if upload.echoed.is_some() { vec![8] } else { vec![8, 8] });
            }
        }
        self.board.feed(&bytes, 2 * bytes.len());
        of_bytes(&bytes)
    }
}
