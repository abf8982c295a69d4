//! One command after another, each on the same ground, and a count of what was met.

use crate::compare::{Call, Pair};
use crate::memory::Memory;
use crate::random;
use crate::record::REFUSALS;
use crate::report::expect;
use reference::board::Board;
use reference::coverage::Coverage;
use reference::edition::OLDER;
use reference::glass::glass_bytes;
use reference::prng::Prng;

/// What a command finds on the glass.
#[derive(Clone, Copy, Debug, PartialEq, Eq)]
pub enum Ground {
    White,
    Black,
    Random,
}

pub const GROUNDS: [Ground; 3] = [Ground::White, Ground::Black, Ground::Random];

impl Ground {
    fn glass(self, height: u8) -> Vec<u8> {
        let bytes = glass_bytes(height);
        match self {
            Ground::White => vec![0; bytes],
            Ground::Black => vec![255; bytes],
            Ground::Random => random::bytes(&mut Prng::new(81), bytes),
        }
    }

    /// Whether pixels of this colour cannot be seen on it.
    pub fn hides(self, black: bool) -> bool {
        self == if black { Ground::Black } else { Ground::White }
    }
}

pub fn colour_name(black: bool) -> &'static str {
    if black {
        "black"
    } else {
        "white"
    }
}

/// What a command did, on both sides alike.
#[derive(Clone, Copy, Debug, PartialEq, Eq)]
pub struct Done {
    pub refusal: Option<u8>,
    pub changed: bool,
}

pub struct Sweep {
    pub height: u8,
    pub ground: Ground,
    glass: Vec<u8>,
    memory: Memory,
    pair: Pair,
    met: Coverage,
}

impl Sweep {
    /// From a fresh start in the older edition, on white.
    pub fn new(height: u8) -> Sweep {
        let pair = Pair::default();
        let memory = Memory::of(&Board::fresh(pair.font(), height, OLDER, vec![0; 1024]));
        let (ground, glass) = (Ground::White, Ground::White.glass(height));
        Sweep { height, ground, glass, memory, pair, met: Coverage::default() }
    }

    /// What every command from now on finds.
    pub fn lay(&mut self, ground: Ground) {
        (self.ground, self.glass) = (ground, ground.glass(self.height));
    }

    /// Feeds the bytes to both on the ground, and compares everything.
    pub fn feed(&mut self, bytes: &[u8]) -> Done {
        self.memory.glass.copy_from_slice(&self.glass);
        let count = [self.memory.state[REFUSALS], self.memory.state[REFUSALS + 1]];
        match self.pair.call(&mut self.memory, Call::Feed { piece: bytes, room: 2 * bytes.len() }) {
            Ok(returned) => assert_eq!((returned.answer, returned.consumed), (0, bytes.len()), "{bytes:?}"),
            result => expect(&mut self.pair, &format!("on {:?}", self.ground), result.map(drop)),
        }
        let refused = self.memory.state[REFUSALS..REFUSALS + 2] != count;
        Done { refusal: refused.then_some(self.memory.state[REFUSALS + 2]), changed: self.memory.glass != self.glass }
    }

    pub fn note(&mut self, what: String) {
        self.met.note(what);
    }

    /// Fails where something wanted was not met.
    pub fn ends(&self, wanted: &[String]) {
        let missing: Vec<_> = wanted.iter().filter(|&what| !self.met.counts.contains_key(what)).collect();
        println!("{} rows: {} calls, {} things wanted", self.height, self.pair.counts.calls("feed"), wanted.len());
        assert!(missing.is_empty(), "{} of {} were not met: {missing:?}", missing.len(), wanted.len());
    }
}
