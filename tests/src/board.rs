//! Everything that is lent to the calls, in one place.

use crate::feed::{feed, feed_watched, time, time_watched, Fed, Watch};
use crate::files::Files;
use crate::glass::Glass;
use crate::input::{leading_bytes, Input};
use crate::queue::{arrive, take, Arrived, Queue, Taken};
use crate::start::{start, Choice};
use crate::state::{Lent, State};

#[derive(Clone, Debug, PartialEq, Eq)]
pub struct Board {
    pub font: Vec<u8>,
    pub glass: Glass,
    pub store: Vec<u8>,
    pub state: State,
    pub queue: Queue,
}

impl Board {
    /// A board just started on this store; panics if the start is refused.
    pub fn fresh(font: &[u8], height: u8, edition: u8, store: Vec<u8>) -> Board {
        let mut board = Board {
            font: font.to_vec(),
            glass: Glass::white(height),
            store,
            state: State::at_start(height, edition),
            queue: Queue::at_start(),
        };
        assert_eq!(board.start(Choice::of(height, edition)), 0, "a start on a good store");
        board
    }

    /// Makes the kept sum true again after the store was changed from outside, if its directory holds to its rules.
    pub fn recount(&mut self) {
        if let Some(files) = Files::read(&self.store) {
            self.state.used = files.used() as u16;
        }
    }

    pub fn start(&mut self, given: Choice) -> u8 {
        start(given, &mut self.glass, &self.store, Some(&mut self.state), Some(&mut self.queue))
    }

    pub fn feed(&mut self, piece: &[u8], room: usize) -> Fed {
        feed(&self.font, &mut self.glass, &mut self.store, Lent::State(&mut self.state), piece, room)
    }

    pub fn feed_watched(&mut self, piece: &[u8], room: usize, watch: &mut Watch) -> Fed {
        feed_watched(&self.font, &mut self.glass, &mut self.store, Lent::State(&mut self.state), piece, room, watch)
    }

    pub fn time(&mut self, milliseconds: u32, room: usize) -> Fed {
        time(&self.font, &self.glass, &self.store, Lent::State(&mut self.state), milliseconds, room)
    }

    pub fn time_watched(&mut self, milliseconds: u32, room: usize, watch: &mut Watch) -> Fed {
        time_watched(&self.font, &self.glass, &self.store, Lent::State(&mut self.state), milliseconds, room, watch)
    }

    /// A stream with room enough, its bytes in as few pieces as its times allow, up to the first answer that is not 0.
    pub fn run(&mut self, stream: &[Input]) -> Fed {
        self.run_watched(stream, &mut |_, _, _, _| {})
    }

    /// As `run`, showing each input's step.
    pub fn run_watched(&mut self, stream: &[Input], watch: &mut Watch) -> Fed {
        let mut all = Fed { answer: 0, consumed: 0, replies: Vec::new() };
        let mut left = stream;
        while let (Some(&next), 0) = (left.first(), all.answer) {
            let (taken, fed) = match next {
                Input::Time(milliseconds) => (1, self.time_watched(milliseconds, 2, watch)),
                Input::Byte(_) => {
                    let piece = leading_bytes(left);
                    (piece.len(), self.feed_watched(&piece, 2 * piece.len(), watch))
                }
            };
            left = &left[taken..];
            all.answer = fed.answer;
            all.consumed += fed.consumed;
            all.replies.extend(fed.replies);
        }
        all
    }

    pub fn arrive(&mut self, byte: u8) -> Arrived {
        arrive(Some(&self.state), Some(&mut self.queue), byte)
    }

    pub fn take(&mut self) -> Taken {
        take(Some(&self.state), Some(&mut self.queue))
    }
}
