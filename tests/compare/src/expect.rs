//! What each call must leave and hand back, by the reference, for memory of any length and content.
//!
//! The memory is changed in place to what the library should leave.

use crate::library::Returned;
use crate::memory::Memory;
use crate::record::{decode_queue, decode_state, encode_queue, encode_state, lent};
use crate::record::{EDITION, HEIGHT, QUEUE_BYTES, STATE_BYTES, USED};
use reference::builtin::built_in_font;
use reference::feed;
use reference::glass::Glass;
use reference::queue::{self, Queue, RING};
use reference::start::{self, Choice};
use reference::state::State;

/// The font, and the last glass in both forms: most calls go on where the last one ended,
/// and turning bytes into dots and back is slow.
pub struct Expect {
    pub font: Vec<u8>,
    dots: Glass,
    bytes: Vec<u8>,
}

impl Default for Expect {
    fn default() -> Expect {
        Expect { font: built_in_font(), dots: Glass::from_bytes(&[]), bytes: Vec::new() }
    }
}

impl Expect {
    fn dots(&mut self, bytes: &[u8]) -> Glass {
        if self.bytes != bytes {
            self.bytes = bytes.to_vec();
            self.dots = Glass::from_bytes(bytes);
        }
        self.dots.clone()
    }

    fn bytes(&mut self, dots: Glass) -> &[u8] {
        if self.dots != dots {
            self.bytes = dots.to_bytes();
            self.dots = dots;
        }
        &self.bytes
    }

    /// A start looks at the records' lengths only, and keeps the ring's bytes.
    pub fn start(&mut self, memory: &mut Memory, given: Choice) -> Returned {
        let mut glass = self.dots(&memory.glass);
        let mut state = (memory.state.len() == STATE_BYTES).then(|| State {
            used: u16::from_le_bytes([memory.state[USED], memory.state[USED + 1]]),
            ..State::at_start(memory.state[HEIGHT], memory.state[EDITION])
        });
        let mut queue = (memory.queue.len() == QUEUE_BYTES)
            .then(|| Queue { ring: memory.queue[..RING].to_vec(), ..Queue::at_start() });
        let answer = start::start(given, &mut glass, &memory.store, state.as_mut(), queue.as_mut());
        if answer == 0 {
            memory.glass.copy_from_slice(self.bytes(glass));
            memory.state.copy_from_slice(&encode_state(&state.unwrap()));
            memory.queue.copy_from_slice(&encode_queue(&queue.unwrap()));
        }
        Returned { answer: answer as u32, ..Returned::default() }
    }

    pub fn feed(&mut self, memory: &mut Memory, piece: &[u8], replies: &mut [u8]) -> Returned {
        let mut glass = self.dots(&memory.glass);
        let mut state = decode_state(&memory.state);
        let record = lent(&memory.state, state.as_mut());
        let fed = feed::feed(&self.font, &mut glass, &mut memory.store, record, piece, replies.len());
        let replied = fed.replies.len();
        replies[..replied].copy_from_slice(&fed.replies);
        if fed.answer == 0 || fed.answer == 5 {
            memory.glass.copy_from_slice(self.bytes(glass));
            memory.state.copy_from_slice(&encode_state(&state.unwrap()));
        }
        Returned { answer: fed.answer as u32, consumed: fed.consumed, replied, ..Returned::default() }
    }

    /// Only the record and the replies may change.
    pub fn time(&mut self, memory: &mut Memory, milliseconds: u32, replies: &mut [u8]) -> Returned {
        let glass = self.dots(&memory.glass);
        let mut state = decode_state(&memory.state);
        let record = lent(&memory.state, state.as_mut());
        let timed = feed::time(&self.font, &glass, &memory.store, record, milliseconds, replies.len());
        let replied = timed.replies.len();
        replies[..replied].copy_from_slice(&timed.replies);
        if timed.answer == 0 {
            memory.state.copy_from_slice(&encode_state(&state.unwrap()));
        }
        Returned { answer: timed.answer as u32, replied, ..Returned::default() }
    }

    pub fn arrive(&mut self, memory: &mut Memory, byte: u8) -> Returned {
        let state = decode_state(&memory.state);
        let mut queue = decode_queue(&memory.queue);
        let arrived = queue::arrive(state.as_ref(), queue.as_mut(), byte);
        keep_queue(memory, queue);
        Returned { answer: arrived.answer as u32, signal: arrived.signal, ..Returned::default() }
    }

    pub fn take(&mut self, memory: &mut Memory) -> Returned {
        let state = decode_state(&memory.state);
        let mut queue = decode_queue(&memory.queue);
        let taken = queue::take(state.as_ref(), queue.as_mut());
        keep_queue(memory, queue);
        Returned { answer: taken.answer as u32, byte: taken.byte, signal: taken.signal, ..Returned::default() }
    }
}

fn keep_queue(memory: &mut Memory, queue: Option<Queue>) {
    if let Some(queue) = queue {
        memory.queue.copy_from_slice(&encode_queue(&queue));
    }
}
