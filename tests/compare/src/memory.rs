//! What is lent to the calls, as raw bytes of any length and content.

use crate::record::{encode_queue, encode_state, STATE_BYTES, USED};
use reference::board::Board;
use reference::files::{Files, STORE_LEAST};

#[derive(Clone, Debug, Default, PartialEq, Eq)]
pub struct Memory {
    pub glass: Vec<u8>,
    pub store: Vec<u8>,
    pub state: Vec<u8>,
    pub queue: Vec<u8>,
}

impl Memory {
    pub fn of(board: &Board) -> Memory {
        Memory {
            glass: board.glass.to_bytes(),
            store: board.store.clone(),
            state: encode_state(&board.state).to_vec(),
            queue: encode_queue(&board.queue).to_vec(),
        }
    }

    /// Makes the kept sum that of the directory as it is now, where record and directory allow it.
    pub fn recount(&mut self) {
        if self.state.len() != STATE_BYTES || self.store.len() < STORE_LEAST {
            return;
        }
        if let Some(files) = Files::read(&self.store) {
            self.state[USED..].copy_from_slice(&(files.used() as u16).to_le_bytes());
        }
    }

    /// A copy into the room that is there already: this runs before every call.
    pub fn copy_from(&mut self, other: &Memory) {
        self.glass.clone_from(&other.glass);
        self.store.clone_from(&other.store);
        self.copy_records_from(other);
    }

    pub fn copy_records_from(&mut self, other: &Memory) {
        self.state.clone_from(&other.state);
        self.queue.clone_from(&other.queue);
    }
}
