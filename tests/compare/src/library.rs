//! The library's five functions, each called on guarded copies.

use crate::lent::{Lent, Out};
use crate::memory::Memory;
use reference::start::Choice;

#[rustfmt::skip]
mod c {
    extern "C" {
        pub fn display_start(
            height: u32, edition: u32,
            glass: *mut u8, glass_length: u64,
            store: *mut u8, store_length: u64,
            state: *mut u8, state_length: u64,
            queue: *mut u8, queue_length: u64,
        ) -> u32;
        pub fn display_feed(
            glass: *mut u8, glass_length: u64,
            store: *mut u8, store_length: u64,
            state: *mut u8, state_length: u64,
            piece: *const u8, piece_length: u64,
            replies: *mut u8, replies_length: u64,
            consumed: *mut u64, replied: *mut u64,
        ) -> u32;
        pub fn display_time(
            glass: *const u8, glass_length: u64,
            store: *const u8, store_length: u64,
            state: *mut u8, state_length: u64,
            milliseconds: u32,
            replies: *mut u8, replies_length: u64,
            replied: *mut u64,
        ) -> u32;
        pub fn display_arrive(
            state: *const u8, state_length: u64,
            queue: *mut u8, queue_length: u64,
            byte: u8, signal: *mut u8,
        ) -> u32;
        pub fn display_take(
            state: *const u8, state_length: u64,
            queue: *mut u8, queue_length: u64,
            byte: *mut u8, signal: *mut u8,
        ) -> u32;
    }
}

/// What a call hands back; numbers that its function does not have are 0.
#[derive(Clone, Copy, Debug, Default, PartialEq, Eq)]
pub struct Returned {
    pub answer: u32,
    pub consumed: usize,
    pub replied: usize,
    pub byte: u8,
    pub signal: u8,
}

/// The guarded copies; after a call they hold what the library left.
#[derive(Clone, Debug, Default)]
pub struct Library {
    pub glass: Lent,
    pub store: Lent,
    pub state: Lent,
    pub queue: Lent,
    pub piece: Lent,
    pub replies: Lent,
    turn: u64,
}

type Told = Result<Returned, String>;

impl Library {
    pub fn start(&mut self, memory: &Memory, given: Choice) -> Told {
        self.lend_panel(memory);
        self.queue.fill(&memory.queue, self.turn + 3);
        let (glass, store, state, queue) = (&mut self.glass, &mut self.store, &mut self.state, &mut self.queue);
        // SAFETY: four separate buffers, each with its true length.
        #[rustfmt::skip]
        let answer = unsafe {
            c::display_start(
                given.height, given.edition,
                glass.pointer(), glass.length(),
                store.pointer(), store.length(),
                state.pointer(), state.length(),
                queue.pointer(), queue.length(),
            )
        };
        guards(&[("glass", glass), ("store", store), ("state", state), ("queue", queue)])?;
        Ok(Returned { answer, ..Returned::default() })
    }

    /// The replies are lent as they stand, old bytes included.
    pub fn feed(&mut self, memory: &Memory, piece: &[u8], replies: &[u8]) -> Told {
        self.lend_panel(memory);
        self.piece.fill(piece, self.turn + 3);
        self.replies.fill(replies, self.turn + 4);
        let (mut consumed, mut replied) = (Out::new(0xABCD_EF01_u64 ^ self.turn), Out::new(u64::MAX));
        let (glass, store, state) = (&mut self.glass, &mut self.store, &mut self.state);
        // SAFETY: five separate buffers, each with its true length; the two numbers are distinct and aligned.
        #[rustfmt::skip]
        let answer = unsafe {
            c::display_feed(
                glass.pointer(), glass.length(),
                store.pointer(), store.length(),
                state.pointer(), state.length(),
                self.piece.pointer(), self.piece.length(),
                self.replies.pointer(), self.replies.length(),
                consumed.pointer(), replied.pointer(),
            )
        };
        guards(&[
            ("glass", glass),
            ("store", store),
            ("state", state),
            ("piece", &self.piece),
            ("replies", &self.replies),
        ])?;
        beside(&[("consumed", consumed.overrun()), ("replied", replied.overrun())])?;
        unchanged("piece", piece, &self.piece)?;
        let (consumed, replied) = (consumed.value() as usize, replied.value() as usize);
        Ok(Returned { answer, consumed, replied, ..Returned::default() })
    }

    /// Glass and store are lent for reading; the replies as for a feed.
    pub fn time(&mut self, memory: &Memory, milliseconds: u32, replies: &[u8]) -> Told {
        self.lend_panel(memory);
        self.replies.fill(replies, self.turn + 3);
        let mut replied = Out::new(0xFEDC_BA98_u64 ^ self.turn);
        let (glass, store, state) = (&mut self.glass, &mut self.store, &mut self.state);
        // SAFETY: four separate buffers, each with its true length; the number is aligned.
        #[rustfmt::skip]
        let answer = unsafe {
            c::display_time(
                glass.pointer(), glass.length(),
                store.pointer(), store.length(),
                state.pointer(), state.length(),
                milliseconds,
                self.replies.pointer(), self.replies.length(),
                replied.pointer(),
            )
        };
        guards(&[("glass", glass), ("store", store), ("state", state), ("replies", &self.replies)])?;
        beside(&[("replied", replied.overrun())])?;
        unchanged("glass", &memory.glass, glass)?;
        unchanged("store", &memory.store, store)?;
        Ok(Returned { answer, replied: replied.value() as usize, ..Returned::default() })
    }

    pub fn arrive(&mut self, memory: &Memory, byte: u8) -> Told {
        self.lend_records(memory);
        let mut signal = Out::new(0xC5_u8 ^ self.turn as u8);
        let (state, queue) = (&mut self.state, &mut self.queue);
        // SAFETY: two separate buffers, each with its true length.
        let answer = unsafe {
            c::display_arrive(state.pointer(), state.length(), queue.pointer(), queue.length(), byte, signal.pointer())
        };
        guards(&[("state", state), ("queue", queue)])?;
        beside(&[("signal", signal.overrun())])?;
        unchanged("state", &memory.state, state)?;
        Ok(Returned { answer, signal: signal.value(), ..Returned::default() })
    }

    pub fn take(&mut self, memory: &Memory) -> Told {
        self.lend_records(memory);
        let (mut byte, mut signal) = (Out::new(0x3A_u8 ^ self.turn as u8), Out::new(0xC5_u8 ^ self.turn as u8));
        let (state, queue) = (&mut self.state, &mut self.queue);
        // SAFETY: two separate buffers, each with its true length; the two numbers are distinct.
        let answer = unsafe {
            let (byte, signal) = (byte.pointer(), signal.pointer());
            c::display_take(state.pointer(), state.length(), queue.pointer(), queue.length(), byte, signal)
        };
        guards(&[("state", state), ("queue", queue)])?;
        beside(&[("byte", byte.overrun()), ("signal", signal.overrun())])?;
        unchanged("state", &memory.state, state)?;
        Ok(Returned { answer, byte: byte.value(), signal: signal.value(), ..Returned::default() })
    }

    fn lend_panel(&mut self, memory: &Memory) {
        self.turn += 7;
        self.glass.fill(&memory.glass, self.turn);
        self.store.fill(&memory.store, self.turn + 1);
        self.state.fill(&memory.state, self.turn + 2);
    }

    fn lend_records(&mut self, memory: &Memory) {
        self.turn += 7;
        self.state.fill(&memory.state, self.turn);
        self.queue.fill(&memory.queue, self.turn + 1);
    }
}

fn guards(lent: &[(&str, &Lent)]) -> Result<(), String> {
    for (name, slice) in lent {
        if let Some(overrun) = slice.overrun() {
            return Err(format!("{name}: a byte was written {overrun}"));
        }
    }
    Ok(())
}

fn beside(outs: &[(&str, bool)]) -> Result<(), String> {
    for (name, overrun) in outs {
        if *overrun {
            return Err(format!("{name}: its neighbour was written"));
        }
    }
    Ok(())
}

fn unchanged(name: &str, before: &[u8], after: &Lent) -> Result<(), String> {
    if before != after.contents() {
        return Err(format!("{name}: lent for reading, but written"));
    }
    Ok(())
}
