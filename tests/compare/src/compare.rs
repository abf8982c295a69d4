//! One call to both sides, and every byte compared.

use crate::expect::Expect;
use crate::library::{Library, Returned};
use crate::memory::Memory;
use crate::record::{state_place, EDITION, HEIGHT};
use reference::edition::EDITIONS;
use reference::glass::HEIGHTS;
use reference::start::Choice;
use std::collections::BTreeMap;
use std::panic::{catch_unwind, AssertUnwindSafe};

#[derive(Clone, Copy, Debug)]
pub enum Call<'a> {
    /// With the height and the edition it is given.
    Start(Choice),
    Feed {
        piece: &'a [u8],
        room: usize,
    },
    Time {
        milliseconds: u32,
        room: usize,
    },
    Arrive(u8),
    Take,
}

impl Call<'_> {
    pub fn name(&self) -> &'static str {
        match self {
            Call::Start(_) => "start",
            Call::Feed { .. } => "feed",
            Call::Time { .. } => "time",
            Call::Arrive(_) => "arrive",
            Call::Take => "take",
        }
    }
}

/// A call at which the two parted, with the memory before it.
#[derive(Clone, Debug)]
pub struct Failure {
    pub call: &'static str,
    pub piece: Vec<u8>,
    pub room: usize,
    pub byte: u8,
    pub milliseconds: u32,
    pub given: Option<Choice>,
    pub before: Memory,
    pub difference: String,
}

#[derive(Clone, Debug, Default)]
pub struct Counts {
    /// Calls by function and answer.
    pub answers: BTreeMap<(&'static str, u32), u64>,
    /// The same by the height and the edition that start was given, or that stand in the record.
    pub by_choice: BTreeMap<(&'static str, u32, u32, u32), u64>,
    pub signals: BTreeMap<u8, u64>,
    pub bytes_fed: u64,
    pub replies: u64,
}

impl Counts {
    pub fn calls(&self, name: &str) -> u64 {
        self.answers.iter().filter(|((call, _), _)| *call == name).map(|(_, count)| count).sum()
    }

    /// For tests: fails where an answer was not met often enough to have been looked at.
    pub fn met(&self, name: &'static str, answer: u32, least: u64) {
        let count = self.answers.get(&(name, answer)).copied().unwrap_or(0);
        assert!(count >= least, "answer {answer} of {name} was met {count} times, and not {least}");
    }

    /// The same for each of the two heights.
    pub fn met_on_both(&self, name: &'static str, answer: u32, least: u64) {
        for height in HEIGHTS {
            let count = self.with(name, answer, |given, _| given == height as u32);
            assert!(
                count >= least,
                "answer {answer} of {name} with {height} rows was met {count} times, and not {least}"
            );
        }
    }

    /// The same for each of the two editions.
    pub fn met_in_both(&self, name: &'static str, answer: u32, least: u64) {
        for edition in EDITIONS {
            let count = self.with(name, answer, |_, given| given == edition as u32);
            assert!(
                count >= least,
                "answer {answer} of {name} in edition {edition} was met {count} times, and not {least}"
            );
        }
    }

    /// The calls with this answer whose height and edition are wanted.
    pub fn with(&self, name: &str, answer: u32, wanted: impl Fn(u32, u32) -> bool) -> u64 {
        let calls = self.by_choice.iter().filter(|((call, height, edition, given), _)| {
            *call == name && *given == answer && wanted(*height, *edition)
        });
        calls.map(|(_, count)| count).sum()
    }
}

/// The library and the reference side by side.
#[derive(Default)]
pub struct Pair {
    pub counts: Counts,
    library: Library,
    expect: Expect,
    before: Memory,
    replies_before: Vec<u8>,
    replies: Vec<u8>,
}

pub type Checked = Result<Returned, Box<Failure>>;

impl Pair {
    pub fn font(&self) -> &[u8] {
        &self.expect.font
    }

    /// What the last call replied, where it was one that replies.
    pub fn replies(&self, returned: &Returned) -> &[u8] {
        &self.replies[..returned.replied]
    }

    /// Calls both; the memory becomes what both left, or the failure tells where they parted.
    pub fn call(&mut self, memory: &mut Memory, call: Call) -> Checked {
        match call {
            Call::Start(_) | Call::Feed { .. } | Call::Time { .. } => self.before.copy_from(memory),
            Call::Arrive(_) | Call::Take => self.before.copy_records_from(memory),
        }
        match self.compare(memory, call) {
            Ok(returned) => {
                self.count(call, &returned);
                Ok(returned)
            }
            Err(difference) => Err(Box::new(self.failure(call, difference))),
        }
    }

    fn compare(&mut self, memory: &mut Memory, call: Call) -> Result<Returned, String> {
        if let Call::Feed { room, .. } | Call::Time { room, .. } = call {
            // any old bytes, which must stay behind the replies
            self.replies_before.clear();
            self.replies_before.extend((0..room).map(|k| (k as u8).wrapping_mul(91) ^ room as u8 ^ 0xA6));
            self.replies.clone_from(&self.replies_before);
        }
        let library = &mut self.library;
        let got = match call {
            Call::Start(given) => library.start(memory, given),
            Call::Feed { piece, .. } => library.feed(memory, piece, &self.replies_before),
            Call::Time { milliseconds, .. } => library.time(memory, milliseconds, &self.replies_before),
            Call::Arrive(byte) => library.arrive(memory, byte),
            Call::Take => library.take(memory),
        }?;
        let (expect, replies) = (&mut self.expect, &mut self.replies);
        let expected = catch_unwind(AssertUnwindSafe(|| match call {
            Call::Start(given) => expect.start(memory, given),
            Call::Feed { piece, .. } => expect.feed(memory, piece, replies),
            Call::Time { milliseconds, .. } => expect.time(memory, milliseconds, replies),
            Call::Arrive(byte) => expect.arrive(memory, byte),
            Call::Take => expect.take(memory),
        }))
        .map_err(|_| String::from("the reference panicked"))?;
        numbers(&expected, &got)?;
        if let Call::Start(_) | Call::Feed { .. } | Call::Time { .. } = call {
            bytes("glass", &memory.glass, library.glass.contents(), |k| format!("row {} byte {}", k / 30, k % 30))?;
            bytes("store", &memory.store, library.store.contents(), |_| String::new())?;
        }
        bytes("state", &memory.state, library.state.contents(), state_place)?;
        match call {
            Call::Feed { .. } | Call::Time { .. } => {
                bytes("replies", &self.replies, library.replies.contents(), |_| String::new())?
            }
            _ => bytes("queue", &memory.queue, library.queue.contents(), queue_place)?,
        }
        Ok(expected)
    }

    fn count(&mut self, call: Call, returned: &Returned) {
        let name = call.name();
        let recorded = |place: usize| self.before.state.get(place).map_or(0, |&byte| byte as u32);
        let given = match call {
            Call::Start(given) => given,
            _ => Choice { height: recorded(HEIGHT), edition: recorded(EDITION) },
        };
        *self.counts.by_choice.entry((name, given.height, given.edition, returned.answer)).or_default() += 1;
        *self.counts.answers.entry((name, returned.answer)).or_default() += 1;
        if returned.signal != 0 {
            *self.counts.signals.entry(returned.signal).or_default() += 1;
        }
        self.counts.bytes_fed += returned.consumed as u64;
        self.counts.replies += returned.replied as u64;
    }

    fn failure(&self, call: Call, difference: String) -> Failure {
        let (mut piece, mut room, mut byte, mut milliseconds, mut given) = (Vec::new(), 0, 0, 0, None);
        let mut before = self.before.clone();
        match call {
            Call::Feed { piece: fed, room: free } => (piece, room) = (fed.to_vec(), free),
            Call::Time { milliseconds: passed, room: free } => (milliseconds, room) = (passed, free),
            Call::Arrive(arriving) => byte = arriving,
            Call::Start(choice) => given = Some(choice),
            Call::Take => {}
        }
        if let Call::Arrive(_) | Call::Take = call {
            // not lent, and not copied for this call
            (before.glass, before.store) = (Vec::new(), Vec::new());
        }
        Failure { call: call.name(), piece, room, byte, milliseconds, given, before, difference }
    }
}

fn numbers(expected: &Returned, got: &Returned) -> Result<(), String> {
    let pairs = [
        ("answer", expected.answer as usize, got.answer as usize),
        ("consumed", expected.consumed, got.consumed),
        ("replied", expected.replied, got.replied),
        ("byte", expected.byte as usize, got.byte as usize),
        ("signal", expected.signal as usize, got.signal as usize),
    ];
    for (name, expected, got) in pairs {
        if expected != got {
            return Err(format!("{name}: expected {expected}, the library {got}"));
        }
    }
    Ok(())
}

/// One comparison of whole slices; only a difference is looked at byte by byte.
fn bytes(name: &str, expected: &[u8], got: &[u8], place: impl Fn(usize) -> String) -> Result<(), String> {
    if expected == got {
        return Ok(());
    }
    let k = expected.iter().zip(got).position(|(a, b)| a != b).unwrap_or(expected.len().min(got.len()));
    let show = |bytes: &[u8]| bytes.get(k).map_or("nothing".into(), |byte| byte.to_string());
    Err(format!("{name} at {k} ({}): expected {}, the library {}", place(k), show(expected), show(got)))
}

fn queue_place(place: usize) -> String {
    match place {
        0..=79 => "ring".into(),
        80..=84 => ["place", "held", "mark", "lost low", "lost high"][place - 80].into(),
        _ => "beyond the record".into(),
    }
}
