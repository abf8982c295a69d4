//! A failure told so that it can be understood and run again.

use crate::compare::{Call, Failure, Pair};
use crate::memory::Memory;
use crate::record::{decode_queue, decode_state};
use reference::directory::DIRECTORY;
use reference::shrink::shrink;

/// Pieces above this are not shrunk: each try would cost too much.
const SHRINK_MOST: usize = 3000;

/// The failure as it came, then the shortest one found behind it.
pub fn tell(pair: &mut Pair, failure: &Failure) -> String {
    let counts = pair.counts.clone();
    let narrow = narrow(pair, failure);
    // the tries are not part of the run
    pair.counts = counts;
    let mut out = format!("{}\n", one(failure));
    match narrow {
        Some(narrow) => out += &format!("shortest: {}\n{}", one(&narrow), memory(&narrow.before)),
        None => out += &memory(&failure.before),
    }
    out
}

/// Most differences show at one byte by itself; the others are left with a shorter piece.
fn narrow(pair: &mut Pair, failure: &Failure) -> Option<Failure> {
    if failure.call != "feed" || failure.piece.len() < 2 {
        return None;
    }
    let mut memory = failure.before.clone();
    for byte in &failure.piece {
        if let Err(found) = pair.call(&mut memory, Call::Feed { piece: &[*byte], room: 2 }) {
            return Some(*found);
        }
    }
    if failure.piece.len() > SHRINK_MOST {
        return None;
    }
    let mut last = None;
    shrink(&failure.piece, &mut |piece| match pair
        .call(&mut failure.before.clone(), Call::Feed { piece, room: failure.room })
    {
        Ok(_) => false,
        Err(found) => {
            last = Some(*found);
            true
        }
    });
    last
}

fn one(failure: &Failure) -> String {
    let what = match failure.call {
        "feed" => {
            let bytes = &failure.piece;
            let end = if bytes.len() > 64 { " and on" } else { "" };
            format!("feed of {} bytes {:?}{end}, room {}", bytes.len(), &bytes[..bytes.len().min(64)], failure.room)
        }
        "arrive" => format!("arrive of {}", failure.byte),
        "start" => format!("start with {:?}", failure.given),
        "time" => format!("time of {} milliseconds, room {}", failure.milliseconds, failure.room),
        name => name.into(),
    };
    format!("{what}: {}", failure.difference)
}

fn memory(memory: &Memory) -> String {
    let mut out = String::new();
    if !memory.glass.is_empty() || !memory.store.is_empty() {
        let directory = &memory.store[..memory.store.len().min(DIRECTORY)];
        let shown = directory.iter().rposition(|&byte| byte != 0).map_or(0, |last| last + 1);
        out += &format!("glass of {}, store of {} bytes\n", memory.glass.len(), memory.store.len());
        out += &format!("directory {:?}\n", &directory[..shown]);
    }
    match decode_state(&memory.state) {
        Some(state) => out += &format!("{state:?}\n"),
        None => out += &format!("state record not sound, {} bytes: {:?}\n", memory.state.len(), first(&memory.state)),
    }
    match decode_queue(&memory.queue) {
        Some(queue) => {
            let (place, held, mark, lost) = (queue.place, queue.held, queue.mark, queue.lost);
            out += &format!("queue place {place} held {held} mark {mark} lost {lost}\n");
        }
        None => out += &format!("queue record not sound, {} bytes: {:?}\n", memory.queue.len(), first(&memory.queue)),
    }
    out
}

fn first(record: &[u8]) -> &[u8] {
    &record[..record.len().min(256)]
}

/// For the fixed tests: stops with the report.
pub fn expect(pair: &mut Pair, name: &str, result: Result<(), Box<Failure>>) {
    if let Err(failure) = result {
        panic!("{name}: {}", tell(pair, &failure));
    }
}
