//! The named cases: bytes in, listing out, in a text a person can read.
//!
//! `#` at the start of a line is a comment. Before `in:` may stand
//!   height 128            for the tall glass; without it the glass is the low one
//!   edition 2             for the newer upload; without it the edition is the older one
//!   directory bytes       the store's first bytes, which are 0 without it; several such lines follow on
//!   files bytes           the first bytes of its file area, likewise
//! After `in:` a line holds decimal bytes, with `t2100` where that many milliseconds
//! pass between them, or begins with one of
//!   text "..."            the characters between the quotes
//!   repeat N: items       the items N times over
//!   upload font N: bytes  command 36 (or 94 for `bitmap`) with the bytes, each confirmed,
//!                         number and size as wide as the edition has them
//! and may hold `{N x items}`, N times the items, or `{N from F: items}`, where
//! `#` stands for F, F+1 and so on. After `out:` follows the exact listing, in
//! which `{N x "text"}` is N times the text, and `A to B: runs` is the same line
//! for each row from A to B.

use crate::board::Board;
use crate::directory::DIRECTORY;
use crate::edition::{number_sent, size_sent, NEWER, OLDER};
use crate::glass::{LOW, TALL};
use crate::input::{of_bytes, only_bytes, Input};
use crate::listing::{listing, PROGRAM_STORE};
use std::fs;
use std::path::{Path, PathBuf};

#[derive(Clone, Debug)]
pub struct Case {
    pub name: String,
    pub height: u8,
    pub edition: u8,
    pub store: Vec<u8>,
    pub input: Vec<Input>,
    pub expected: String,
}

impl Case {
    /// The board that the input is for.
    pub fn begin(&self, font: &[u8]) -> Board {
        Board::fresh(font, self.height, self.edition, self.store.clone())
    }

    pub fn listing(&self, font: &[u8]) -> String {
        let mut board = self.begin(font);
        let replies = board.run(&self.input).replies;
        listing(&board.glass, board.state.refusals, board.state.last_refusal, &replies)
    }

    /// The bytes of a case that the program can be given: of the older edition, on an empty store, without times.
    pub fn for_the_program(&self) -> Option<Vec<u8>> {
        let plain = self.edition == OLDER && self.store.iter().all(|&byte| byte == 0);
        only_bytes(&self.input).filter(|_| plain)
    }
}

/// Every case under the folder, in order of name.
pub fn read_all(folder: &Path) -> Vec<Case> {
    let mut paths = Vec::new();
    collect(folder, &mut paths);
    paths.sort();
    paths.iter().map(|path| read(folder, path)).collect()
}

/// Where the cases stand beside this project's manifest.
pub fn folder() -> PathBuf {
    Path::new(env!("CARGO_MANIFEST_DIR")).join("cases")
}

fn collect(folder: &Path, into: &mut Vec<PathBuf>) {
    for entry in fs::read_dir(folder).expect("the folder of cases") {
        let path = entry.expect("an entry").path();
        if path.is_dir() {
            collect(&path, into);
        } else if path.extension().is_some_and(|e| e == "case") {
            into.push(path);
        }
    }
}

fn read(folder: &Path, path: &Path) -> Case {
    let name = path.strip_prefix(folder).unwrap().with_extension("").to_string_lossy().to_string();
    let text = fs::read_to_string(path).expect("a case");
    let (mut height, mut edition) = (LOW, OLDER);
    let (mut directory, mut files) = (Vec::new(), Vec::new());
    let (mut input, mut expected) = (Vec::new(), String::new());
    let mut part = "";
    for line in text.lines() {
        let unreadable = || -> ! { panic!("{name}: cannot read {line:?}") };
        match (part, line) {
            (_, "in:") => part = "in",
            ("", "height 128") => height = TALL,
            ("", "edition 2") => edition = NEWER,
            ("in", "out:") => part = "out",
            ("out", _) => expected += &spread_rows(&spread_text(line)),
            (_, _) if line.starts_with('#') || line.trim().is_empty() => {}
            ("in", _) => input.extend(line_inputs(line, edition).unwrap_or_else(|| unreadable())),
            _ => match line.split_once(' ').and_then(|(word, rest)| Some((word, only_bytes(&numbers(rest)?)?))) {
                Some(("directory", bytes)) => directory.extend(bytes),
                Some(("files", bytes)) => files.extend(bytes),
                _ => unreadable(),
            },
        }
    }
    assert!(part == "out", "{name} has no out:");
    let mut store = vec![0; PROGRAM_STORE];
    assert!(directory.len() <= DIRECTORY, "{name}: a directory of {} bytes", directory.len());
    store[..directory.len()].copy_from_slice(&directory);
    store[DIRECTORY..DIRECTORY + files.len()].copy_from_slice(&files);
    Case { name, height, edition, store, input, expected }
}

fn line_inputs(line: &str, edition: u8) -> Option<Vec<Input>> {
    let line = line.trim();
    if let Some(rest) = line.strip_prefix("repeat ") {
        let (count, items) = rest.split_once(':')?;
        return Some(line_inputs(items, edition)?.repeat(count.trim().parse().ok()?));
    }
    if let Some(rest) = line.strip_prefix("text ") {
        return Some(of_bytes(rest.trim().strip_prefix('"')?.strip_suffix('"')?.as_bytes()));
    }
    if let Some(rest) = line.strip_prefix("upload ") {
        let (head, items) = rest.split_once(':')?;
        let (sort, number) = head.split_once(' ')?;
        let code = match sort {
            "font" => 36,
            "bitmap" => 94,
            _ => return None,
        };
        let file = only_bytes(&numbers(items)?)?;
        return Some(of_bytes(&upload(edition, code, number.trim().parse().ok()?, &file)));
    }
    numbers(line)
}

/// The bytes a host sends to begin an upload.
pub fn upload_begun(edition: u8, code: u8, number: u16, size: usize) -> Vec<u8> {
    [vec![254, code], number_sent(edition, number), size_sent(edition, size as u32)].concat()
}

/// The bytes a host sends for a whole upload.
pub fn upload(edition: u8, code: u8, number: u16, file: &[u8]) -> Vec<u8> {
    let mut bytes = upload_begun(edition, code, number, file.len());
    for &byte in file {
        bytes.extend([byte, 1]);
    }
    bytes
}

/// Decimal bytes and times with `{...}` groups among them.
fn numbers(text: &str) -> Option<Vec<Input>> {
    let mut bytes = Vec::new();
    let mut rest = text;
    while let Some((before, after)) = rest.split_once('{') {
        bytes.extend(plain(before)?);
        let (group, behind) = after.split_once('}')?;
        if let Some((count, items)) = group.split_once(" x ") {
            bytes.extend(plain(items)?.repeat(count.trim().parse().ok()?));
        } else {
            let (head, items) = group.split_once(':')?;
            let (count, from) = head.split_once(" from ")?;
            let (count, from): (usize, usize) = (count.trim().parse().ok()?, from.trim().parse().ok()?);
            for number in from..from + count {
                bytes.extend(plain(&items.replace('#', &number.to_string()))?);
            }
        }
        rest = behind;
    }
    bytes.extend(plain(rest)?);
    Some(bytes)
}

fn plain(text: &str) -> Option<Vec<Input>> {
    text.split_whitespace().map(|word| word.parse().ok()).collect()
}

/// `A to B: runs` as one line a row; any other line as it is.
fn spread_rows(line: &str) -> String {
    let span = line.split_once(": ").and_then(|(rows, runs)| {
        let (first, last) = rows.split_once(" to ")?;
        Some((first.parse::<usize>().ok()?..=last.parse().ok()?, runs))
    });
    match span {
        Some((rows, runs)) => rows.map(|row| format!("{row}: {runs}\n")).collect(),
        None => format!("{line}\n"),
    }
}

fn spread_text(line: &str) -> String {
    let mut out = String::new();
    let mut rest = line;
    while let Some((before, after)) = rest.split_once('{') {
        out += before;
        let (group, behind) = after.split_once('}').expect("a closed group");
        let (count, quoted) = group.split_once(" x ").expect("N x \"text\"");
        out += &quoted.trim().trim_matches('"').repeat(count.trim().parse().expect("a count"));
        rest = behind;
    }
    out + rest
}
