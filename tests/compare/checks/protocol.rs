//! Every example of the protocol's document through the library's own calls, beside the reference: also those of the newer
//! edition and those in which time passes, which the listing program cannot be told.

use compare::compare::{Call, Pair};
use compare::lists::Run;
use compare::memory::Memory;
use compare::random;
use compare::record::decode_state;
use compare::report::expect;
use reference::board::Board;
use reference::case_file::Case;
use reference::edition::{EDITIONS, NEWER, OLDER};
use reference::glass::{glass_bytes, Glass, HEIGHTS, LOW, TALL};
use reference::input::{leading_bytes, of_bytes, Input};
use reference::listing::{listing, PROGRAM_STORE};
use reference::prng::Prng;
use reference::start::Choice;

/// Decimals, text in quotes, and `time 2100` where so many milliseconds pass.
fn inputs(sent: &str) -> Vec<Input> {
    let mut inputs = Vec::new();
    for (k, part) in sent.split('"').enumerate() {
        if k % 2 == 1 {
            inputs.extend(of_bytes(part.as_bytes()));
            continue;
        }
        let mut words = part.split_whitespace();
        while let Some(word) = words.next() {
            inputs.push(match word {
                "time" => {
                    Input::Time(words.next().and_then(|word| word.parse().ok()).expect("milliseconds after time"))
                }
                _ => Input::Byte(word.parse().unwrap_or_else(|_| panic!("{word} is no byte, in {sent}"))),
            });
        }
    }
    inputs
}

/// `edition newer` on a line of its own before the bytes, `--`, and the listing, whose first line says which glass it is of.
fn example(block: &str) -> Case {
    let (sent, expected) = block.split_once("\n--\n").expect("bytes, --, listing");
    let (edition, bytes) = match sent.strip_prefix("edition newer\n") {
        Some(rest) => (NEWER, rest),
        None => (OLDER, sent),
    };
    Case {
        name: sent.replace('\n', " "),
        height: if expected.starts_with("glass 240 128\n") { TALL } else { LOW },
        edition,
        store: vec![0; PROGRAM_STORE],
        input: inputs(bytes),
        expected: expected.to_string(),
    }
}

fn examples() -> Vec<Case> {
    let path = concat!(env!("CARGO_MANIFEST_DIR"), "/../../docs/PROTOCOL.md");
    let text = std::fs::read_to_string(path).expect("docs/PROTOCOL.md");
    text.split("```example\n").skip(1).map(|block| example(block.split("```").next().unwrap())).collect()
}

/// From a start on memory full of old bytes, with as few calls as the times allow.
fn run(pair: &mut Pair, memory: &mut Memory, example: &Case, replies: &mut Vec<u8>) -> Run {
    pair.call(memory, Call::Start(Choice::of(example.height, example.edition)))?;
    let mut left = &example.input[..];
    while let Some(&next) = left.first() {
        let piece = leading_bytes(left);
        let call = match next {
            Input::Time(milliseconds) => Call::Time { milliseconds, room: 2 },
            Input::Byte(_) => Call::Feed { piece: &piece, room: 2 * piece.len() },
        };
        let returned = pair.call(memory, call)?;
        replies.extend(pair.replies(&returned));
        left = &left[piece.len().max(1)..];
    }
    Ok(())
}

#[test]
fn protocol_examples() {
    let mut pair = Pair::default();
    let mut rng = Prng::new(61);
    let examples = examples();
    for example in &examples {
        let board = Board::fresh(pair.font(), example.height, example.edition, example.store.clone());
        let mut memory = Memory::of(&board);
        memory.glass = random::bytes(&mut rng, glass_bytes(example.height));
        memory.state = random::bytes(&mut rng, memory.state.len());
        let mut replies = Vec::new();
        let result = run(&mut pair, &mut memory, example, &mut replies);
        expect(&mut pair, &example.name, result);
        let state = decode_state(&memory.state).expect("a sound record");
        let glass = Glass::from_bytes(&memory.glass);
        assert_eq!(listing(&glass, state.refusals, state.last_refusal, &replies), example.expected, "{}", example.name);
        assert_eq!(example.listing(pair.font()), example.expected, "the reference, of {}", example.name);
    }
    assert!(examples.len() >= 50, "only {} examples were found", examples.len());
    for (height, edition) in HEIGHTS.iter().flat_map(|&height| EDITIONS.map(|edition| (height, edition))) {
        let found = examples.iter().filter(|example| (example.height, example.edition) == (height, edition)).count();
        assert!(found > 0, "no example with {height} rows in edition {edition}");
    }
    for edition in EDITIONS {
        let dropped = |example: &&Case| example.edition == edition && example.expected.contains(" 254 212");
        assert!(examples.iter().any(|example| dropped(&example)), "no upload is dropped in edition {edition}");
    }
}
