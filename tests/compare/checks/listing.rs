//! The listing program beside the reference's listing, whole outputs byte for byte.

use reference::builtin::built_in_font;
use reference::case_file::{folder, read_all};
use reference::generator::{height_of, program_stream};
use reference::glass::{HEIGHTS, LOW, TALL};
use reference::listing::listing_of_stream;
use reference::prng::Prng;
use reference::shrink::shrink;
use std::ffi::OsStr;
use std::io::Write;
use std::os::unix::ffi::OsStrExt;
use std::process::{Command, Stdio};

/// What the program prints for these bytes when it is to show so many rows; 64 without an argument.
fn program(height: u8, input: &[u8]) -> String {
    match height {
        LOW => program_with(&[], input),
        _ => program_with(&[height.to_string().as_ref()], input),
    }
}

fn program_with(arguments: &[&OsStr], input: &[u8]) -> String {
    let path = std::env::var("LISTING_PROGRAM").expect("LISTING_PROGRAM is not set: it must name the listing program");
    let mut child = Command::new(&path)
        .args(arguments)
        .stdin(Stdio::piped())
        .stdout(Stdio::piped())
        .spawn()
        .unwrap_or_else(|error| panic!("LISTING_PROGRAM {path}: {error}"));
    let mut stdin = child.stdin.take().unwrap();
    let bytes = input.to_vec();
    // by itself, so that neither side waits for the other with a full pipe
    let writer = std::thread::spawn(move || stdin.write_all(&bytes));
    let output = child.wait_with_output().expect("the program's output");
    let written = writer.join().unwrap();
    assert!(output.status.success(), "the program ended with {}", output.status);
    written.expect("the program reads all its input");
    String::from_utf8(output.stdout).expect("plain text")
}

/// The first line that differs, if any.
fn difference(expected: &str, got: &str) -> Option<String> {
    if expected == got {
        return None;
    }
    let (mut a, mut b) = (expected.split('\n'), got.split('\n'));
    let mut number = 1;
    loop {
        match (a.next(), b.next()) {
            (x, y) if x == y && x.is_some() => number += 1,
            (x, y) => {
                let (x, y) = (x.unwrap_or("no line"), y.unwrap_or("no line"));
                // a line of replies is long: what stands just before the difference is enough
                let alike = x.bytes().zip(y.bytes()).take_while(|(a, b)| a == b).count();
                let part = |line: &str| line.chars().skip(alike.saturating_sub(30)).take(90).collect::<String>();
                return Some(format!("line {number}: expected ..{:?}, the program ..{:?}", part(x), part(y)));
            }
        }
    }
}

fn same(name: &str, font: &[u8], height: u8, input: &[u8]) {
    let wrong = |input: &[u8]| difference(&listing_of_stream(font, height, input), &program(height, input));
    let Some(first) = wrong(input) else {
        return;
    };
    if input.len() > 5000 {
        panic!("{name}, {height} rows, {} bytes: {first}", input.len());
    }
    let short = shrink(input, &mut |input| wrong(input).is_some());
    panic!("{name}, {height} rows: {first}\nshortest {short:?}: {:?}", wrong(&short));
}

fn same_on_both(name: &str, font: &[u8], input: &[u8]) {
    HEIGHTS.iter().for_each(|&height| same(name, font, height, input));
}

#[test]
fn sample() {
    let expected = "glass 240 64\n1: 2-4\n2: 2-4\nrefused 0 last 0\nreplies\n";
    assert_eq!(program(LOW, &[254, 120, 1, 2, 1, 4, 2]), expected);
    assert_eq!(program(TALL, &[254, 120, 1, 2, 1, 4, 2]), expected.replace("64", "128"));
}

/// Exactly `128` as the first argument; whatever follows it does not count.
#[test]
fn arguments() {
    let input = [254, 112, 0, 0, 254, 112, 239, 63, 254, 112, 1, 64, 254, 112, 239, 127];
    let low = "glass 240 64\n0: 0-0\n63: 239-239\nrefused 0 last 0\nreplies\n";
    let tall = "glass 240 128\n0: 0-0\n63: 239-239\n64: 1-1\n127: 239-239\nrefused 0 last 0\nreplies\n";
    let with = |words: &[&str]| program_with(&words.iter().map(OsStr::new).collect::<Vec<_>>(), &input);
    for words in [&["128"][..], &["128", "64"], &["128", "x"], &["128", ""], &["128", "128"], &["128", "64", "1"]] {
        assert_eq!(with(words), tall, "{words:?}");
    }
    assert_eq!(with(&[]), low);
    let long = "128".repeat(1000);
    let others = [
        "",
        "64",
        "0128",
        "128 ",
        " 128",
        "+128",
        "-128",
        "128x",
        "x128",
        "128.0",
        "12",
        "28",
        "1280",
        "129",
        "127",
        "256",
        "384",
        "0x80",
        "--128",
        "128\n",
        "\u{661}28",
        &long,
    ];
    for word in others {
        assert_eq!(with(&[word]), low, "{word:?}");
        assert_eq!(with(&[word, "128"]), low, "{word:?} and 128");
    }
    // bytes that are no text
    for bytes in [&[255][..], &[49, 50, 56, 255], &[177, 50, 56], &[128]] {
        assert_eq!(program_with(&[OsStr::from_bytes(bytes)], &input), low, "{bytes:?}");
    }
}

/// The bytes of an example's first part: decimals, and text in quotes. `None` where it has words that the program cannot
/// be told, an edition or a time; `checks/protocol.rs` runs those too, and reads every word.
fn example_bytes(sent: &str) -> Option<Vec<u8>> {
    let mut bytes = Vec::new();
    for (k, part) in sent.split('"').enumerate() {
        if k % 2 == 1 {
            bytes.extend(part.bytes());
            continue;
        }
        for word in part.split_whitespace() {
            bytes.push(word.parse::<u8>().ok()?);
        }
    }
    Some(bytes)
}

/// Every example of the protocol's document that the program can be told, through the program and the reference.
#[test]
fn protocol_examples() {
    let path = concat!(env!("CARGO_MANIFEST_DIR"), "/../../docs/PROTOCOL.md");
    let text = std::fs::read_to_string(path).expect("docs/PROTOCOL.md");
    let font = built_in_font();
    let mut count = 0;
    for block in text.split("```example\n").skip(1) {
        let block = block.split("```").next().unwrap();
        let (sent, expected) = block.split_once("\n--\n").expect("bytes, --, listing");
        let Some(bytes) = example_bytes(sent) else {
            continue;
        };
        // an example's own first line says which glass it is of
        let height = if expected.starts_with("glass 240 128\n") { TALL } else { LOW };
        assert_eq!(program(height, &bytes), expected, "the program, of {sent}");
        assert_eq!(listing_of_stream(&font, height, &bytes), expected, "the reference, of {sent}");
        count += 1;
    }
    assert!(count >= 32, "only {count} examples were found");
}

#[test]
fn empty_input() {
    for height in HEIGHTS {
        assert_eq!(program(height, &[]), format!("glass 240 {height}\nrefused 0 last 0\nreplies\n"));
    }
}

/// Against the listings that the cases themselves give, where the program can run them.
#[test]
fn named_cases() {
    let cases: Vec<_> =
        read_all(&folder()).into_iter().filter_map(|case| Some((case.for_the_program()?, case))).collect();
    assert!(cases.len() >= 80, "only {} cases found", cases.len());
    let mut wrong = Vec::new();
    for (bytes, case) in &cases {
        if let Some(first) = difference(&case.expected, &program(case.height, bytes)) {
            wrong.push(format!("{}: {first}", case.name));
        }
    }
    assert!(wrong.is_empty(), "{} of {} cases differ:\n{}", wrong.len(), cases.len(), wrong.join("\n"));
}

#[test]
fn generated_streams() {
    let font = built_in_font();
    for seed in 5000..5600 {
        let height = height_of(seed);
        same(&format!("stream {seed}"), &font, height, &program_stream(&font, height, seed));
    }
}

#[test]
fn noise() {
    let font = built_in_font();
    for seed in 0..30 {
        let mut rng = Prng::new(seed);
        let count = rng.between(1, 3000);
        let input: Vec<u8> = (0..count).map(|_| if rng.percent(10) { 254 } else { rng.byte() }).collect();
        same_on_both(&format!("noise {seed}"), &font, &input);
    }
}

#[test]
fn long_input() {
    let font = built_in_font();
    let mut input = Vec::new();
    let mut seed = 9000;
    while input.len() <= 200_000 {
        input.extend(program_stream(&font, height_of(seed), seed));
        seed += 1;
    }
    same_on_both("a long input", &font, &input);
    // one that no buffer size divides, and one character over and over
    input.truncate(131_073);
    same_on_both("a long input cut short", &font, &input);
    same_on_both("one character", &font, &vec![87; 150_001]);
}

#[test]
fn many_replies() {
    let font = built_in_font();
    for times in [2047, 2048, 2049, 3000, 40_000] {
        same_on_both("serial numbers", &font, &[254, 52, 7, 9].repeat(times));
    }
    // an odd number of replies first, so that a pair of them stands across the limit
    let mut input = vec![254, 36, 1, 1, 0];
    input.extend([254, 52, 250, 1].repeat(3000));
    input.extend([254, 112, 9, 9, 254, 3]);
    same_on_both("a pair across the limit", &font, &input);
    let mut rng = Prng::new(3);
    let mut upload = vec![254, 94, 7, 136, 19];
    (0..5000).for_each(|_| upload.extend([rng.byte(), 1]));
    upload.extend([254, 112, 1, 1]);
    same_on_both("echoes", &font, &upload);
}
