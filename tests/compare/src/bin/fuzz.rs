//! `fuzz SECONDS [SEED]`: new seeds until the time is over, at least one. `fuzz 0 SEED` runs one again.
//!
//! The calls are made in a second process, so that a crash of the library is told with its seed too.

use compare::compare::Pair;
use compare::lists::run_seed;
use compare::report::tell;
use reference::edition::EDITIONS;
use reference::glass::HEIGHTS;
use std::io::{BufRead, BufReader, Write};
use std::process::{Command, ExitCode, Stdio};
use std::sync::atomic::{AtomicU64, Ordering};
use std::time::{Duration, Instant, SystemTime, UNIX_EPOCH};

/// After so many differing seeds the rest would tell nothing new.
const DIFFERENCES_MOST: u64 = 10;
/// A seed takes a fraction of a second; one that takes this long hangs.
const PATIENCE: Duration = Duration::from_secs(120);
static NOW: AtomicU64 = AtomicU64::new(0);
const WORKER: &str = "--worker";

fn main() -> ExitCode {
    let words: Vec<String> = std::env::args().skip(1).collect();
    let number = |place: usize| words.get(place).and_then(|word| word.parse::<u64>().ok());
    if words.first().is_some_and(|word| word == WORKER) {
        return worker(number(1).expect("seconds"), number(2).expect("a seed"));
    }
    let (Some(seconds), true) = (number(0), words.len() < 2 || number(1).is_some()) else {
        eprintln!("fuzz SECONDS [SEED]");
        return ExitCode::from(2);
    };
    let clock = SystemTime::now().duration_since(UNIX_EPOCH).expect("a clock after 1970");
    watch(seconds, number(1).unwrap_or(clock.as_secs() * 1_000_000))
}

/// Passes the worker's lines on, and keeps the seed that it is at.
fn watch(seconds: u64, seed: u64) -> ExitCode {
    let program = std::env::current_exe().expect("this program's path");
    let mut child = Command::new(program)
        .args([WORKER, &seconds.to_string(), &seed.to_string()])
        .stdout(Stdio::piped())
        .spawn()
        .expect("a second process");
    let mut at = seed;
    for line in BufReader::new(child.stdout.take().expect("its output")).lines() {
        let line = line.expect("a line");
        match line.strip_prefix("@") {
            Some(seed) => at = seed.parse().expect("a seed"),
            None => println!("{line}"),
        }
    }
    let status = child.wait().expect("its end");
    match status.code() {
        Some(0) => ExitCode::SUCCESS,
        Some(1) => ExitCode::FAILURE,
        Some(3) => {
            println!("seed {at}: no end after {PATIENCE:?}; run again with: fuzz 0 {at}");
            ExitCode::FAILURE
        }
        _ => {
            println!("seed {at}: the process ended with {status}; run again with: fuzz 0 {at}");
            ExitCode::FAILURE
        }
    }
}

/// Ends the process with 3 when the seed does not change any more.
fn end_when_hanging() {
    let (mut seed, mut since) = (NOW.load(Ordering::Relaxed), Instant::now());
    loop {
        std::thread::sleep(Duration::from_secs(1));
        let now = NOW.load(Ordering::Relaxed);
        if now != seed {
            (seed, since) = (now, Instant::now());
        } else if since.elapsed() > PATIENCE {
            std::process::exit(3);
        }
    }
}

fn worker(seconds: u64, from: u64) -> ExitCode {
    NOW.store(from, Ordering::Relaxed);
    std::thread::spawn(end_when_hanging);
    let begin = Instant::now();
    let limit = Duration::from_secs(seconds);
    let mut pair = Pair::default();
    let mut out = std::io::stdout();
    let (mut seed, mut differences) = (from, 0);
    loop {
        NOW.store(seed, Ordering::Relaxed);
        writeln!(out, "@{seed}").expect("standard output");
        if let Err(failure) = run_seed(&mut pair, seed) {
            differences += 1;
            println!("seed {seed}: {}run again with: fuzz 0 {seed}\n", tell(&mut pair, &failure));
        }
        if begin.elapsed() >= limit || differences >= DIFFERENCES_MOST {
            break;
        }
        seed = seed.wrapping_add(1);
    }
    let counts = &pair.counts;
    let took = begin.elapsed().as_secs_f64();
    println!("seeds {from} to {seed}");
    println!("bytes fed {} in {took:.1} s, {:.0} a second", counts.bytes_fed, counts.bytes_fed as f64 / took);
    println!("replies {}", counts.replies);
    for name in ["start", "feed", "time", "arrive", "take"] {
        let answers: Vec<String> = counts
            .answers
            .iter()
            .filter(|((call, _), _)| *call == name)
            .map(|((_, answer), count)| format!("{answer}: {count}"))
            .collect();
        println!("{name} calls {} (by answer {})", counts.calls(name), answers.join(", "));
    }
    for (height, edition) in HEIGHTS.into_iter().flat_map(|height| EDITIONS.map(|edition| (height, edition))) {
        let own = |rows, of| (rows, of) == (height as u32, edition as u32);
        let calls = |name| (0..=5).map(|answer| counts.with(name, answer, own)).sum::<u64>();
        println!("with {height} rows in edition {edition}: feed calls {}, time calls {}", calls("feed"), calls("time"));
    }
    println!("signals {:?}", counts.signals);
    println!("differences {differences}");
    if differences > 0 {
        return ExitCode::FAILURE;
    }
    ExitCode::SUCCESS
}
