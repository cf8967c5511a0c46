//! Compares the product's reader of texts with the second one on generated texts.
//!
//! `texts SEED COUNT` compares the linked library;
//! `texts --self SEED COUNT` needs no library: the spread, and the second reader against how the texts were made;
//! `texts --mutants` tries the comparison on a reader with a mistake in it, for each of many mistakes;
//! `texts --text SEED INDEX` compares on one text again;
//! `texts --raw [FILE]` compares on any bytes, from a file or standard input. The first are parameters: one of flags,
//! one for the answer's room, two each for the rooms of expressions and clauses, eight each for k and n.

use second::boundary::{self, Text};
use second::generate::random::Random;
use second::texts::calls::Calls;
use second::texts::generate::{sample, Sample};
use second::texts::mistakes::{self, Mistake, MISTAKES};
use second::texts::mock;
use second::texts::trial::{try_all_of_a_kind, try_raw, try_sample, try_second_reader};
use std::io::Read;
use std::path::{Path, PathBuf};
use std::process::ExitCode;

const USAGE: &str =
    "texts SEED COUNT | --self SEED COUNT | --mutants | --text SEED INDEX | --raw [FILE]";
const TEXTS_WITHOUT_MISTAKE: u64 = 3_000;
const MOST_TEXTS_FOR_A_MUTANT: u64 = 6_000;

fn main() -> ExitCode {
    let arguments: Vec<String> = std::env::args().skip(1).collect();
    let words: Vec<&str> = arguments.iter().map(String::as_str).collect();
    let good = match words[..] {
        ["--mutants"] => try_mutants(),
        ["--self", seed, count] => compare_self(number(seed), number(count)),
        ["--text", seed, index] => {
            with_library(|library| repeat_one_text(library, number(seed), number(index)))
        }
        ["--raw"] => with_library(|library| compare_raw(library, None)),
        ["--raw", path] => with_library(|library| compare_raw(library, Some(path))),
        [seed, count] => with_library(|library| compare(library, number(seed), number(count))),
        _ => {
            eprintln!("{USAGE}");
            false
        }
    };
    if good {
        ExitCode::SUCCESS
    } else {
        ExitCode::FAILURE
    }
}

fn number(word: &str) -> u64 {
    word.parse().unwrap_or_else(|_| {
        eprintln!("{word} is no number; {USAGE}");
        std::process::exit(2)
    })
}

fn with_library(run: impl FnOnce(Text) -> bool) -> bool {
    match boundary::linked() {
        Some(library) => run(library.text),
        None => {
            eprintln!("{}", boundary::NOT_LINKED);
            false
        }
    }
}

/// Where what is left behind for a reader goes: beside what is built.
fn left_behind(name: &str) -> PathBuf {
    let root = Path::new(env!("CARGO_MANIFEST_DIR")).ancestors().nth(2);
    root.unwrap().join("target/second").join(name)
}

/// The rooms of a text, the same whenever it is repeated.
fn probes(seed: u64, index: u64) -> Random {
    Random::new(!seed, index)
}

fn compare(library: Text, seed: u64, count: u64) -> bool {
    let mut calls = Calls::new(Some(library), seed);
    for index in 0..count {
        remember(seed, index);
        let failed_before = calls.failed;
        let sample = sample(seed, index);
        try_sample(&mut calls, &sample, &mut probes(seed, index));
        if failed_before == 0 && calls.failed > 0 {
            show_failure(&calls, &sample, seed, index);
        }
    }
    let shown = calls.failed > 0;
    add_all_of_a_kind(&mut calls, library, seed);
    if !shown {
        show_complaints(&calls);
    }
    conclude(&calls)
}

/// Counted apart from the spread, which is about texts that chance has made.
fn add_all_of_a_kind(calls: &mut Calls, library: Text, seed: u64) {
    let mut more = Calls::new(Some(library), seed);
    try_all_of_a_kind(&mut more);
    calls.passed += more.passed;
    calls.failed += more.failed;
    calls.complaints.extend(more.complaints);
}

/// Should the library end this process, the text at fault is known.
fn remember(seed: u64, index: u64) {
    let told = format!("texts --text {seed} {index}\n");
    let _ = std::fs::write(left_behind("texts-last"), told);
}

fn repeat_one_text(library: Text, seed: u64, index: u64) -> bool {
    let mut calls = Calls::new(Some(library), seed);
    let sample = sample(seed, index);
    try_sample(&mut calls, &sample, &mut probes(seed, index));
    if calls.failed > 0 {
        show_failure(&calls, &sample, seed, index);
    }
    println!("{} passed, {} failed", calls.passed, calls.failed);
    calls.failed == 0
}

fn show_failure(calls: &Calls, sample: &Sample, seed: u64, index: u64) {
    println!("first failure, in a text made as: {}", sample.what);
    show_complaints(calls);
    let path = left_behind("failure.text");
    match std::fs::write(&path, raw(sample)) {
        Ok(()) => println!("it is in {}, for --raw", path.display()),
        Err(error) => println!("it could not be written: {error}"),
    }
    println!("repeat it with: texts --text {seed} {index}");
}

/// A text as `--raw` takes it, with its limits and without room in the first call.
fn raw(sample: &Sample) -> Vec<u8> {
    let mut bytes = vec![FULL_ANSWER, 0, 0, 0, 0, 0];
    bytes.extend((sample.k as u64).to_le_bytes());
    bytes.extend((sample.n as u64).to_le_bytes());
    bytes.extend(&sample.text);
    bytes
}

fn show_complaints(calls: &Calls) {
    for complaint in &calls.complaints {
        println!("{complaint}");
    }
}

fn conclude(calls: &Calls) -> bool {
    for line in calls.spread.table() {
        println!("{line}");
    }
    let poor = calls.spread.is_poor();
    if poor {
        println!("the spread is poor");
    }
    let failed = calls.failed + u64::from(poor);
    println!("{} passed, {failed} failed", calls.passed);
    failed == 0
}

fn compare_self(seed: u64, count: u64) -> bool {
    let mut calls = Calls::new(None, seed);
    for index in 0..count {
        let sample = sample(seed, index);
        try_sample(&mut calls, &sample, &mut probes(seed, index));
        try_second_reader(&mut calls, &sample, &mut probes(seed, index));
    }
    add_all_of_a_kind(&mut calls, mock::text, seed);
    show_complaints(&calls);
    conclude(&calls)
}

/// Each mistake must be seen; no mistake must pass.
fn try_mutants() -> bool {
    let (mut caught, mut missed) = (0, 0);
    mistakes::choose(Mistake::NoMistake);
    match first_failing_text(TEXTS_WITHOUT_MISTAKE) {
        None => println!("no mistake: nothing found in {TEXTS_WITHOUT_MISTAKE} texts"),
        Some((index, complaint)) => {
            println!("no mistake, yet text {index} fails: {complaint}");
            missed += 1;
        }
    }
    for &mistake in MISTAKES {
        mistakes::choose(mistake);
        match first_failing_text(MOST_TEXTS_FOR_A_MUTANT) {
            Some((index, complaint)) => {
                caught += 1;
                let first_line = complaint.lines().next().unwrap_or("");
                println!("{mistake:?}: caught in text {index}: {first_line}");
            }
            None => {
                missed += 1;
                println!("{mistake:?}: NOT CAUGHT");
            }
        }
    }
    println!("{caught} passed, {missed} failed");
    missed == 0
}

fn first_failing_text(most: u64) -> Option<(u64, String)> {
    let seed = 1;
    let mut calls = Calls::new(Some(mock::text), seed);
    for index in 0..most {
        let sample = sample(seed, index);
        try_sample(&mut calls, &sample, &mut probes(seed, index));
        if let Some(complaint) = calls.complaints.first() {
            return Some((index, complaint.clone()));
        }
    }
    None
}

/// The flags: k and n from few bits, since wide ones get no further than the limits; an answer of full length.
const NARROW: u8 = 2;
const FULL_ANSWER: u8 = 4;
const PARAMETER_BYTES: usize = 22;

fn compare_raw(library: Text, path: Option<&str>) -> bool {
    let bytes = match input(path) {
        Ok(bytes) => bytes,
        Err(error) => {
            eprintln!("{error}");
            return false;
        }
    };
    let mut head = [0; PARAMETER_BYTES];
    let given = bytes.len().min(PARAMETER_BYTES);
    head[..given].copy_from_slice(&bytes[..given]);
    let mut calls = Calls::new(Some(library), 0);
    try_raw_with(&mut calls, &head, &bytes[given..]);
    show_complaints(&calls);
    println!("{} passed, {} failed", calls.passed, calls.failed);
    calls.failed == 0
}

fn input(path: Option<&str>) -> std::io::Result<Vec<u8>> {
    match path {
        Some(path) => std::fs::read(path),
        None => {
            let mut bytes = Vec::new();
            std::io::stdin().read_to_end(&mut bytes)?;
            Ok(bytes)
        }
    }
}

/// Missing parameter bytes are 0.
fn try_raw_with(calls: &mut Calls, head: &[u8; PARAMETER_BYTES], text: &[u8]) {
    let short = |at: usize| usize::from(u16::from_le_bytes([head[at], head[at + 1]]));
    let wide = |at: usize| u64::from_le_bytes(head[at..at + 8].try_into().unwrap()) as usize;
    let (k, n) = match head[0] & NARROW {
        0 => (wide(6), wide(14)),
        _ => (usize::from(head[6]) % 14, short(14) % 1_010),
    };
    let answer_room = match head[0] & FULL_ANSWER {
        0 => usize::from(head[1]),
        _ => 40,
    };
    let rooms = [short(2) % 20_000, short(4) % 20_000];
    try_raw(calls, k, n, text, rooms, answer_room);
}
