//! `fuzz [FILE]`: compares the six operations on stored jobs on any bytes, from a file or standard input.
//!
//! The first bytes are parameters: one of flags, one for the answer's room, two each for three rooms, eight each for
//! case, time and k. What follows is the job. A flag mends the checks, since chance alone hardly gets past them.

use second::boundary;
use second::generate::draft::mend;
use second::harness::Harness;
use second::trial::{try_raw, Parameters};
use std::io::Read;
use std::process::ExitCode;

const MEND: u8 = 1;
const NARROW: u8 = 2;
const FULL_ANSWER: u8 = 4;
const PARAMETER_BYTES: usize = 32;

fn main() -> ExitCode {
    let Some(library) = boundary::linked() else {
        eprintln!("{}", boundary::NOT_LINKED);
        return ExitCode::from(2);
    };
    let bytes = match input() {
        Ok(bytes) => bytes,
        Err(error) => {
            eprintln!("{error}");
            return ExitCode::from(2);
        }
    };
    let (parameters, job) = parameters_and_job(&bytes);
    let mut harness = Harness::new(Some(library), 0);
    try_raw(&mut harness, &job, &parameters);
    for complaint in &harness.complaints {
        println!("{complaint}");
    }
    println!("{} passed, {} failed", harness.passed, harness.failed);
    if harness.failed == 0 {
        ExitCode::SUCCESS
    } else {
        ExitCode::FAILURE
    }
}

fn input() -> std::io::Result<Vec<u8>> {
    match std::env::args().nth(1) {
        Some(path) => std::fs::read(path),
        None => {
            let mut bytes = Vec::new();
            std::io::stdin().read_to_end(&mut bytes)?;
            Ok(bytes)
        }
    }
}

/// Missing parameter bytes are 0.
fn parameters_and_job(bytes: &[u8]) -> (Parameters, Vec<u8>) {
    let mut head = [0; PARAMETER_BYTES];
    let given = bytes.len().min(PARAMETER_BYTES);
    head[..given].copy_from_slice(&bytes[..given]);
    let mut job = bytes[given..].to_vec();
    let flags = head[0];
    if flags & MEND != 0 {
        mend(&mut job);
    }
    let room = |at: usize| usize::from(u16::from_le_bytes([head[at], head[at + 1]])) % 20_000;
    let wide = |at: usize| u64::from_le_bytes(head[at..at + 8].try_into().unwrap());
    // small numbers get further than wide ones
    let number = |at: usize| match flags & NARROW {
        0 => wide(at),
        _ => u64::from(head[at]),
    };
    let parameters = Parameters {
        case: number(8),
        time: number(16),
        k: number(24),
        rooms: [room(2), room(4), room(6)],
        answer_room: match flags & FULL_ANSWER {
            0 => usize::from(head[1]),
            _ => 40,
        },
    };
    (parameters, job)
}
