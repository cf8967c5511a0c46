//! Runs a check program on a job and takes what it prints.

use std::io::{ErrorKind, Write};
use std::process::{Command, Stdio};

/// The lengths on both sides of those that a job may have, and some far from them.
pub const ODD_LENGTHS: [usize; 14] = [
    0, 1, 2, 511, 512, 513, 1_023, 1_025, 16_895, 16_896, 16_897, 17_408, 100_000, 1_000_000,
];

pub fn printed(program: &str, job: &[u8]) -> Result<String, String> {
    let mut child = Command::new(program)
        .stdin(Stdio::piped())
        .stdout(Stdio::piped())
        .stderr(Stdio::inherit())
        .spawn()
        .map_err(|error| format!("{program}: {error}"))?;
    let mut input = child.stdin.take().unwrap();
    match input.write_all(job) {
        // a program may stop reading a job that is too long
        Err(error) if error.kind() != ErrorKind::BrokenPipe => return Err(error.to_string()),
        _ => drop(input),
    }
    let output = child
        .wait_with_output()
        .map_err(|error| error.to_string())?;
    if output.status.code().is_none() {
        return Err(format!("the program ended by a signal: {}", output.status));
    }
    String::from_utf8(output.stdout).map_err(|error| error.to_string())
}

/// What is wrong with the line printed, if anything is.
pub fn complaint(program: &str, job: &[u8], expected: &str) -> Option<String> {
    match printed(program, job) {
        Err(error) => Some(format!("the program failed: {error}")),
        Ok(line) if line == format!("{expected}\n") => None,
        Ok(line) => Some(format!("printed {line:?} instead of {expected:?}")),
    }
}
