//! Calls a library's reader of texts and compares all that it was lent, to the last byte, with the second reader.

use super::place::Finding;
use super::spread::Spread;
use crate::boundary::Text;
use crate::checker::operations::{Outcome, ANSWER_BYTES};
use crate::generate::random::Random;
use crate::harness::{numbers_in, Lent, MOST_COMPLAINTS};

pub struct Calls {
    /// Without a library only the spread is counted.
    library: Option<Text>,
    pub spread: Spread,
    pub passed: u64,
    pub failed: u64,
    pub complaints: Vec<String>,
    fill: Random,
}

/// What a text is read with, besides the lists.
#[derive(Clone, Copy)]
pub struct Given<'a> {
    pub k: usize,
    pub n: usize,
    pub text: &'a [u8],
    pub finding: &'a Finding,
}

impl<'a> Given<'a> {
    pub fn new(k: usize, n: usize, text: &'a [u8], finding: &'a Finding) -> Given<'a> {
        Given {
            k,
            n,
            text,
            finding,
        }
    }
}

struct Made {
    returned: usize,
    text: Lent,
    lists: [Lent; 2],
    answer: Lent,
}

impl Calls {
    pub fn new(library: Option<Text>, seed: u64) -> Calls {
        Calls {
            library,
            spread: Spread::default(),
            passed: 0,
            failed: 0,
            complaints: Vec::new(),
            fill: Random::new(seed, u64::MAX),
        }
    }

    pub fn count(&mut self, complaint: Option<String>) {
        match complaint {
            None => self.passed += 1,
            Some(complaint) => {
                self.failed += 1;
                if self.complaints.len() < MOST_COMPLAINTS {
                    self.complaints.push(complaint);
                }
            }
        }
    }

    pub fn call(&mut self, given: Given, rooms: [usize; 2], answer_room: usize) {
        let expected = given.finding.outcome(rooms);
        self.spread
            .note_call(given.finding, &expected, rooms, answer_room);
        let Some(library) = self.library else { return };
        let made = self.made(library, given, rooms, answer_room);
        let complain = |what: String| {
            format!(
                "text k={} n={} rooms={rooms:?} answer={answer_room}: {what}\n  \
                 {:?}\n  expected {}\n  returned {} with numbers {:?}",
                given.k,
                given.n,
                shown(given.text),
                told(&expected),
                made.returned,
                numbers_in(&made.answer)
            )
        };
        for difference in differences(&made, &expected) {
            self.count(difference.map(complain));
        }
    }

    fn made(&mut self, library: Text, given: Given, rooms: [usize; 2], answer: usize) -> Made {
        let mut text = Lent::holding("text", given.text, &mut self.fill);
        let mut expressions = Lent::room("expressions", rooms[0], &mut self.fill);
        let mut clauses = Lent::room("clauses", rooms[1], &mut self.fill);
        let mut answer = Lent::room("answer", answer, &mut self.fill);
        let returned = unsafe {
            library(
                given.k,
                given.n,
                text.at(),
                text.length,
                expressions.at(),
                expressions.length,
                clauses.at(),
                clauses.length,
                answer.at(),
                answer.length,
            )
        };
        Made {
            returned,
            text,
            lists: [expressions, clauses],
            answer,
        }
    }
}

/// A text for a complaint, not all of it if it is long.
pub fn shown(text: &[u8]) -> String {
    const MOST: usize = 400;
    let start = String::from_utf8_lossy(&text[..text.len().min(MOST)]);
    match text.len() {
        0..=MOST => start.into_owned(),
        length => format!("{start}... ({length} bytes)"),
    }
}

/// The outcome for a complaint: long lists tell a reader nothing.
fn told(outcome: &Outcome) -> String {
    let bytes: Vec<usize> = outcome.writes.iter().map(Vec::len).collect();
    format!(
        "{} with numbers {:?}, bytes written {bytes:?}",
        outcome.word, outcome.numbers
    )
}

/// One entry for each thing compared: the result, the text, both lists, the answer.
fn differences(made: &Made, expected: &Outcome) -> [Option<String>; 5] {
    let answered = made.answer.length >= ANSWER_BYTES;
    let word = if answered { expected.word as usize } else { 0 };
    let answer = if answered {
        expected.answer_bytes().to_vec()
    } else {
        Vec::new()
    };
    let written = |list: usize| match expected.writes.get(list) {
        Some(bytes) if answered => &bytes[..],
        _ => &[],
    };
    [
        (made.returned != word).then(|| format!("returned a word other than {word}")),
        made.text.difference(&[]),
        made.lists[0].difference(written(0)),
        made.lists[1].difference(written(1)),
        made.answer.difference(&answer),
    ]
}
