//! Where a text stops being the start of an accepted one, found by trying to complete what stands before.
//!
//! A completion that is accepted settles that there is one. That these suffixes suffice is not settled here:
//! `texts --self` asks it of the starts of accepted texts, all of which must be found to have one.

use super::reader::{is_gap, is_in_a_run, read, Limits, Reading, MOST_NODES, MOST_VARIABLES};
use crate::checker::operations::{Outcome, DONE};
use crate::checker::stored::{refusal, Refusal};

const WORDS: [&str; 5] = ["given", "expect", "when", "is", "at"];

/// What a text comes to, before any list is lent for it.
#[derive(Clone, Debug, PartialEq, Eq)]
pub enum Finding {
    BeyondLimits,
    Stops(usize),
    Reads(Reading),
}

pub fn find(k: usize, n: usize, text: &[u8]) -> Finding {
    if k > MOST_VARIABLES || !(1..=MOST_NODES).contains(&n) {
        return Finding::BeyondLimits;
    }
    let limits = Limits::of(k, n);
    match read(text, &limits) {
        Some(reading) => Finding::Reads(reading),
        None => Finding::Stops(place(text, &limits)),
    }
}

impl Finding {
    /// The outcome with lists of so many bytes lent for expressions and clauses.
    pub fn outcome(&self, rooms: [usize; 2]) -> Outcome {
        match self {
            Finding::BeyondLimits => Outcome::refused(refusal(4)),
            Finding::Stops(place) => Outcome::refused(refusal_at(*place)),
            Finding::Reads(reading) => outcome_of_reading(reading, rooms),
        }
    }

    /// The lengths of the lists that suffice.
    pub fn needs(&self) -> [usize; 2] {
        match self {
            Finding::Reads(reading) => [8 * reading.expressions.len(), 8 * reading.clauses.len()],
            _ => [64, 64],
        }
    }
}

fn refusal_at(place: usize) -> Refusal {
    let place = place as u64;
    Refusal {
        number: 15,
        block: (place % (1 << 32)) as u32,
        record: (place >> 32) as u32,
    }
}

fn outcome_of_reading(reading: &Reading, rooms: [usize; 2]) -> Outcome {
    let lists = [reading.expressions.concat(), reading.clauses.concat()];
    if lists
        .iter()
        .zip(rooms)
        .any(|(list, room)| list.len() > room)
    {
        return Outcome::refused(refusal(13));
    }
    let counts = [reading.expressions.len(), reading.clauses.len()];
    let mut outcome = Outcome::new(DONE, counts.map(|count| count as u32).to_vec());
    outcome.writes = lists.to_vec();
    outcome
}

/// The length of the longest start that can be completed. Each start of such a start is one too, so it can be halved.
pub fn place(text: &[u8], limits: &Limits) -> usize {
    let (mut can, mut cannot) = (0, text.len() + 1);
    while cannot - can > 1 {
        let middle = can + (cannot - can) / 2;
        if can_complete(&text[..middle], limits) {
            can = middle;
        } else {
            cannot = middle;
        }
    }
    can
}

/// The same from the front, each start by itself: what halving must agree with.
pub fn place_from_the_front(text: &[u8], limits: &Limits) -> usize {
    let starts = 0..=text.len();
    let first_without = starts
        .into_iter()
        .find(|&end| !can_complete(&text[..end], limits));
    first_without.map_or(text.len(), |end| end - 1)
}

pub fn can_complete(start: &[u8], limits: &Limits) -> bool {
    let tails = tails(unclosed(start));
    let mut whole = start.to_vec();
    word_ends(start).iter().any(|word_end| {
        tails.iter().any(|tail| {
            whole.truncate(start.len());
            whole.extend(word_end.bytes());
            whole.extend(tail.bytes());
            read(&whole, limits).is_some()
        })
    })
}

/// What may finish the word that the start ends in; always nothing, too, since a letter may be a variable.
fn word_ends(start: &[u8]) -> Vec<&'static str> {
    let run = start
        .rsplit(|byte| !is_in_a_run(*byte))
        .next()
        .unwrap_or(&[]);
    let begun = WORDS
        .iter()
        .filter(|word| !run.is_empty() && word.as_bytes().starts_with(run));
    let ends = begun
        .map(|word| &word[run.len()..])
        .filter(|end| !end.is_empty());
    std::iter::once("").chain(ends).collect()
}

/// In a start that can be completed, brackets are unclosed in its last clause only.
fn unclosed(start: &[u8]) -> usize {
    let count = |bracket| start.iter().filter(|byte| **byte == bracket).count();
    count(b'(').saturating_sub(count(b')'))
}

/// The rest of a clause from each of its places on, with the fewest records, and after it the rest of the text.
fn tails(unclosed: usize) -> Vec<String> {
    let close = ")".repeat(unclosed);
    let rests = [
        String::new(),
        format!(" 0{close} : 0 is 0 at 0 ;"),
        format!("{close} : 0 is 0 at 0 ;"),
        " 0 is 0 at 0 ;".to_string(),
        " is 0 at 0 ;".to_string(),
        " 0 at 0 ;".to_string(),
        " at 0 ;".to_string(),
        " 0 ;".to_string(),
        ";".to_string(),
        " given".to_string(),
    ];
    let ended = rests.iter().map(|rest| format!("{rest} expect"));
    ended.chain(rests.iter().cloned()).collect()
}

/// Whether the byte at a place is refused only for want of a gap before it.
pub fn lacks_a_gap(text: &[u8], place: usize, limits: &Limits) -> bool {
    let spaced = [&text[..place], b" ", &text[place..=place]].concat();
    !is_gap(text[place]) && can_complete(&spaced, limits)
}
