//! How the texts and calls are spread, and whether that is wide enough to show anything.

use super::calls::Given;
use super::place::{can_complete, lacks_a_gap, Finding};
use super::reader::{items_of, Limits, Reading};
use crate::checker::operations::Outcome;
use std::collections::BTreeMap;

#[derive(Default)]
pub struct Spread {
    texts: u64,
    calls: u64,
    counted: BTreeMap<String, u64>,
}

/// What is counted among texts, with the least share of them, in ten thousandths.
const SHARES_OF_TEXTS: [(&str, u64); 34] = [
    ("accepted", 2_500),
    ("refused 4", 200),
    ("refused 15", 2_500),
    ("15 in the first word", 100),
    ("15 after given", 50),
    ("15 after a clause of given", 50),
    ("15 after expect", 20),
    ("15 after a clause of expect", 50),
    ("15 before an operand", 200),
    ("15 after an operand", 200),
    ("15 at a node", 50),
    ("15 after a node", 50),
    ("15 at a value", 50),
    ("15 after a value", 50),
    ("15 at a time", 50),
    ("15 after a time", 50),
    ("ends early", 200),
    ("for a letter", 50),
    ("for a node", 50),
    ("for a time", 20),
    ("for the depth", 50),
    ("for the records, at an operator", 5),
    ("for the records, at a !", 3),
    ("for the records, at a clause", 5),
    ("for a leading zero", 50),
    ("for a value", 10),
    ("for want of a gap", 100),
    ("for a byte of no item", 200),
    ("accepted, brackets to 31", 20),
    ("accepted, brackets to 32", 50),
    ("accepted, a list empty", 200),
    ("accepted, operands beyond 255", 50),
    ("accepted, guards beyond 255", 50),
    ("accepted, no gap but where one must be", 200),
];

/// What is counted among calls, likewise.
const SHARES_OF_CALLS: [(&str, u64); 12] = [
    ("call done", 1_000),
    ("call refused 4", 200),
    ("call refused 13", 500),
    ("call refused 13 for expressions alone", 100),
    ("call refused 13 for clauses alone", 100),
    ("call refused 15", 2_000),
    ("call refused 15 with a list of 0 bytes", 300),
    ("call with lists just long enough", 500),
    ("call with longer lists", 300),
    ("call with answer 39", 300),
    ("call with answer 40", 3_000),
    ("call with answer 64", 300),
];

/// Sizes that must be met in accepted texts.
const SIZES_TO_MEET: [(&str, &[usize]); 6] = [
    ("k", &[0, 1, 2, 3, 4, 5, 6, 7, 8, 9, 10, 11, 12]),
    ("n", &[1, 2, 10, 11, 100, 1_000, 1_008]),
    ("records", &[0, 1, 502, 503, 504]),
    ("clauses", &[0, 1, 2, 503, 504]),
    ("code", &[0, 1, 2, 3, 4, 5, 6]),
    ("time", &[0, 9, 10, 99, 100, 254, 255]),
];

/// The limits refused with 4 that must be met.
const REFUSED_LIMITS: [(&str, &[usize]); 2] = [("k refused", &[13]), ("n refused", &[0, 1_009])];

impl Spread {
    fn count(&mut self, what: impl Into<String>, so: bool) {
        *self.counted.entry(what.into()).or_default() += u64::from(so);
    }

    fn counted(&self, what: &str) -> u64 {
        self.counted.get(what).copied().unwrap_or(0)
    }

    pub fn note_text(&mut self, given: Given) {
        let Given {
            k,
            n,
            text,
            finding,
        } = given;
        self.texts += 1;
        match finding {
            Finding::BeyondLimits => {
                self.count("refused 4", true);
                self.count(format!("k refused {k}"), true);
                self.count(format!("n refused {n}"), true);
            }
            Finding::Stops(place) => {
                self.count("refused 15", true);
                self.count(format!("15 {}", part_of(&text[..*place])), true);
                self.note_reason(text, *place, &Limits::of(k, n));
            }
            Finding::Reads(reading) => {
                self.count("accepted", true);
                self.count(format!("k {k}"), true);
                self.count(format!("n {n}"), true);
                self.note_reading(reading);
                self.note_accepted(text, reading);
            }
        }
    }

    /// Which limit or rule the byte broke: the one without which the text could go on with it.
    fn note_reason(&mut self, text: &[u8], place: usize, limits: &Limits) {
        let Some(&byte) = text.get(place) else {
            return self.count("ends early", true);
        };
        let start = &text[..=place];
        let without = |relaxed: Limits| can_complete(start, &relaxed);
        let (variables, nodes, times) = (26, 1 << 32, 1 << 32);
        let (depth, records) = (1_000, 5_000);
        self.count(
            "for a letter",
            without(Limits {
                variables,
                ..*limits
            }),
        );
        self.count("for a node", without(Limits { nodes, ..*limits }));
        self.count("for a time", without(Limits { times, ..*limits }));
        self.count("for the depth", without(Limits { depth, ..*limits }));
        let clauses = records;
        if without(Limits {
            records,
            clauses,
            ..*limits
        }) {
            let at = match byte {
                b'w' => "a clause",
                b'!' => "a !",
                _ => "an operator",
            };
            self.count(format!("for the records, at {at}"), true);
        }
        let part = part_of(&text[..place]);
        let zero_before = items_of(&text[..place]).last() == Some(&&b"0"[..]);
        let digit = byte.is_ascii_digit();
        let after_zero = digit && zero_before && text[place - 1] == b'0';
        self.count(
            "for a leading zero",
            after_zero && part != "after an operand",
        );
        self.count("for a value", digit && part == "at a value");
        self.count("for want of a gap", lacks_a_gap(text, place, limits));
        let known = b"abcdefghijklmnopqrstuvwxyz0123456789!&^|():; \n\r";
        self.count("for a byte of no item", !known.contains(&byte));
    }

    fn note_reading(&mut self, reading: &Reading) {
        let (records, clauses) = (reading.expressions.len(), reading.clauses.len());
        self.count(format!("records {records}"), true);
        self.count(format!("clauses {clauses}"), true);
        for record in &reading.expressions {
            self.count(format!("code {}", record[0]), true);
        }
        for clause in &reading.clauses {
            self.count(format!("time {}", clause[4]), true);
        }
        let wide_operand = |record: &[u8; 8]| record[3] > 0 || record[5] > 0;
        let wide = reading.expressions.iter().any(wide_operand);
        self.count("accepted, operands beyond 255", wide);
        let wide = reading.clauses.iter().any(|clause| clause[7] > 0);
        self.count("accepted, guards beyond 255", wide);
    }

    fn note_accepted(&mut self, text: &[u8], reading: &Reading) {
        let depth = deepest(text);
        self.count("accepted, brackets to 31", depth == 31);
        self.count("accepted, brackets to 32", depth == 32);
        let sides = [0, 1].map(|side| reading.clauses.iter().any(|clause| clause[0] == side));
        self.count("accepted, a list empty", sides.contains(&false));
        let gaps = text.iter().filter(|byte| **byte <= b' ').count();
        let runs = items_of(text)
            .windows(2)
            .filter(|two| two.iter().all(is_run))
            .count();
        self.count("accepted, no gap but where one must be", gaps == runs);
    }

    pub fn note_call(
        &mut self,
        finding: &Finding,
        outcome: &Outcome,
        rooms: [usize; 2],
        answer: usize,
    ) {
        self.calls += 1;
        let needs = finding.needs();
        let (first, second) = (rooms[0] < needs[0], rooms[1] < needs[1]);
        let done = outcome.refusal_number().is_none();
        match outcome.refusal_number() {
            None => self.count("call done", true),
            Some(number) => self.count(format!("call refused {number}"), true),
        }
        let short = outcome.refusal_number() == Some(13);
        self.count(
            "call refused 13 for expressions alone",
            short && first && !second,
        );
        self.count(
            "call refused 13 for clauses alone",
            short && second && !first,
        );
        let stops = outcome.refusal_number() == Some(15);
        self.count(
            "call refused 15 with a list of 0 bytes",
            stops && rooms.contains(&0),
        );
        self.count(
            "call with lists just long enough",
            done && rooms == needs && needs[0] > 0,
        );
        self.count("call with longer lists", done && rooms[0] > needs[0]);
        self.count(format!("call with answer {answer}"), true);
    }

    /// The spread as a table, with `POOR` at the end of every line that falls short.
    pub fn table(&self) -> Vec<String> {
        let mut lines = Vec::new();
        for (what, share) in SHARES_OF_TEXTS {
            lines.push(self.line(what, share, self.texts));
        }
        for (what, share) in SHARES_OF_CALLS {
            lines.push(self.line(what, share, self.calls));
        }
        for (size, values) in SIZES_TO_MEET.iter().chain(&REFUSED_LIMITS) {
            lines.push(self.line_of_sizes(size, values));
        }
        lines
    }

    pub fn is_poor(&self) -> bool {
        self.table().iter().any(|line| line.ends_with("POOR"))
    }

    fn line(&self, what: &str, share: u64, of: u64) -> String {
        let count = self.counted(what);
        let least = (of * share / 10_000).max(1);
        let poor = if count < least { " POOR" } else { "" };
        format!("{what:42} {count:>7} of {of} (at least {least}){poor}")
    }

    fn line_of_sizes(&self, size: &str, values: &[usize]) -> String {
        let met = |value: &usize| self.counted(&format!("{size} {value}"));
        let each: Vec<String> = values
            .iter()
            .map(|value| format!("{value}:{}", met(value)))
            .collect();
        let poor = if values.iter().any(|value| met(value) == 0) {
            " POOR"
        } else {
            ""
        };
        format!("by {size:39} {}{poor}", each.join(" "))
    }
}

fn is_run(item: &&[u8]) -> bool {
    item[0].is_ascii_alphanumeric()
}

fn deepest(text: &[u8]) -> usize {
    let (mut open, mut most) = (0, 0);
    for byte in text {
        match byte {
            b'(' => open += 1,
            b')' => open -= 1,
            _ => {}
        }
        most = most.max(open);
    }
    most
}

/// The part of the grammar that a start ends in, told by its last word, colon or semicolon.
fn part_of(start: &[u8]) -> &'static str {
    const MARKS: [&[u8]; 7] = [b"given", b"expect", b"when", b":", b"is", b"at", b";"];
    let items = items_of(start);
    let Some(place) = items.iter().rposition(|item| MARKS.contains(item)) else {
        return "in the first word";
    };
    let follows = place + 1 < items.len();
    let expected = items.contains(&&b"expect"[..]);
    match items[place] {
        b"given" => "after given",
        b"expect" => "after expect",
        b"when" if after_operand(&items) => "after an operand",
        b"when" => "before an operand",
        b":" if !follows => "at a node",
        b":" => "after a node",
        b"is" if !follows => "at a value",
        b"is" => "after a value",
        b"at" if !follows => "at a time",
        b"at" => "after a time",
        _ if expected => "after a clause of expect",
        _ => "after a clause of given",
    }
}

fn after_operand(items: &[&[u8]]) -> bool {
    match items.last() {
        Some(item) => *item != b"when" && (is_run(item) || *item == b")"),
        None => false,
    }
}
