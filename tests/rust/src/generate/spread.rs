//! How the generated jobs are spread, and whether that is wide enough to show anything.

use crate::checker::runs::{self, Answer, Story, Verdict};
use crate::checker::stored::{self, Expression, Gate, Job, Refusal, Value};
use crate::generate::draft::gate_record;
use std::collections::{BTreeMap, BTreeSet};

pub const OPERATIONS: [&str; 6] = ["sizes", "unpack", "pack", "row", "one_case", "check"];

/// The refusals that each operation can give.
const POSSIBLE: [&[usize]; 6] = [
    &[1, 2, 3, 4, 5, 6, 7, 8, 9, 10],
    &[1, 2, 3, 4, 5, 6, 7, 8, 9, 10, 13],
    &[1, 4, 8, 9, 10, 13],
    &[1, 2, 3, 4, 5, 6, 7, 8, 9, 10, 11, 12, 13, 14],
    &[1, 2, 3, 4, 5, 6, 7, 8, 9, 10, 11],
    &[1, 2, 3, 4, 5, 6, 7, 8, 9, 10],
];

/// A stored job as the second checker sees it, worked once for all that is asked of it.
pub enum Survey {
    Refused(Refusal),
    Accepted { job: Job, stories: Vec<Story> },
}

impl Survey {
    pub fn of(bytes: &[u8]) -> Survey {
        match stored::read(bytes) {
            Err(refusal) => Survey::Refused(refusal),
            Ok(job) => {
                let stories = runs::stories(&job);
                Survey::Accepted { job, stories }
            }
        }
    }
}

#[derive(Default)]
pub struct Spread {
    jobs: u64,
    accepted: u64,
    refusals: [[u64; 15]; 6],
    counted: BTreeMap<&'static str, u64>,
    sizes_met: BTreeMap<(&'static str, usize), u64>,
}

/// What is counted in accepted jobs, with the least share of them, in thousandths.
const SHARES: [(&str, u64); 21] = [
    ("HOLDS", 100),
    ("FAILS", 100),
    ("VACANT", 100),
    ("k of 7 and above", 250),
    ("FAILS first in a case beyond 63", 70),
    ("VACANT first in a case beyond 63", 50),
    ("clause collides with clause", 100),
    ("gate collides with clause", 80),
    ("miss before a collision", 80),
    ("VACANT with a miss before a collision", 30),
    ("EMPTY and FAILS in one job", 60),
    ("EMPTY, FAILS and PASSES in one job", 50),
    ("found 0", 15),
    ("found 1", 15),
    ("found X", 50),
    ("wanted 0", 50),
    ("wanted 1", 50),
    ("decided at time 255", 3),
    ("guard deeper than 20", 20),
    ("latch", 200),
    ("MUX", 200),
];

/// Sizes that must be met at least once.
const SIZES_TO_MEET: [(&str, &[usize]); 6] = [
    ("gate code", &[0, 1, 2, 3, 4, 5, 6, 7, 8]),
    ("k", &[0, 1, 2, 3, 4, 5, 6, 7, 8, 9, 10, 11, 12]),
    ("n", &[1, 63, 64, 1_008]),
    ("e", &[0, 63, 64, 504]),
    ("c", &[0, 63, 64, 504]),
    ("T", &[0, 1, 255]),
];

const LARGEST_JOBS: &str = "k 12 with 1008 nodes";
const LEAST_LARGEST_JOBS: u64 = 3;

impl Spread {
    pub fn note_refusal(&mut self, operation: usize, number: u32) {
        self.refusals[operation][number as usize] += 1;
    }

    pub fn note_job(&mut self, survey: &Survey) {
        self.jobs += 1;
        if let Survey::Accepted { job, stories } = survey {
            self.accepted += 1;
            self.note_sizes(job);
            self.note_gates(job);
            let deep = deepest_guard(job) > 20;
            self.count("guard deeper than 20", deep);
            self.note_verdict(stories);
            self.note_stories(stories);
        }
    }

    fn count(&mut self, what: &'static str, so: bool) {
        *self.counted.entry(what).or_default() += u64::from(so);
    }

    fn counted(&self, what: &str) -> u64 {
        self.counted.get(what).copied().unwrap_or(0)
    }

    fn note_sizes(&mut self, job: &Job) {
        let met = [
            ("k", job.k),
            ("n", job.gates.len()),
            ("e", job.expressions.len()),
            ("c", job.clauses.len()),
            ("T", runs::last_time(job)),
        ];
        for size in met {
            *self.sizes_met.entry(size).or_default() += 1;
        }
        self.count("k of 7 and above", job.k >= 7);
        self.count(LARGEST_JOBS, job.k == 12 && job.gates.len() == 1_008);
    }

    fn note_gates(&mut self, job: &Job) {
        let is_latch = |(own, gate): (usize, &Gate)| match *gate {
            Gate::Buf(p) | Gate::Not(p) => p == own,
            Gate::And(p, q) | Gate::Or(p, q) | Gate::Xor(p, q) => [p, q].contains(&own),
            Gate::Mux(p, q, r) => [p, q, r].contains(&own),
            Gate::Input | Gate::Zero | Gate::One => false,
        };
        let is_mux = |gate: &Gate| matches!(gate, Gate::Mux(..));
        let codes: BTreeSet<usize> = job.gates.iter().map(code_of).collect();
        for code in codes {
            *self.sizes_met.entry(("gate code", code)).or_default() += 1;
        }
        self.count("latch", job.gates.iter().enumerate().any(is_latch));
        self.count("MUX", job.gates.iter().any(is_mux));
    }

    fn note_verdict(&mut self, stories: &[Story]) {
        match runs::verdict(stories) {
            Verdict::Holds => self.count("HOLDS", true),
            Verdict::Fails { case, miss } => {
                self.count("FAILS", true);
                self.count("FAILS first in a case beyond 63", case > 63);
                self.count("decided at time 255", miss.time == 255);
                self.count("found 0", miss.found == Value::Zero);
                self.count("found 1", miss.found == Value::One);
                self.count("found X", miss.found == Value::X);
                self.count("wanted 0", miss.wanted == Value::Zero);
                self.count("wanted 1", miss.wanted == Value::One);
            }
            Verdict::Vacant { case, time, .. } => {
                self.count("VACANT", true);
                self.count("decided at time 255", time == 255);
                self.count("VACANT first in a case beyond 63", case > 63);
                let missed = stories.iter().any(|story| story.missed_before_collision);
                self.count("VACANT with a miss before a collision", missed);
            }
        }
    }

    fn note_stories(&mut self, stories: &[Story]) {
        let is_empty = |story: &Story| matches!(story.answer, Answer::Empty { .. });
        let counts = runs::counts(stories);
        let mixed = counts.empty > 0 && counts.failing > 0;
        self.count("EMPTY and FAILS in one job", mixed);
        self.count(
            "EMPTY, FAILS and PASSES in one job",
            mixed && counts.passing > 0,
        );
        self.count(
            "clause collides with clause",
            stories.iter().any(|s| is_empty(s) && !s.collided_with_gate),
        );
        self.count(
            "gate collides with clause",
            stories.iter().any(|s| s.collided_with_gate),
        );
        self.count(
            "miss before a collision",
            stories.iter().any(|s| s.missed_before_collision),
        );
    }

    /// The spread as a table, with `POOR` at the end of every line that falls short.
    pub fn table(&self) -> Vec<String> {
        let mut lines = vec![self.line("accepted", self.accepted, self.jobs / 3, self.jobs)];
        for (what, thousandths) in SHARES {
            let least = self.accepted * thousandths / 1_000;
            lines.push(self.line(what, self.counted(what), least.max(1), self.accepted));
        }
        let largest = self.counted(LARGEST_JOBS);
        lines.push(self.line(LARGEST_JOBS, largest, LEAST_LARGEST_JOBS, self.accepted));
        for (size, values) in SIZES_TO_MEET {
            lines.push(self.line_of_sizes(size, values));
        }
        for (operation, possible) in POSSIBLE.iter().enumerate() {
            lines.push(self.line_of_refusals(operation, possible));
        }
        lines
    }

    pub fn is_poor(&self) -> bool {
        self.table().iter().any(|line| line.ends_with("POOR"))
    }

    fn line(&self, what: &str, count: u64, least: u64, of: u64) -> String {
        let poor = if count < least { " POOR" } else { "" };
        format!("{what:40} {count:>7} of {of} (at least {least}){poor}")
    }

    fn line_of_sizes(&self, size: &'static str, values: &[usize]) -> String {
        let met = |value: &usize| self.sizes_met.get(&(size, *value)).copied().unwrap_or(0);
        let each: Vec<String> = values
            .iter()
            .map(|value| format!("{value}:{}", met(value)))
            .collect();
        let poor = if values.iter().any(|value| met(value) == 0) {
            " POOR"
        } else {
            ""
        };
        format!("jobs by {size:32} {}{poor}", each.join(" "))
    }

    fn line_of_refusals(&self, operation: usize, possible: &[usize]) -> String {
        let counts = &self.refusals[operation];
        let each: Vec<String> = possible
            .iter()
            .map(|&number| format!("{number}:{}", counts[number]))
            .collect();
        let missing = possible.iter().any(|&number| counts[number] == 0);
        let poor = if missing { " POOR" } else { "" };
        format!(
            "refusals of {:28} {}{poor}",
            OPERATIONS[operation],
            each.join(" ")
        )
    }
}

fn code_of(gate: &Gate) -> usize {
    usize::from(gate_record(gate)[0])
}

/// The depth of the deepest expression that a clause has for its guard.
fn deepest_guard(job: &Job) -> usize {
    let mut depths: Vec<usize> = Vec::new();
    for expression in &job.expressions {
        depths.push(match *expression {
            Expression::False | Expression::True | Expression::Variable(_) => 1,
            Expression::Not(a) => 1 + depths[a],
            Expression::And(a, b) | Expression::Or(a, b) | Expression::Xor(a, b) => {
                1 + depths[a].max(depths[b])
            }
        });
    }
    let guards = job.clauses.iter().map(|clause| depths[clause.guard]);
    guards.max().unwrap_or(0)
}
