//! Rows, the answer for one case and the answer for a whole job, one case and one node at a time.

use super::stored::{Clause, Expression, Gate, Job, Side, Value};
use Value::{One, Zero, X};

#[derive(Clone, Copy, Debug, PartialEq, Eq)]
pub struct Miss {
    pub time: usize,
    pub node: usize,
    pub wanted: Value,
    pub found: Value,
}

#[derive(Clone, Copy, Debug, PartialEq, Eq)]
pub enum Answer {
    Passes,
    Empty { time: usize, node: usize },
    Fails(Miss),
}

/// An answer, with what the answer does not show but the spread of the generated jobs needs.
#[derive(Clone, Copy, Debug, PartialEq, Eq)]
pub struct Story {
    pub answer: Answer,
    pub missed_before_collision: bool,
    pub collided_with_gate: bool,
}

#[derive(Clone, Copy, Debug, PartialEq, Eq)]
pub struct Counts {
    pub cases: u64,
    pub passing: u64,
    pub failing: u64,
    pub empty: u64,
}

#[derive(Clone, Copy, Debug, PartialEq, Eq)]
pub enum Verdict {
    Holds,
    Fails { case: u64, miss: Miss },
    Vacant { case: u64, time: usize, node: usize },
}

pub fn not(p: Value) -> Value {
    match p {
        Zero => One,
        One => Zero,
        X => X,
    }
}

pub fn and(p: Value, q: Value) -> Value {
    match (p, q) {
        (Zero, _) | (_, Zero) => Zero,
        (One, One) => One,
        _ => X,
    }
}

pub fn or(p: Value, q: Value) -> Value {
    match (p, q) {
        (One, _) | (_, One) => One,
        (Zero, Zero) => Zero,
        _ => X,
    }
}

pub fn xor(p: Value, q: Value) -> Value {
    match (p, q) {
        (X, _) | (_, X) => X,
        _ if p == q => Zero,
        _ => One,
    }
}

pub fn mux(p: Value, q: Value, r: Value) -> Value {
    match p {
        _ if q == r => q,
        One => q,
        Zero => r,
        X => X,
    }
}

/// What a gate forces one step after the row.
pub fn forced_by(gate: &Gate, row: &[Value]) -> Value {
    match *gate {
        Gate::Input => X,
        Gate::Zero => Zero,
        Gate::One => One,
        Gate::Buf(p) => row[p],
        Gate::Not(p) => not(row[p]),
        Gate::And(p, q) => and(row[p], row[q]),
        Gate::Or(p, q) => or(row[p], row[q]),
        Gate::Xor(p, q) => xor(row[p], row[q]),
        Gate::Mux(p, q, r) => mux(row[p], row[q], row[r]),
    }
}

pub fn forced_row(gates: &[Gate], row: &[Value]) -> Vec<Value> {
    gates.iter().map(|gate| forced_by(gate, row)).collect()
}

/// Nothing is the collision of 0 with 1.
pub fn join(one: Value, other: Value) -> Option<Value> {
    match (one, other) {
        (X, value) | (value, X) => Some(value),
        _ if one == other => Some(one),
        _ => None,
    }
}

/// The truth of every expression in a case.
pub fn truths(expressions: &[Expression], case: u64) -> Vec<bool> {
    let mut truths: Vec<bool> = Vec::with_capacity(expressions.len());
    for expression in expressions {
        let truth = match *expression {
            Expression::False => false,
            Expression::True => true,
            Expression::Variable(i) => case >> i & 1 == 1,
            Expression::Not(a) => !truths[a],
            Expression::And(a, b) => truths[a] && truths[b],
            Expression::Or(a, b) => truths[a] || truths[b],
            Expression::Xor(a, b) => truths[a] != truths[b],
        };
        truths.push(truth);
    }
    truths
}

pub fn last_time(job: &Job) -> usize {
    let times = job.clauses.iter().map(|clause| clause.time);
    times.max().unwrap_or(0)
}

/// The clauses of a side that speak at a time.
pub fn speaking<'a>(
    job: &'a Job,
    truths: &'a [bool],
    side: Side,
    time: usize,
) -> impl Iterator<Item = &'a Clause> {
    let speaks = move |c: &&Clause| c.time == time && c.side == side && truths[c.guard];
    job.clauses.iter().filter(speaks)
}

/// The row of a time from what the gates forced, or the lowest node that collides.
pub fn join_stimulus(
    job: &Job,
    truths: &[bool],
    time: usize,
    forced: &[Value],
) -> Result<Vec<Value>, usize> {
    let mut row = forced.to_vec();
    let mut lowest: Option<usize> = None;
    for clause in speaking(job, truths, Side::Stimulus, time) {
        match join(row[clause.node], clause.value) {
            Some(value) => row[clause.node] = value,
            None => lowest = Some(lowest.map_or(clause.node, |low| low.min(clause.node))),
        }
    }
    match lowest {
        Some(node) => Err(node),
        None => Ok(row),
    }
}

/// The miss at the least node of a row; of two clauses missed there, the one that wants 0.
pub fn first_miss(job: &Job, truths: &[bool], time: usize, row: &[Value]) -> Option<Miss> {
    let missed = speaking(job, truths, Side::Expectation, time)
        .filter(|clause| row[clause.node] != clause.value)
        .min_by_key(|clause| (clause.node, clause.value == One))?;
    Some(Miss {
        time,
        node: missed.node,
        wanted: missed.value,
        found: row[missed.node],
    })
}

/// What the gates force at a time: nothing at time 0, however constant the gate.
pub fn forced_at(job: &Job, time: usize, row_before: &[Value]) -> Vec<Value> {
    if time == 0 {
        vec![X; job.gates.len()]
    } else {
        forced_row(&job.gates, row_before)
    }
}

pub fn story(job: &Job, case: u64) -> Story {
    let truths = truths(&job.expressions, case);
    let mut row = Vec::new();
    let mut miss: Option<Miss> = None;
    for time in 0..=last_time(job) {
        let forced = forced_at(job, time, &row);
        match join_stimulus(job, &truths, time, &forced) {
            Ok(joined) => row = joined,
            Err(node) => {
                return Story {
                    answer: Answer::Empty { time, node },
                    missed_before_collision: miss.is_some(),
                    collided_with_gate: forced[node] != X,
                }
            }
        }
        miss = miss.or_else(|| first_miss(job, &truths, time, &row));
    }
    Story {
        answer: miss.map_or(Answer::Passes, Answer::Fails),
        missed_before_collision: false,
        collided_with_gate: false,
    }
}

pub fn one_case(job: &Job, case: u64) -> Answer {
    story(job, case).answer
}

/// The row of a case at any time, nothing if the case collides by then.
pub fn row(job: &Job, case: u64, time: usize) -> Option<Vec<Value>> {
    let truths = truths(&job.expressions, case);
    let mut row = Vec::new();
    for time in 0..=time {
        let forced = forced_at(job, time, &row);
        row = join_stimulus(job, &truths, time, &forced).ok()?;
    }
    Some(row)
}

pub fn stories(job: &Job) -> Vec<Story> {
    (0..1 << job.k).map(|case| story(job, case)).collect()
}

pub fn counts(stories: &[Story]) -> Counts {
    let count = |wanted: fn(&Answer) -> bool| {
        stories.iter().filter(|story| wanted(&story.answer)).count() as u64
    };
    Counts {
        cases: stories.len() as u64,
        passing: count(|answer| matches!(answer, Answer::Passes)),
        failing: count(|answer| matches!(answer, Answer::Fails(_))),
        empty: count(|answer| matches!(answer, Answer::Empty { .. })),
    }
}

pub fn verdict(stories: &[Story]) -> Verdict {
    let answers = || (0..).zip(stories).map(|(case, story)| (case, story.answer));
    let failing = answers().find_map(|(case, answer)| match answer {
        Answer::Fails(miss) => Some(Verdict::Fails { case, miss }),
        _ => None,
    });
    let empty = answers().find_map(|(case, answer)| match answer {
        Answer::Empty { time, node } => Some(Verdict::Vacant { case, time, node }),
        _ => None,
    });
    failing.or(empty).unwrap_or(Verdict::Holds)
}
