//! A plain checker written for speed, to measure the product against: sixty-four cases at a time.

use crate::checker::operations::{outcome_of_verdict, Outcome};
use crate::checker::runs::{Counts, Miss, Verdict};
use crate::checker::stored::{
    self, Clause, Expression, Gate, Job, Side, Value, MOST_NODES, MOST_TIME,
};
use std::ops::Range;

/// A power of two above every index, so that a masked index needs no check.
const ROOM: usize = 1_024;
const _: () = assert!(MOST_NODES <= ROOM);

/// A node in sixty-four cases: where it could be 0 and where it could be 1.
#[derive(Clone, Copy)]
pub struct Pair {
    pub zero: u64,
    pub one: u64,
}

const UNKNOWN: Pair = Pair { zero: !0, one: !0 };
const ALL_ZERO: Pair = Pair { zero: !0, one: 0 };
const ALL_ONE: Pair = Pair { zero: 0, one: !0 };

pub type Row = [Pair; ROOM];

pub const UNKNOWN_ROW: Row = [UNKNOWN; ROOM];

/// The word of a variable below 6: runs of 2^i places, clear and set in turn.
fn variable(i: usize) -> u64 {
    let run = 1_u64 << i;
    (!0 / ((1 << run) + 1)) << run
}

/// The node forced, then its operands.
type One = [u16; 2];
type Two = [u16; 3];
type Three = [u16; 4];

/// The gates sorted by kind: a row is forced from the one before, so their order does not matter.
pub struct Netlist {
    /// Inputs and constants, which force the same at every time.
    fixed: Vec<(u16, Pair)>,
    bufs: Vec<One>,
    nots: Vec<One>,
    ands: Vec<Two>,
    ors: Vec<Two>,
    xors: Vec<Two>,
    muxes: Vec<Three>,
}

#[derive(Clone, Copy)]
struct Told {
    node: u16,
    guard: u16,
    one: bool,
}

/// Things sorted by their time.
struct ByTime<T> {
    list: Vec<T>,
    starts: Vec<usize>,
}

impl<T: Copy> ByTime<T> {
    fn new(mut timed: Vec<(usize, T)>) -> ByTime<T> {
        timed.sort_by_key(|(time, _)| *time);
        let start = |time: usize| timed.partition_point(|(other, _)| *other < time);
        ByTime {
            starts: (0..=MOST_TIME + 1).map(start).collect(),
            list: timed.iter().map(|(_, thing)| *thing).collect(),
        }
    }

    fn range(&self, time: usize) -> Range<usize> {
        self.starts[time]..self.starts[time + 1]
    }

    fn at(&self, time: usize) -> &[T] {
        &self.list[self.range(time)]
    }
}

struct Plan {
    k: usize,
    netlist: Netlist,
    expressions: Vec<Expression>,
    stimulus: ByTime<Told>,
    expectation: ByTime<Told>,
    /// Fixed nodes that a stimulus changes, with what they are to be again when the row is used anew.
    restored: ByTime<(u16, Pair)>,
    last_time: usize,
}

/// What the loops work on, made once.
struct Work {
    guards: Vec<u64>,
    rows: Box<[Row; 2]>,
}

fn index(of: u16) -> usize {
    usize::from(of) & (ROOM - 1)
}

impl Netlist {
    pub fn new(gates: &[Gate]) -> Netlist {
        let mut netlist = Netlist {
            fixed: Vec::new(),
            bufs: Vec::new(),
            nots: Vec::new(),
            ands: Vec::new(),
            ors: Vec::new(),
            xors: Vec::new(),
            muxes: Vec::new(),
        };
        for (node, gate) in gates.iter().enumerate() {
            netlist.add(node as u16, gate);
        }
        netlist
    }

    fn add(&mut self, node: u16, gate: &Gate) {
        match *gate {
            Gate::Input => self.fixed.push((node, UNKNOWN)),
            Gate::Zero => self.fixed.push((node, ALL_ZERO)),
            Gate::One => self.fixed.push((node, ALL_ONE)),
            Gate::Buf(p) => self.bufs.push([node, p as u16]),
            Gate::Not(p) => self.nots.push([node, p as u16]),
            Gate::And(p, q) => self.ands.push([node, p as u16, q as u16]),
            Gate::Or(p, q) => self.ors.push([node, p as u16, q as u16]),
            Gate::Xor(p, q) => self.xors.push([node, p as u16, q as u16]),
            Gate::Mux(p, q, r) => self.muxes.push([node, p as u16, q as u16, r as u16]),
        }
    }

    pub fn set_fixed(&self, row: &mut Row) {
        for &(node, pair) in &self.fixed {
            row[index(node)] = pair;
        }
    }

    /// What the gates force, but for the fixed nodes, which the row has already.
    pub fn force(&self, from: &Row, to: &mut Row) {
        for &[node, p] in &self.bufs {
            to[index(node)] = from[index(p)];
        }
        for &[node, p] in &self.nots {
            let p = from[index(p)];
            to[index(node)] = Pair {
                zero: p.one,
                one: p.zero,
            };
        }
        for &[node, p, q] in &self.ands {
            let (p, q) = (from[index(p)], from[index(q)]);
            to[index(node)] = Pair {
                zero: p.zero | q.zero,
                one: p.one & q.one,
            };
        }
        for &[node, p, q] in &self.ors {
            let (p, q) = (from[index(p)], from[index(q)]);
            to[index(node)] = Pair {
                zero: p.zero & q.zero,
                one: p.one | q.one,
            };
        }
        for &[node, p, q] in &self.xors {
            let (p, q) = (from[index(p)], from[index(q)]);
            to[index(node)] = Pair {
                zero: p.zero & q.zero | p.one & q.one,
                one: p.zero & q.one | p.one & q.zero,
            };
        }
        for &[node, p, q, r] in &self.muxes {
            let (p, q, r) = (from[index(p)], from[index(q)], from[index(r)]);
            to[index(node)] = Pair {
                zero: p.one & q.zero | p.zero & r.zero,
                one: p.one & q.one | p.zero & r.one,
            };
        }
    }
}

/// The truth of every expression in the cases of a group.
pub fn guard_words(expressions: &[Expression], group: usize, words: &mut Vec<u64>) {
    words.clear();
    for expression in expressions {
        let word = match *expression {
            Expression::False => 0,
            Expression::True => !0,
            Expression::Variable(i) if i < 6 => variable(i),
            Expression::Variable(i) => 0_u64.wrapping_sub((group >> (i - 6) & 1) as u64),
            Expression::Not(a) => !words[a],
            Expression::And(a, b) => words[a] & words[b],
            Expression::Or(a, b) => words[a] | words[b],
            Expression::Xor(a, b) => words[a] ^ words[b],
        };
        words.push(word);
    }
}

fn told(job: &Job, side: Side) -> ByTime<Told> {
    let told = |clause: &Clause| {
        let told = Told {
            node: clause.node as u16,
            guard: clause.guard as u16,
            one: clause.value == Value::One,
        };
        (clause.time, told)
    };
    let of_side = job.clauses.iter().filter(|clause| clause.side == side);
    ByTime::new(of_side.map(told).collect())
}

fn restored(job: &Job, netlist: &Netlist) -> ByTime<(u16, Pair)> {
    let fixed_at = |clause: &Clause| {
        let node = clause.node as u16;
        let at = netlist
            .fixed
            .binary_search_by_key(&node, |(fixed, _)| *fixed);
        at.ok().map(|at| (clause.time, netlist.fixed[at]))
    };
    let stimulus = job.clauses.iter().filter(|c| c.side == Side::Stimulus);
    ByTime::new(stimulus.filter_map(fixed_at).collect())
}

impl Plan {
    fn new(job: Job) -> Plan {
        let netlist = Netlist::new(&job.gates);
        Plan {
            k: job.k,
            stimulus: told(&job, Side::Stimulus),
            expectation: told(&job, Side::Expectation),
            restored: restored(&job, &netlist),
            last_time: job.clauses.iter().map(|c| c.time).max().unwrap_or(0),
            expressions: job.expressions,
            netlist,
        }
    }

    fn groups(&self) -> usize {
        (1 << self.k) / 64_usize.min(1 << self.k)
    }

    /// The places of a word that stand for cases.
    fn places(&self) -> u64 {
        if self.k < 6 {
            (1 << (1 << self.k)) - 1
        } else {
            !0
        }
    }

    fn start(&self, group: usize, work: &mut Work) {
        guard_words(&self.expressions, group, &mut work.guards);
        work.rows[0] = UNKNOWN_ROW;
        self.netlist.set_fixed(&mut work.rows[1]);
    }

    /// Makes the row of a time in the one of two rows that is its turn, without the stimulus.
    fn force(&self, time: usize, rows: &mut [Row; 2]) {
        if time == 0 {
            return;
        }
        let [even, odd] = rows;
        let (from, to) = if time % 2 == 1 {
            (even, odd)
        } else {
            (odd, even)
        };
        self.netlist.force(from, to);
        if time == 1 {
            self.netlist.set_fixed(from);
        } else {
            for &(node, pair) in self.restored.at(time - 1) {
                from[index(node)] = pair;
            }
        }
    }

    /// Joins the stimulus of a time and gives the cases that collide.
    fn join(&self, time: usize, guards: &[u64], row: &mut Row) -> u64 {
        let mut colliding = 0;
        for told in self.stimulus.at(time) {
            let guard = guards[usize::from(told.guard)];
            let pair = &mut row[index(told.node)];
            if told.one {
                pair.zero &= !guard;
            } else {
                pair.one &= !guard;
            }
            colliding |= !(pair.zero | pair.one);
        }
        colliding
    }

    fn missed(told: &Told, guards: &[u64], row: &Row) -> u64 {
        let pair = row[index(told.node)];
        let other = if told.one { pair.zero } else { pair.one };
        guards[usize::from(told.guard)] & other
    }

    /// The empty and the failing cases of a group.
    fn run(&self, group: usize, work: &mut Work) -> (u64, u64) {
        self.start(group, work);
        let places = self.places();
        let (mut empty, mut missed) = (0, 0);
        for time in 0..=self.last_time {
            self.force(time, &mut work.rows);
            let row = &mut work.rows[time % 2];
            empty |= self.join(time, &work.guards, row) & places;
            if empty == places {
                break;
            }
            for told in self.expectation.at(time) {
                missed |= Plan::missed(told, &work.guards, row);
            }
        }
        (empty, missed & !empty & places)
    }

    /// The time and the lowest node at which a case collides.
    fn collision(&self, case: u64, work: &mut Work) -> (usize, usize) {
        let place = case % 64;
        self.start(case as usize / 64, work);
        for time in 0..=self.last_time {
            self.force(time, &mut work.rows);
            let row = &mut work.rows[time % 2];
            if self.join(time, &work.guards, row) >> place & 1 == 1 {
                let collides = |node: &usize| (row[*node].zero | row[*node].one) >> place & 1 == 0;
                let told = self.stimulus.at(time).iter();
                let nodes = told.map(|told| index(told.node));
                return (time, nodes.filter(collides).min().unwrap());
            }
        }
        unreachable!("case {case} does not collide")
    }

    fn first_miss(&self, case: u64, work: &mut Work) -> Miss {
        let place = case % 64;
        self.start(case as usize / 64, work);
        for time in 0..=self.last_time {
            self.force(time, &mut work.rows);
            let row = &mut work.rows[time % 2];
            self.join(time, &work.guards, row);
            let told = self.expectation.at(time).iter();
            let missed = told.filter(|t| Plan::missed(t, &work.guards, row) >> place & 1 == 1);
            if let Some(first) = missed.min_by_key(|told| (told.node, told.one)) {
                let pair = row[index(first.node)];
                return Miss {
                    time,
                    node: index(first.node),
                    wanted: if first.one { Value::One } else { Value::Zero },
                    found: match (pair.zero >> place & 1, pair.one >> place & 1) {
                        (1, 1) => Value::X,
                        (0, _) => Value::One,
                        _ => Value::Zero,
                    },
                };
            }
        }
        unreachable!("case {case} misses nothing")
    }
}

fn answer(plan: &Plan) -> Outcome {
    let mut work = Work {
        guards: Vec::with_capacity(plan.expressions.len()),
        rows: Box::new([UNKNOWN_ROW; 2]),
    };
    let (mut failing, mut empty) = (0, 0);
    let (mut first_failing, mut first_empty) = (None, None);
    for group in 0..plan.groups() {
        let (empty_here, failing_here) = plan.run(group, &mut work);
        empty += u64::from(empty_here.count_ones());
        failing += u64::from(failing_here.count_ones());
        let least = |word: u64| 64 * group as u64 + u64::from(word.trailing_zeros());
        if first_failing.is_none() && failing_here != 0 {
            first_failing = Some(least(failing_here));
        }
        if first_empty.is_none() && empty_here != 0 {
            first_empty = Some(least(empty_here));
        }
    }
    let cases = 1 << plan.k;
    let counts = Counts {
        cases,
        passing: cases - failing - empty,
        failing,
        empty,
    };
    let verdict = match (first_failing, first_empty) {
        (Some(case), _) => Verdict::Fails {
            case,
            miss: plan.first_miss(case, &mut work),
        },
        (None, Some(case)) => {
            let (time, node) = plan.collision(case, &mut work);
            Verdict::Vacant { case, time, node }
        }
        (None, None) => Verdict::Holds,
    };
    outcome_of_verdict(&counts, &verdict)
}

pub fn check(bytes: &[u8]) -> Outcome {
    match stored::read(bytes) {
        Err(refusal) => Outcome::refused(refusal),
        Ok(job) => answer(&Plan::new(job)),
    }
}

#[cfg(test)]
mod tests {
    use crate::checker::operations;
    use crate::generate::sample;

    /// The three largest jobs are left to `compare --self`.
    #[test]
    fn agrees_with_the_second_checker() {
        for index in (0..2_000).filter(|index| ![150, 450, 777, 1_500].contains(index)) {
            let job = sample(7, index).job;
            let (fast, slow) = (super::check(&job), operations::check(&job));
            assert_eq!(fast, slow, "seed 7, job {index}");
        }
    }
}
