//! Accepted jobs with a chosen answer. Clauses at random mostly fail in case 0 and show little, so the stimulus is
//! kept in step with the rows and the expectation is read off them; then chosen cases are spoilt.

use super::draft::{clause_record, expression_record, gate_record, Draft};
use super::guards::Guards;
use super::random::Random;
use super::shape::{Plan, Shape};
use crate::checker::runs::{forced_by, forced_row, not};
use crate::checker::stored::{Clause, Gate, Side, Value};
use Value::{One, Zero, X};

/// Beyond this many values in the rows of a job only some of its cases are followed.
const MOST_FOLLOWED_VALUES: usize = 400_000;

/// Leaves room for the guards that pick one case.
const MOST_GUARDS_TO_CHOOSE_FROM: usize = 150;

struct Build<'r> {
    random: &'r mut Random,
    shape: Shape,
    gates: Vec<Gate>,
    /// The followed cases, in order.
    cases: Vec<u64>,
    guards: Guards,
    clauses: Vec<Clause>,
    /// The rows by time, then by index of followed case.
    rows: Vec<Vec<Vec<Value>>>,
    /// Whether all is to happen at the last time.
    late: bool,
}

pub fn draft(mut shape: Shape, random: &mut Random) -> Draft {
    if shape.plan == Plan::MissThenCollision {
        shape.last_time = shape.last_time.max(1);
    }
    let gates = netlist(shape.n, random);
    let cases = followed_cases(&shape, random);
    let mut build = Build {
        random,
        shape,
        gates,
        guards: Guards::new(shape.k, &cases),
        cases,
        clauses: Vec::new(),
        rows: Vec::new(),
        late: false,
    };
    if !shape.bare {
        build.write_clauses();
    }
    build.finish()
}

fn netlist(n: usize, random: &mut Random) -> Vec<Gate> {
    let theme = random.below(8);
    let gate = |own: usize| match theme {
        0 => latch(own, n, random),
        1 => chain_link(own, random),
        2 if own % 2 == 0 => random.pick(&[Gate::Input, Gate::Zero, Gate::One]),
        _ => any_gate(own, n, random),
    };
    (0..n).map(gate).collect()
}

fn operand(own: usize, n: usize, random: &mut Random) -> usize {
    match random.below(6) {
        0 => own,
        1 | 2 => (own + n - random.below(n.min(4))) % n,
        3 => n - 1 - random.below(n.min(2)),
        _ => random.below(n),
    }
}

fn any_gate(own: usize, n: usize, random: &mut Random) -> Gate {
    let [p, q, r] = [(); 3].map(|_| operand(own, n, random));
    match random.below(20) {
        0..=3 => Gate::Input,
        4 => Gate::Zero,
        5 => Gate::One,
        6 | 7 => Gate::Buf(p),
        8 | 9 => Gate::Not(p),
        10..=12 => Gate::And(p, q),
        13..=15 => Gate::Or(p, q),
        16 | 17 => Gate::Xor(p, q),
        _ => Gate::Mux(p, q, r),
    }
}

/// Gates that keep what they had, now and then an input to set them.
fn latch(own: usize, n: usize, random: &mut Random) -> Gate {
    let [p, q] = [(); 2].map(|_| operand(own, n, random));
    match random.below(7) {
        0 | 1 => Gate::Input,
        2 => Gate::Buf(own),
        3 => Gate::And(p, own),
        4 => Gate::Or(own, p),
        5 => Gate::Xor(own, p),
        _ => Gate::Mux(p, q, own),
    }
}

fn chain_link(own: usize, random: &mut Random) -> Gate {
    match own {
        0 => random.pick(&[Gate::Input, Gate::Not(0), Gate::One]),
        _ if random.one_in(3) => Gate::Not(own - 1),
        _ => Gate::Buf(own - 1),
    }
}

fn followed_cases(shape: &Shape, random: &mut Random) -> Vec<u64> {
    let all = 1_u64 << shape.k;
    let values_of_a_case = shape.n * (shape.last_time + 1);
    if all as usize * values_of_a_case <= MOST_FOLLOWED_VALUES {
        return (0..all).collect();
    }
    let at_random = (0..12).map(|_| random.next() % all).collect();
    let at_edges = vec![0, 63, 64, all - 1];
    let mut cases: Vec<u64> = [at_random, at_edges].concat();
    cases.retain(|&case| case < all);
    if shape.few_alive {
        cases.iter_mut().for_each(|case| *case |= 0xF00);
    }
    cases.sort();
    cases.dedup();
    cases
}

impl Build<'_> {
    fn write_clauses(&mut self) {
        self.guards.add_some(self.random);
        if self.random.one_in(2) {
            // so that clauses and expressions speak of high indices too
            let kept_free = if self.shape.deep_guards { 300 } else { 120 };
            let early = self.shape.expressions.saturating_sub(kept_free);
            self.guards.fill_up_to(early, self.random);
        }
        if self.shape.few_alive {
            self.collide_outside_the_last_sixteenth();
        }
        if self.shape.plan == Plan::Wild {
            self.write_wildly();
            return;
        }
        self.drive();
        self.expect_what_is();
        if self.random.one_in(2) || self.shape.last_time == 255 {
            self.reach_last_time();
        }
        self.follow_plan();
    }

    fn add(&mut self, side: Side, value: Value, node: usize, time: usize, guard: usize) {
        self.clauses.push(Clause {
            side,
            value,
            node,
            time,
            guard,
        });
    }

    fn any_value(&mut self) -> Value {
        self.random.pick(&[Zero, One])
    }

    fn any_node(&mut self) -> usize {
        self.random.below(self.shape.n)
    }

    fn any_time(&mut self) -> usize {
        match self.random.below(6) {
            0 if !self.late => 0,
            1 => self.shape.last_time,
            _ if self.late => self.shape.last_time,
            _ => self.random.below(self.shape.last_time + 1),
        }
    }

    fn collide_outside_the_last_sixteenth(&mut self) {
        let inside = self.guards.alike(0xF00, &[8, 9, 10, 11]);
        let outside = self.guards.not(inside);
        self.add(Side::Stimulus, Zero, 0, 0, outside);
        self.add(Side::Stimulus, One, 0, 0, outside);
    }

    fn write_wildly(&mut self) {
        for _ in 0..self.random.between(1, 12) {
            let side = self.random.pick(&[Side::Stimulus, Side::Expectation]);
            let (value, node, time) = (self.any_value(), self.any_node(), self.any_time());
            let guard = self.guards.any(self.random);
            self.add(side, value, node, time, guard);
        }
    }

    /// Runs the followed cases and adds stimulus that agrees with their rows.
    fn drive(&mut self) {
        for time in 0..=self.shape.last_time {
            let mut now: Vec<Vec<Value>> = (0..self.cases.len())
                .map(|at| self.forced(time, at))
                .collect();
            for _ in 0..self.tries_at(time) {
                self.try_stimulus(time, &mut now);
            }
            self.rows.push(now);
        }
    }

    fn forced(&self, time: usize, at: usize) -> Vec<Value> {
        if time == 0 {
            vec![X; self.shape.n]
        } else {
            forced_row(&self.gates, &self.rows[time - 1][at])
        }
    }

    fn tries_at(&mut self, time: usize) -> usize {
        let n = self.shape.n;
        if time == 0 {
            self.random.below(n.min(100) + 2)
        } else if self.shape.last_time > 20 {
            usize::from(self.random.one_in(10))
        } else {
            self.random.below(n.min(4) + 1)
        }
    }

    fn try_stimulus(&mut self, time: usize, now: &mut [Vec<Value>]) {
        let (node, value) = (self.any_node(), self.any_value());
        let guard = self.guards.any(self.random);
        self.stimulate_if_agreed(node, value, guard, time, now);
        if self.random.one_in(2) && self.guards.list.len() < MOST_GUARDS_TO_CHOOSE_FROM {
            let otherwise = self.guards.not(guard);
            self.stimulate_if_agreed(node, not(value), otherwise, time, now);
        }
    }

    fn stimulate_if_agreed(
        &mut self,
        node: usize,
        value: Value,
        guard: usize,
        time: usize,
        now: &mut [Vec<Value>],
    ) {
        let told: Vec<usize> = (0..now.len())
            .filter(|&at| self.guards.truth(guard, at))
            .collect();
        if told.iter().all(|&at| now[at][node] != not(value)) {
            told.iter().for_each(|&at| now[at][node] = value);
            self.add(Side::Stimulus, value, node, time, guard);
        }
    }

    fn expect_what_is(&mut self) {
        let tries = self.random.below(40);
        for _ in 0..tries {
            let (node, time) = (self.any_node(), self.any_time());
            let guard = self.guards.any(self.random);
            if let Some(value) = self.value_wherever(guard, node, time) {
                self.add(Side::Expectation, value, node, time, guard);
            }
        }
    }

    /// The value that a node has in every followed case in which the guard is true.
    fn value_wherever(&self, guard: usize, node: usize, time: usize) -> Option<Value> {
        let row = &self.rows[time];
        let mut told = (0..row.len()).filter(|&at| self.guards.truth(guard, at));
        let value = row[told.next()?][node];
        (value != X && told.all(|at| row[at][node] == value)).then_some(value)
    }

    /// A clause that speaks in no case still moves the last time.
    fn reach_last_time(&mut self) {
        let never = self.guards.never();
        let (value, node) = (self.any_value(), self.any_node());
        let side = self.random.pick(&[Side::Stimulus, Side::Expectation]);
        self.add(side, value, node, self.shape.last_time, never);
    }

    fn follow_plan(&mut self) {
        self.late = self.random.one_in(4);
        match self.shape.plan {
            Plan::Holds | Plan::Wild => {}
            Plan::FailsOnce => self.spoil_once(Self::miss),
            Plan::FailsWidely => self.spoil_widely(Self::miss),
            Plan::VacantOnce => self.spoil_once(Self::collide),
            Plan::VacantWidely => self.spoil_widely(Self::collide),
            Plan::MissThenCollision => self.spoil_once(Self::miss_then_collide),
            Plan::Mixed => {
                self.spoil_once(Self::miss);
                self.spoil_once(Self::collide);
                if self.shape.last_time > 0 {
                    self.spoil_once(Self::miss_then_collide);
                }
            }
        }
    }

    /// The index of a followed case, beyond the first sixty-four where there are more.
    fn choose_case(&mut self) -> usize {
        let first_beyond = self.cases.partition_point(|&case| case < 64);
        let count = self.cases.len();
        if first_beyond == count || self.random.one_in(5) {
            self.random.below(count)
        } else if self.random.one_in(8) {
            count - 1
        } else {
            self.random.between(first_beyond, count - 1)
        }
    }

    fn spoil_once(&mut self, spoil: fn(&mut Self, usize, usize)) {
        let at = self.choose_case();
        let mut guard = self.guards.only(self.cases[at], self.random);
        if self.shape.deep_guards {
            let steps = self.random.between(20, 70);
            guard = self.guards.deepen(guard, steps);
        }
        spoil(self, at, guard);
    }

    fn spoil_widely(&mut self, spoil: fn(&mut Self, usize, usize)) {
        let at = self.choose_case();
        let guard = self.guards.around(self.cases[at], self.random);
        spoil(self, at, guard);
    }

    fn miss(&mut self, at: usize, guard: usize) {
        for _ in 0..self.random.between(1, 4) {
            let (node, time) = (self.any_node(), self.any_time());
            self.expect_what_is_not(at, guard, node, time);
        }
    }

    fn expect_what_is_not(&mut self, at: usize, guard: usize, node: usize, time: usize) {
        let found = self.rows[time][at][node];
        let wanted = if found == X {
            self.any_value()
        } else {
            not(found)
        };
        self.add(Side::Expectation, wanted, node, time, guard);
        if found == X && self.random.one_in(2) {
            self.add(Side::Expectation, not(wanted), node, time, guard);
        }
    }

    fn collide(&mut self, at: usize, guard: usize) {
        let time = self.any_time();
        self.collide_at(at, guard, time);
    }

    fn collide_at(&mut self, at: usize, guard: usize, time: usize) {
        let against_gates = self.random.one_in(2);
        for _ in 0..self.random.between(1, 3) {
            if !against_gates || !self.collide_with_a_gate(at, guard, time) {
                self.collide_with_a_clause(at, guard, time);
            }
        }
    }

    fn collide_with_a_gate(&mut self, at: usize, guard: usize, time: usize) -> bool {
        let Some(before) = time.checked_sub(1) else {
            return false;
        };
        for _ in 0..20 {
            let node = self.any_node();
            let forced = forced_by(&self.gates[node], &self.rows[before][at]);
            if forced != X {
                self.add(Side::Stimulus, not(forced), node, time, guard);
                return true;
            }
        }
        false
    }

    fn collide_with_a_clause(&mut self, at: usize, guard: usize, time: usize) {
        let node = self.any_node();
        let has = self.rows[time][at][node];
        for value in [Zero, One] {
            if value != has {
                self.add(Side::Stimulus, value, node, time, guard);
            }
        }
    }

    fn miss_then_collide(&mut self, at: usize, guard: usize) {
        let collision = self.random.between(1, self.shape.last_time);
        let (node, time) = (self.any_node(), self.random.below(collision));
        self.expect_what_is_not(at, guard, node, time);
        self.collide_at(at, guard, collision);
    }

    fn finish(mut self) -> Draft {
        self.fill_clauses();
        self.guards.fill_up_to(self.shape.expressions, self.random);
        self.random.shuffle(&mut self.clauses);
        Draft {
            k: self.shape.k as u8,
            nodes: self.gates.iter().map(gate_record).collect(),
            expressions: self.guards.list.iter().map(expression_record).collect(),
            clauses: self.clauses.iter().map(clause_record).collect(),
        }
    }

    /// Clauses said again change no answer.
    fn fill_clauses(&mut self) {
        if self.shape.clauses > 0 && self.clauses.is_empty() {
            self.reach_last_time();
        }
        while self.clauses.len() < self.shape.clauses {
            let again = self.random.below(self.clauses.len());
            self.clauses.push(self.clauses[again]);
        }
    }
}
