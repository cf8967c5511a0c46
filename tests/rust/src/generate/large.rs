//! Jobs as large as the limits allow in which nothing ends early: no collision, and a failure in the last case only.

use super::draft::{clause_record, expression_record, gate_record, Draft};
use super::random::Random;
use crate::baseline::{guard_words, Netlist, Row, UNKNOWN_ROW};
use crate::checker::stored::{Clause, Expression, Gate, Side, Value};

const K: usize = 12;
const N: usize = 1_008;
const GROUPS: usize = 1 << (K - 6);
const LAST_CASE: u64 = (1 << K) - 1;
const LAST_TIME: usize = 255;
const EXPRESSIONS: usize = 504;
const ALWAYS: usize = 0;

#[derive(Clone, Copy)]
pub struct Large {
    pub clauses: usize,
    /// How many of a hundred nodes are inputs or constants.
    pub fixed: usize,
}

struct Build {
    random: Random,
    gates: Vec<Gate>,
    expressions: Vec<Expression>,
    only_last_case: usize,
    clauses: Vec<Clause>,
    /// The words of every expression, by group.
    guards: Vec<Vec<u64>>,
    rows: Vec<Row>,
}

/// Every case is followed, which the words make cheap enough.
pub fn large_job(large: Large, seed: u64) -> Vec<u8> {
    let mut random = Random::new(seed, 0);
    let gates = gates(large.fixed, &mut random);
    let (expressions, only_last_case) = expressions(&mut random);
    let words = |group| {
        let mut words = Vec::new();
        guard_words(&expressions, group, &mut words);
        words
    };
    let mut build = Build {
        guards: (0..GROUPS).map(words).collect(),
        random,
        gates,
        expressions,
        only_last_case,
        clauses: Vec::new(),
        rows: vec![UNKNOWN_ROW; GROUPS],
    };
    build.write_clauses(large.clauses);
    build.bytes()
}

/// The first nodes keep a variable each, so that the cases differ at every time.
fn gates(fixed: usize, random: &mut Random) -> Vec<Gate> {
    let gate = |node: usize| match node {
        0..K => Gate::Buf(node),
        _ if random.below(100) < fixed => random.pick(&[Gate::Input, Gate::Zero, Gate::One]),
        _ => mixed_gate(random),
    };
    (0..N).map(gate).collect()
}

fn mixed_gate(random: &mut Random) -> Gate {
    let mut operand = || {
        if random.one_in(5) {
            random.below(K)
        } else {
            random.below(N)
        }
    };
    let [p, q, r] = [operand(), operand(), operand()];
    match random.below(6) {
        0 => Gate::Buf(p),
        1 => Gate::Not(p),
        2 => Gate::And(p, q),
        3 => Gate::Or(p, q),
        4 => Gate::Xor(p, q),
        _ => Gate::Mux(p, q, r),
    }
}

/// TRUE, the variables, their NOTs, a guard for the last case, then anything up to the limit.
fn expressions(random: &mut Random) -> (Vec<Expression>, usize) {
    let mut list = vec![Expression::True];
    list.extend((0..K).map(Expression::Variable));
    list.extend((1..=K).map(Expression::Not));
    list.push(Expression::And(1, 2));
    for variable in 3..=K {
        list.push(Expression::And(list.len() - 1, variable));
    }
    let only_last_case = list.len() - 1;
    while list.len() < EXPRESSIONS {
        let (a, b) = (random.below(list.len()), random.below(list.len()));
        list.push(match random.below(3) {
            0 => Expression::And(a, b),
            1 => Expression::Or(a, b),
            _ => Expression::Xor(a, b),
        });
    }
    (list, only_last_case)
}

impl Build {
    fn write_clauses(&mut self, count: usize) {
        let netlist = Netlist::new(&self.gates);
        for time in 0..=LAST_TIME {
            if time > 0 {
                self.step(&netlist);
            } else {
                self.set_the_variables(count);
            }
            // one clause is kept for the end
            let due = (count - 1) * (time + 1) / (LAST_TIME + 1);
            for _ in 0..400 {
                if self.clauses.len() < due {
                    self.try_clause(time);
                }
            }
        }
        self.fail_in_the_last_case();
    }

    fn step(&mut self, netlist: &Netlist) {
        for row in &mut self.rows {
            let mut forced = UNKNOWN_ROW;
            netlist.set_fixed(&mut forced);
            netlist.force(row, &mut forced);
            *row = forced;
        }
    }

    fn set_the_variables(&mut self, count: usize) {
        for variable in 0..K.min(count / 4) {
            let (positive, negative) = (1 + variable, 1 + K + variable);
            self.try_stimulus(variable, Value::One, positive, 0);
            self.try_stimulus(variable, Value::Zero, negative, 0);
        }
    }

    fn try_clause(&mut self, time: usize) {
        let node = self.random.below(N);
        let guard = if self.random.one_in(4) {
            ALWAYS
        } else {
            self.random.below(EXPRESSIONS)
        };
        let value = self.random.pick(&[Value::Zero, Value::One]);
        if self.random.one_in(3) {
            self.try_stimulus(node, value, guard, time);
        } else {
            self.try_expectation(node, value, guard, time);
        }
    }

    /// Whether in each group the places of the guard are among those that the word chosen has.
    fn wherever(&self, node: usize, guard: usize, word: impl Fn(u64, u64) -> u64) -> bool {
        let inside = |(row, guards): (&Row, &Vec<u64>)| {
            guards[guard] & !word(row[node].zero, row[node].one) == 0
        };
        self.rows.iter().zip(&self.guards).all(inside)
    }

    fn try_stimulus(&mut self, node: usize, value: Value, guard: usize, time: usize) {
        let one = value == Value::One;
        if !self.wherever(
            node,
            guard,
            |zero, could_be_one| {
                if one {
                    could_be_one
                } else {
                    zero
                }
            },
        ) {
            return;
        }
        for (row, guards) in self.rows.iter_mut().zip(&self.guards) {
            if one {
                row[node].zero &= !guards[guard];
            } else {
                row[node].one &= !guards[guard];
            }
        }
        self.add(Side::Stimulus, value, node, time, guard);
    }

    fn try_expectation(&mut self, node: usize, value: Value, guard: usize, time: usize) {
        let one = value == Value::One;
        if self.wherever(
            node,
            guard,
            |zero, could_be_one| {
                if one {
                    !zero
                } else {
                    !could_be_one
                }
            },
        ) {
            self.add(Side::Expectation, value, node, time, guard);
        }
    }

    fn fail_in_the_last_case(&mut self) {
        let node = N - 1;
        let pair = self.rows[GROUPS - 1][node];
        let place = LAST_CASE % 64;
        let is_one = pair.zero >> place & 1 == 0;
        let wanted = if is_one { Value::Zero } else { Value::One };
        let guard = self.only_last_case;
        self.add(Side::Expectation, wanted, node, LAST_TIME, guard);
    }

    fn add(&mut self, side: Side, value: Value, node: usize, time: usize, guard: usize) {
        self.clauses.push(Clause {
            side,
            value,
            node,
            time,
            guard,
        });
    }

    fn bytes(&self) -> Vec<u8> {
        let draft = Draft {
            k: K as u8,
            nodes: self.gates.iter().map(gate_record).collect(),
            expressions: self.expressions.iter().map(expression_record).collect(),
            clauses: self.clauses.iter().map(clause_record).collect(),
        };
        draft.bytes()
    }
}
