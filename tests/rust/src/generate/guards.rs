//! Expressions being gathered, with their truth in the cases that the generator follows.

use super::random::Random;
use crate::checker::stored::{Expression, MOST_EXPRESSIONS};

pub struct Guards {
    k: usize,
    cases: Vec<u64>,
    pub list: Vec<Expression>,
    truths: Vec<Vec<bool>>,
}

impl Guards {
    pub fn new(k: usize, cases: &[u64]) -> Guards {
        Guards {
            k,
            cases: cases.to_vec(),
            list: Vec::new(),
            truths: Vec::new(),
        }
    }

    /// The truth of an expression in the followed case of that index.
    pub fn truth(&self, guard: usize, at: usize) -> bool {
        self.truths[guard][at]
    }

    /// The index of the expression, which is added if it is new.
    pub fn add(&mut self, expression: Expression) -> usize {
        let known = self.list.iter().position(|other| *other == expression);
        known.unwrap_or_else(|| self.append(expression))
    }

    fn append(&mut self, expression: Expression) -> usize {
        let truth = |at: usize| match expression {
            Expression::False => false,
            Expression::True => true,
            Expression::Variable(i) => self.cases[at] >> i & 1 == 1,
            Expression::Not(a) => !self.truths[a][at],
            Expression::And(a, b) => self.truths[a][at] & self.truths[b][at],
            Expression::Or(a, b) => self.truths[a][at] | self.truths[b][at],
            Expression::Xor(a, b) => self.truths[a][at] ^ self.truths[b][at],
        };
        let truths = (0..self.cases.len()).map(truth).collect();
        self.list.push(expression);
        self.truths.push(truths);
        self.list.len() - 1
    }

    pub fn always(&mut self) -> usize {
        self.add(Expression::True)
    }

    pub fn never(&mut self) -> usize {
        self.add(Expression::False)
    }

    pub fn not(&mut self, guard: usize) -> usize {
        self.add(Expression::Not(guard))
    }

    /// True where a variable is what it is in the case.
    fn literal(&mut self, variable: usize, case: u64) -> usize {
        let positive = self.add(Expression::Variable(variable));
        if case >> variable & 1 == 1 {
            positive
        } else {
            self.not(positive)
        }
    }

    /// True where all the variables named are what they are in the case.
    pub fn alike(&mut self, case: u64, variables: &[usize]) -> usize {
        let mut guard = None;
        for &variable in variables {
            let literal = self.literal(variable, case);
            guard = Some(match guard {
                None => literal,
                Some(so_far) => self.add(Expression::And(so_far, literal)),
            });
        }
        guard.unwrap_or_else(|| self.always())
    }

    /// True in one case only.
    pub fn only(&mut self, case: u64, random: &mut Random) -> usize {
        let mut variables: Vec<usize> = (0..self.k).collect();
        random.shuffle(&mut variables);
        self.alike(case, &variables)
    }

    /// True in the case and in others that are like it in a few variables.
    pub fn around(&mut self, case: u64, random: &mut Random) -> usize {
        let mut variables: Vec<usize> = (0..self.k).collect();
        random.shuffle(&mut variables);
        variables.truncate(random.below(4));
        self.alike(case, &variables)
    }

    /// The same truth, further down.
    pub fn deepen(&mut self, guard: usize, steps: usize) -> usize {
        let (always, never) = (self.always(), self.never());
        let mut deep = guard;
        for step in 0..steps {
            deep = match step % 5 {
                0 | 1 => self.append(Expression::Not(deep)),
                2 => self.append(Expression::And(always, deep)),
                3 => self.append(Expression::Or(deep, never)),
                _ => self.append(Expression::Xor(never, deep)),
            };
        }
        // an odd count of NOTs is left after one step of five
        if steps % 5 == 1 {
            deep = self.append(Expression::Not(deep));
        }
        deep
    }

    /// Something to choose guards from.
    pub fn add_some(&mut self, random: &mut Random) {
        self.always();
        for variable in 0..self.k {
            let positive = self.add(Expression::Variable(variable));
            if random.one_in(2) {
                self.not(positive);
            }
        }
        if random.one_in(3) {
            self.never();
        }
        for _ in 0..random.below(6) {
            self.add_any(random);
        }
    }

    fn add_any(&mut self, random: &mut Random) {
        let (a, b) = (random.below(self.list.len()), random.below(self.list.len()));
        self.append(match random.below(4) {
            0 => Expression::Not(a),
            1 => Expression::And(a, b),
            2 => Expression::Or(a, b),
            _ => Expression::Xor(a, b),
        });
    }

    pub fn any(&self, random: &mut Random) -> usize {
        random.below(self.list.len())
    }

    pub fn fill_up_to(&mut self, count: usize, random: &mut Random) {
        if count > 0 {
            self.always();
        }
        while self.list.len() < count.min(MOST_EXPRESSIONS) {
            self.add_any(random);
        }
    }
}
