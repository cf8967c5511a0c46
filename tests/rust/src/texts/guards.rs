//! Guards drawn as their records, so that the records are known before there is a text; the text follows from them.

use super::reader::Record;
use crate::generate::random::Random;

pub type Item = Vec<u8>;

/// What gives one record, in the order of the records.
#[derive(Clone, Copy, Debug)]
pub enum Step {
    Constant(bool),
    Variable(usize),
    Not,
    Both(u8),
}

#[derive(Clone, Debug)]
pub struct Guard {
    pub steps: Vec<Step>,
    pub items: Vec<Item>,
    /// The most brackets open at once.
    pub depth: usize,
}

#[derive(Clone, Copy, PartialEq, Eq)]
pub enum Growth {
    Bushy,
    /// Hardly any brackets are needed, however long it is.
    Chain,
    /// Operators between operands, and one `!` at most.
    Flat,
    Nots,
}

/// What is written for one step and all below it.
struct Written {
    items: Vec<Item>,
    strength: u8,
    depth: usize,
}

const STRENGTH_OF_NOT: u8 = 4;
const STRENGTH_ALONE: u8 = 5;

fn strength_of(operator: u8) -> u8 {
    match operator {
        b'|' => 1,
        b'^' => 2,
        _ => 3,
    }
}

pub fn any_operator(random: &mut Random) -> u8 {
    random.pick(b"&^|")
}

pub fn any_operand(k: usize, random: &mut Random) -> Step {
    if k == 0 || random.one_in(4) {
        Step::Constant(random.one_in(2))
    } else {
        let variable = random.below(k);
        Step::Variable(random.pick(&[variable, variable, variable, 0, k - 1]))
    }
}

/// A guard of so many records over k variables.
pub fn drawn(records: usize, k: usize, growth: Growth, random: &mut Random) -> Guard {
    let steps = match growth {
        Growth::Bushy => bushy(records, k, random),
        Growth::Chain => chain(records, random.below(records.div_ceil(4)), k, random),
        Growth::Flat => chain(records, 0, k, random),
        Growth::Nots => chain(records, records - 1, k, random),
    };
    let extra = random.pick(&[0, 0, 1, 3]);
    written(steps, extra, random)
}

/// Operands and operators in any order in which they come to one guard.
fn bushy(records: usize, k: usize, random: &mut Random) -> Vec<Step> {
    let mut steps = Vec::new();
    let mut height = 0;
    for left in (0..records).rev() {
        let step = next_step(height, left, random).unwrap_or(any_operand(k, random));
        match step {
            Step::Constant(_) | Step::Variable(_) => height += 1,
            Step::Not => {}
            Step::Both(_) => height -= 1,
        }
        steps.push(step);
    }
    steps
}

/// An operator, or nothing for an operand. One guard must be left when `left` more records have followed.
fn next_step(height: usize, left: usize, random: &mut Random) -> Option<Step> {
    let not_may = height >= 1 && height - 1 <= left;
    let both = Step::Both(any_operator(random));
    match random.below(4) {
        0 if not_may => Some(Step::Not),
        1 | 2 if height >= 2 => Some(both),
        _ if height <= left => None,
        _ if height >= 2 => Some(both),
        _ => Some(Step::Not),
    }
}

/// Operators between operands so that no bracket is needed; about so many of the records are `!`.
fn chain(records: usize, nots: usize, k: usize, random: &mut Random) -> Vec<Step> {
    // operands and the operators between them are odd in number
    let even = (records - nots) % 2 == 0;
    let nots = if even { nots + 1 } else { nots };
    let mut operands = Vec::new();
    for _ in 0..(records - nots).div_ceil(2) {
        operands.push(vec![any_operand(k, random)]);
    }
    for _ in 0..nots {
        let negated = random.below(operands.len());
        operands[negated].push(Step::Not);
    }
    let mut steps = Vec::new();
    join_chain(&operands, b"|^&", &mut steps, random);
    steps
}

/// Parts joined by the first operator from the left; inside a part only stronger ones stand.
fn join_chain(
    operands: &[Vec<Step>],
    operators: &[u8],
    steps: &mut Vec<Step>,
    random: &mut Random,
) {
    let Some((operator, stronger)) = operators.split_first() else {
        return steps.extend(&operands[0]);
    };
    let mut left = operands;
    while !left.is_empty() {
        let most = longest_part(stronger.len(), random).min(left.len());
        let length = random.between(1, most);
        let (part, rest) = left.split_at(length);
        join_chain(part, stronger, steps, random);
        if left.len() < operands.len() {
            steps.push(Step::Both(*operator));
        }
        left = rest;
    }
}

/// Parts of weak operators are longer, and some chains have one operator only.
fn longest_part(levels_below: usize, random: &mut Random) -> usize {
    match levels_below {
        0 => 1,
        1 => random.pick(&[1, 3, 5]),
        _ => random.pick(&[1, 8, 20, usize::MAX]),
    }
}

/// The text of the steps, with the brackets that are needed and, of every ten, so many that are not.
fn written(steps: Vec<Step>, extra: usize, random: &mut Random) -> Guard {
    let mut stack: Vec<Written> = Vec::new();
    for step in &steps {
        let mut whole = match step {
            Step::Constant(_) | Step::Variable(_) => alone(step),
            Step::Not => negated(stack.pop().unwrap()),
            Step::Both(operator) => {
                let right = stack.pop().unwrap();
                joined(*operator, stack.pop().unwrap(), right)
            }
        };
        if whole.depth < 8 && random.below(10) < extra {
            whole = bracketed(whole);
        }
        stack.push(whole);
    }
    let whole = stack.pop().unwrap();
    Guard {
        steps,
        items: whole.items,
        depth: whole.depth,
    }
}

fn alone(operand: &Step) -> Written {
    let byte = match operand {
        Step::Constant(value) => b'0' + u8::from(*value),
        Step::Variable(variable) => b'a' + *variable as u8,
        Step::Not | Step::Both(_) => unreachable!("no operand"),
    };
    Written {
        items: vec![vec![byte]],
        strength: STRENGTH_ALONE,
        depth: 0,
    }
}

fn bracketed(inner: Written) -> Written {
    let mut items = vec![vec![b'(']];
    items.extend(inner.items);
    items.push(vec![b')']);
    Written {
        items,
        strength: STRENGTH_ALONE,
        depth: inner.depth + 1,
    }
}

fn at_least(strength: u8, written: Written) -> Written {
    if written.strength < strength {
        bracketed(written)
    } else {
        written
    }
}

fn negated(operand: Written) -> Written {
    let operand = at_least(STRENGTH_OF_NOT, operand);
    let mut items = vec![vec![b'!']];
    items.extend(operand.items);
    Written {
        items,
        strength: STRENGTH_OF_NOT,
        depth: operand.depth,
    }
}

/// The right side must be stronger than the operator itself, since what is written goes from left to right.
fn joined(operator: u8, left: Written, right: Written) -> Written {
    let strength = strength_of(operator);
    let left = at_least(strength, left);
    let right = at_least(strength + 1, right);
    let mut items = left.items;
    items.push(vec![operator]);
    items.extend(right.items);
    Written {
        items,
        strength,
        depth: left.depth.max(right.depth),
    }
}

/// A guard with brackets to exactly this depth, of all kinds around each other.
pub fn deep(depth: usize, k: usize, random: &mut Random) -> Guard {
    let plain = random.one_in(3);
    let mut steps = vec![any_operand(k, random)];
    let mut whole = alone(&steps[0]);
    while whole.depth < depth {
        whole = bracketed(whole);
        match random.below(5) {
            _ if plain => {}
            0 => {
                steps.push(Step::Not);
                whole = negated(whole);
            }
            1 | 2 => {
                let (operator, side) = (any_operator(random), any_operand(k, random));
                steps.extend([side, Step::Both(operator)]);
                whole = joined(operator, whole, alone(&side));
            }
            3 => {
                let (operator, side) = (any_operator(random), any_operand(k, random));
                steps.insert(0, side);
                steps.push(Step::Both(operator));
                whole = joined(operator, alone(&side), whole);
            }
            _ => {}
        }
    }
    Guard {
        steps,
        items: whole.items,
        depth: whole.depth,
    }
}

/// The records of steps, the first of them at an index.
pub fn records(steps: &[Step], first: usize) -> Vec<Record> {
    let mut stack: Vec<usize> = Vec::new();
    let mut records = Vec::new();
    for (place, step) in steps.iter().enumerate() {
        let (code, a, b) = match step {
            Step::Constant(value) => (u8::from(*value), 0, 0),
            Step::Variable(variable) => (2, *variable, 0),
            Step::Not => (3, stack.pop().unwrap(), 0),
            Step::Both(operator) => {
                let right = stack.pop().unwrap();
                let code = match operator {
                    b'&' => 4,
                    b'|' => 5,
                    _ => 6,
                };
                (code, stack.pop().unwrap(), right)
            }
        };
        stack.push(first + place);
        let (low, high) = (
            |number: usize| number as u8,
            |number: usize| (number >> 8) as u8,
        );
        records.push([code, 0, low(a), high(a), low(b), high(b), 0, 0]);
    }
    records
}
