//! Which texts are accepted and with which records. Only whole texts are asked about, and they are taken apart by
//! splitting: into items, lists, clauses, and guards at their weakest operators. No place in the text is kept.

pub const MOST_VARIABLES: usize = 12;
pub const MOST_NODES: usize = 1_008;
pub const MOST_RECORDS: usize = 504;
pub const MOST_CLAUSES: usize = 504;
pub const MOST_DEPTH: usize = 32;
pub const TIMES: usize = 256;

/// What bounds a text. The spread relaxes one at a time, to see which of them a refusal is due to.
#[derive(Clone, Copy, Debug)]
pub struct Limits {
    pub variables: usize,
    pub nodes: usize,
    pub times: usize,
    pub depth: usize,
    pub records: usize,
    pub clauses: usize,
}

impl Limits {
    pub fn of(k: usize, n: usize) -> Limits {
        Limits {
            variables: k,
            nodes: n,
            times: TIMES,
            depth: MOST_DEPTH,
            records: MOST_RECORDS,
            clauses: MOST_CLAUSES,
        }
    }
}

pub type Record = [u8; 8];

#[derive(Clone, Debug, Default, PartialEq, Eq)]
pub struct Reading {
    pub expressions: Vec<Record>,
    pub clauses: Vec<Record>,
}

type Item<'a> = &'a [u8];

enum Tree {
    Constant(bool),
    Variable(usize),
    Not(Box<Tree>),
    Both(u8, Box<Tree>, Box<Tree>),
}

/// The operators between two guards, the weakest first.
const WEAKEST_FIRST: [u8; 3] = [b'|', b'^', b'&'];

pub fn is_gap(byte: u8) -> bool {
    matches!(byte, 32 | 10 | 13)
}

/// Words, numbers and variables consist of these. Two such items without a gap are one run, and then no item.
pub fn is_in_a_run(byte: u8) -> bool {
    byte.is_ascii_lowercase() || byte.is_ascii_digit()
}

/// The items. A byte that can stand in none becomes an item of its own, which fits nowhere.
pub fn items_of(text: &[u8]) -> Vec<Item<'_>> {
    text.split(|byte| is_gap(*byte))
        .flat_map(|piece| piece.chunk_by(|a, b| is_in_a_run(*a) && is_in_a_run(*b)))
        .collect()
}

pub fn read(text: &[u8], limits: &Limits) -> Option<Reading> {
    let items = items_of(text);
    let [b"given", lists @ ..] = &items[..] else {
        return None;
    };
    let expect = lists.iter().position(|item| *item == b"expect")?;
    let mut reading = Reading::default();
    read_list(0, &lists[..expect], limits, &mut reading)?;
    read_list(1, &lists[expect + 1..], limits, &mut reading)?;
    let fits =
        reading.expressions.len() <= limits.records && reading.clauses.len() <= limits.clauses;
    fits.then_some(reading)
}

fn read_list(side: u8, list: &[Item], limits: &Limits, reading: &mut Reading) -> Option<()> {
    list.split_inclusive(|item| *item == b";")
        .try_for_each(|clause| read_clause(side, clause, limits, reading))
}

fn read_clause(side: u8, items: &[Item], limits: &Limits, reading: &mut Reading) -> Option<()> {
    let [b"when", guard @ .., b":", node, b"is", value, b"at", time, b";"] = items else {
        return None;
    };
    let node = number(node, limits.nodes)?;
    let value = number(value, 2)?;
    let time = number(time, limits.times)?;
    let guard = whole_guard(guard, limits)?.put(&mut reading.expressions);
    let [node, time, guard] = [node, time, guard].map(|number| (number as u16).to_le_bytes());
    reading.clauses.push([
        side,
        value as u8,
        node[0],
        node[1],
        time[0],
        time[1],
        guard[0],
        guard[1],
    ]);
    Some(())
}

fn number(item: Item, bound: usize) -> Option<usize> {
    let digits = std::str::from_utf8(item).ok()?;
    // a number is what it would be written as, so there are no leading zeros and no signs
    let number = digits.parse().ok()?;
    (number < bound && usize::to_string(&number) == digits).then_some(number)
}

/// Bounded before it is taken apart, so that no text makes the recursion deep.
fn whole_guard(items: &[Item], limits: &Limits) -> Option<Tree> {
    let records = items.iter().filter(|item| !is_bracket(item)).count();
    let bounded = records <= limits.records && most_open(items) <= limits.depth;
    bounded.then(|| guard(items, limits.variables)).flatten()
}

fn is_bracket(item: &Item) -> bool {
    *item == b"(" || *item == b")"
}

fn most_open(items: &[Item]) -> usize {
    let open = |open: &mut usize, item: &Item| {
        match *item {
            b"(" => *open += 1,
            b")" => *open = open.saturating_sub(1),
            _ => {}
        }
        Some(*open)
    };
    items.iter().scan(0, open).max().unwrap_or(0)
}

fn guard(items: &[Item], variables: usize) -> Option<Tree> {
    chain(items, &WEAKEST_FIRST, variables)
}

/// Splits at every weakest operator outside brackets; what stands between is joined from the left.
fn chain(items: &[Item], operators: &[u8], variables: usize) -> Option<Tree> {
    let Some((operator, stronger)) = operators.split_first() else {
        return single(items, variables);
    };
    let parts = split_outside_brackets(items, *operator)?;
    let trees: Option<Vec<Tree>> = parts
        .iter()
        .map(|part| chain(part, stronger, variables))
        .collect();
    let join = |left, right| Tree::Both(*operator, Box::new(left), Box::new(right));
    trees?.into_iter().reduce(join)
}

/// Nothing if the brackets do not match.
fn split_outside_brackets<'a, 'b>(
    items: &'a [Item<'b>],
    operator: u8,
) -> Option<Vec<&'a [Item<'b>]>> {
    let mut open = 0_usize;
    let mut parts = Vec::new();
    let mut start = 0;
    for (place, item) in items.iter().enumerate() {
        match *item {
            b"(" => open += 1,
            b")" => open = open.checked_sub(1)?,
            [byte] if *byte == operator && open == 0 => {
                parts.push(&items[start..place]);
                start = place + 1;
            }
            _ => {}
        }
    }
    parts.push(&items[start..]);
    (open == 0).then_some(parts)
}

/// A guard without operators between two others, but for those inside brackets.
fn single(items: &[Item], variables: usize) -> Option<Tree> {
    match items {
        [b"!", rest @ ..] => Some(Tree::Not(Box::new(single(rest, variables)?))),
        [b"(", inner @ .., b")"] => guard(inner, variables),
        [b"0"] => Some(Tree::Constant(false)),
        [b"1"] => Some(Tree::Constant(true)),
        [[letter]] => {
            let variable = usize::from(letter.checked_sub(b'a')?);
            (variable < variables).then_some(Tree::Variable(variable))
        }
        _ => None,
    }
}

impl Tree {
    /// Adds this tree's records, operands first; returns the index of the last one.
    fn put(&self, records: &mut Vec<Record>) -> usize {
        let (code, a, b) = match self {
            Tree::Constant(value) => (u8::from(*value), 0, 0),
            Tree::Variable(variable) => (2, *variable, 0),
            Tree::Not(operand) => (3, operand.put(records), 0),
            Tree::Both(operator, left, right) => {
                let left = left.put(records);
                (code_of(*operator), left, right.put(records))
            }
        };
        let [a, b] = [a, b].map(|number| (number as u16).to_le_bytes());
        records.push([code, 0, a[0], a[1], b[0], b[1], 0, 0]);
        records.len() - 1
    }
}

fn code_of(operator: u8) -> u8 {
    match operator {
        b'&' => 4,
        b'|' => 5,
        _ => 6,
    }
}
