//! Texts before they are texts: clauses with all that they say, the items that say it, and the gaps between these.

use super::guards::{self, Guard, Item};
use super::reader::{is_in_a_run, Reading, MOST_DEPTH, MOST_RECORDS};
use crate::generate::random::Random;

#[derive(Clone, Debug)]
pub struct Clause {
    pub guard: Guard,
    pub node: usize,
    pub value: usize,
    pub time: usize,
}

#[derive(Clone, Debug)]
pub struct Draft {
    pub k: usize,
    pub n: usize,
    /// The clauses under `given` and those under `expect`.
    pub lists: [Vec<Clause>; 2],
}

impl Draft {
    /// The records, if there are few enough and no bracket is too deep; nothing else can be wrong with a draft.
    pub fn reading(&self) -> Option<Reading> {
        let mut reading = Reading::default();
        for (side, list) in self.lists.iter().enumerate() {
            for clause in list {
                let steps = &clause.guard.steps;
                let records = guards::records(steps, reading.expressions.len());
                reading.expressions.extend(records);
                let guard = reading.expressions.len() - 1;
                reading.clauses.push(clause.record(side, guard));
            }
        }
        let all = self.lists.iter().flatten();
        let shallow = all.clone().all(|clause| clause.guard.depth <= MOST_DEPTH);
        (shallow && reading.expressions.len() <= MOST_RECORDS).then_some(reading)
    }

    pub fn items(&self) -> Vec<Item> {
        let [given, expect] = self
            .lists
            .each_ref()
            .map(|list| list.iter().flat_map(Clause::items));
        let word = |word: &str| std::iter::once(Item::from(word));
        let first = word("given").chain(given);
        first.chain(word("expect")).chain(expect).collect()
    }
}

impl Clause {
    fn record(&self, side: usize, guard: usize) -> [u8; 8] {
        let (low, high) = (
            |number: usize| number as u8,
            |number: usize| (number >> 8) as u8,
        );
        [
            side as u8,
            self.value as u8,
            low(self.node),
            high(self.node),
            low(self.time),
            high(self.time),
            low(guard),
            high(guard),
        ]
    }

    fn items(&self) -> Vec<Item> {
        let mut items = vec![Item::from("when")];
        items.extend(self.guard.items.iter().cloned());
        let rest = format!(": {} is {} at {} ;", self.node, self.value, self.time);
        items.extend(rest.split(' ').map(Item::from));
        items
    }
}

#[derive(Clone, Copy)]
pub enum Spacing {
    /// A gap only where one must be.
    Tight,
    Usual,
    /// Runs of all the gap bytes, anywhere.
    Wild,
}

pub fn any_spacing(random: &mut Random) -> Spacing {
    random.pick(&[Spacing::Tight, Spacing::Usual, Spacing::Wild])
}

pub fn any_gap(random: &mut Random) -> u8 {
    random.pick(b" \n\r")
}

pub fn is_run(item: &[u8]) -> bool {
    item.iter().all(|byte| is_in_a_run(*byte))
}

pub fn spaced(items: &[Item], spacing: Spacing, random: &mut Random) -> Vec<u8> {
    let mut text = Vec::new();
    let mut after_run = false;
    for item in items {
        let needed = after_run && is_run(item);
        text.extend(gap(needed, spacing, random));
        text.extend(item);
        after_run = is_run(item);
    }
    text.extend(gap(false, spacing, random));
    text
}

fn gap(needed: bool, spacing: Spacing, random: &mut Random) -> Vec<u8> {
    let least = usize::from(needed);
    let length = match spacing {
        Spacing::Tight => least,
        Spacing::Usual => return b" ".to_vec(),
        Spacing::Wild if random.one_in(2) => least,
        Spacing::Wild => least + random.below(4),
    };
    (0..length).map(|_| any_gap(random)).collect()
}
