//! How large a job is to be and what is to become of it.

use super::random::Random;

#[derive(Clone, Copy, Debug, PartialEq, Eq)]
pub enum Plan {
    Holds,
    FailsOnce,
    FailsWidely,
    VacantOnce,
    VacantWidely,
    MissThenCollision,
    Mixed,
    /// Clauses at random, with no regard to the rows.
    Wild,
}

#[derive(Clone, Copy)]
pub struct Shape {
    pub k: usize,
    pub n: usize,
    pub last_time: usize,
    pub plan: Plan,
    /// Expressions and clauses are filled up to these counts; 0 leaves them as they come.
    pub expressions: usize,
    pub clauses: usize,
    pub deep_guards: bool,
    /// No clause and no expression at all.
    pub bare: bool,
    /// All but a sixteenth of the cases collide at time 0, so that a slow checker has little to do.
    pub few_alive: bool,
}

const COUNTS_AT_EDGES: [usize; 8] = [0, 62, 63, 64, 126, 127, 503, 504];

impl Shape {
    fn plain(k: usize, n: usize, last_time: usize, plan: Plan) -> Shape {
        Shape {
            k,
            n,
            last_time,
            plan,
            expressions: 0,
            clauses: 0,
            deep_guards: false,
            bare: false,
            few_alive: false,
        }
    }

    pub fn ordinary(random: &mut Random) -> Shape {
        let k = ordinary_k(random);
        let (most_nodes, most_time) = match k {
            0..=6 => (16, 9),
            7..=8 => (10, 6),
            9..=10 => (7, 4),
            _ => (4, 3),
        };
        let n = random.between(1, most_nodes);
        let last_time = random.below(most_time + 1);
        let mut shape = Shape::plain(k, n, last_time, plan(random));
        shape.deep_guards = random.one_in(12);
        shape.bare = random.one_in(60);
        shape
    }

    /// Sizes at which a block is just full or just over, or a limit is met.
    pub fn edge(random: &mut Random) -> Shape {
        let n = random.pick(&[1, 2, 62, 63, 64, 126, 127, 1_007, 1_008]);
        let k = random.pick(&[0, 1, 5, 6, 7]);
        let last_time = random.below(if n > 1_000 { 3 } else { 6 });
        let mut shape = Shape::plain(k, n, last_time, plan(random));
        shape.expressions = random.pick(&COUNTS_AT_EDGES);
        shape.clauses = random.pick(&COUNTS_AT_EDGES);
        shape.deep_guards = random.one_in(3);
        shape
    }

    /// Times up to the last one that a clause may name.
    pub fn long(random: &mut Random) -> Shape {
        let n = random.between(1, 6);
        let last_time = random.pick(&[63, 64, 127, 128, 200, 254, 255, 255, 255, 255]);
        let k = random.pick(&[0, 1, 2, 3, 4, 7]);
        Shape::plain(k, n, last_time, plan(random))
    }

    /// What damage is done to: small, but often with more than one block of a kind.
    pub fn small(random: &mut Random) -> Shape {
        let n = random.pick(&[1, 2, 3, 4, 5, 6, 8, 63, 64, 127]);
        let k = random.pick(&[0, 1, 2, 3, 12]);
        let mut shape = Shape::plain(k, n, random.below(3), plan(random));
        if k == 12 {
            shape.n = random.between(1, 3);
        }
        shape.expressions = random.pick(&[0, 0, 0, 63, 64, 127]);
        shape.clauses = random.pick(&[0, 0, 0, 63, 64, 127]);
        shape.bare = random.one_in(20);
        shape
    }

    pub fn largest() -> Shape {
        let mut shape = Shape::plain(12, 1_008, 255, Plan::FailsOnce);
        (shape.expressions, shape.clauses) = (504, 504);
        shape
    }

    pub fn largest_few_alive() -> Shape {
        let mut shape = Shape::plain(12, 1_008, 255, Plan::Mixed);
        (shape.expressions, shape.clauses) = (504, 504);
        shape.few_alive = true;
        shape
    }

    pub fn largest_but_short() -> Shape {
        let mut shape = Shape::plain(12, 1_008, 2, Plan::Holds);
        (shape.expressions, shape.clauses) = (504, 504);
        shape
    }
}

fn ordinary_k(random: &mut Random) -> usize {
    match random.below(100) {
        0..=4 => 0,
        percent @ 5..=52 => 1 + (percent - 5) / 8,
        53..=72 => 7,
        73..=83 => 8,
        84..=90 => 9,
        91..=94 => 10,
        95..=97 => 11,
        _ => 12,
    }
}

fn plan(random: &mut Random) -> Plan {
    match random.below(100) {
        0..=25 => Plan::Holds,
        26..=41 => Plan::FailsOnce,
        42..=47 => Plan::FailsWidely,
        48..=63 => Plan::VacantOnce,
        64..=69 => Plan::VacantWidely,
        70..=78 => Plan::MissThenCollision,
        79..=93 => Plan::Mixed,
        _ => Plan::Wild,
    }
}
