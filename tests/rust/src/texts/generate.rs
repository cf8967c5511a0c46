//! Texts from a seed: accepted ones of every shape, ones beyond each limit, and damaged ones.

use super::damage;
use super::draft::{any_spacing, spaced, Clause, Draft, Spacing};
use super::guards::{self, Growth, Guard};
use super::reader::{Reading, MOST_NODES, MOST_RECORDS, MOST_VARIABLES};
use crate::generate::random::Random;

pub struct Sample {
    pub what: String,
    pub k: usize,
    pub n: usize,
    pub text: Vec<u8>,
    /// The records, where they are known by the way in which the text was made.
    pub known: Option<Reading>,
    /// Whether the text is also to be tried cut off at each of its places.
    pub every_place: bool,
}

/// The text of a seed and an index, always the same one.
pub fn sample(seed: u64, index: u64) -> Sample {
    let mut random = Random::new(seed, index);
    let random = &mut random;
    // some kinds are slow, and yet too rare by chance
    match index % 1_000 {
        10 | 260 | 510 | 760 => return clauses_of_one_record(503 + random.below(3), random),
        110 | 360 | 610 | 860 => return wide(random),
        _ => {}
    }
    match random.below(1_000) {
        0..=329 => drafted("ordinary", ordinary(random), random),
        330..=389 => drafted("deep", deep(random), random),
        390..=419 => drafted("long", long(random), random),
        420..=441 => drafted("about full", full(random), random),
        442..=464 => drafted("few or no clauses", few(random), random),
        465..=504 => beyond_limits(random),
        505..=544 => narrowed(random),
        545..=574 => damage::soup(random),
        575..=584 => damage::bytes(random),
        _ => damage::damaged(random),
    }
}

fn drafted(what: &str, draft: Draft, random: &mut Random) -> Sample {
    let text = spaced(&draft.items(), any_spacing(random), random);
    Sample {
        what: what.to_string(),
        k: draft.k,
        n: draft.n,
        every_place: text.len() < 130 && random.one_in(40),
        text,
        known: draft.reading(),
    }
}

pub fn any_k(random: &mut Random) -> usize {
    random.below(MOST_VARIABLES + 1)
}

pub fn any_n(random: &mut Random) -> usize {
    let any = random.between(1, MOST_NODES);
    random.pick(&[1, 2, 10, 11, 100, 101, 1_000, 1_001, MOST_NODES, any, any])
}

fn any_node(n: usize, random: &mut Random) -> usize {
    let any = random.below(n);
    random.pick(&[0, n - 1, any, any])
}

fn any_time(random: &mut Random) -> usize {
    let any = random.below(256);
    random.pick(&[
        0, 1, 9, 10, 25, 26, 99, 100, 199, 200, 249, 250, 254, 255, any, any, any,
    ])
}

pub fn clause(n: usize, guard: Guard, random: &mut Random) -> Clause {
    Clause {
        guard,
        node: any_node(n, random),
        value: random.below(2),
        time: any_time(random),
    }
}

/// A draft whose guards have these numbers of records, cut anywhere into its two lists.
fn with_guards(k: usize, n: usize, guards: Vec<Guard>, random: &mut Random) -> Draft {
    let cut = random.between(0, guards.len());
    let mut given: Vec<Clause> = Vec::new();
    for guard in guards {
        given.push(clause(n, guard, random));
    }
    let expect = given.split_off(cut);
    let lists = [given, expect];
    Draft { k, n, lists }
}

fn any_growth(random: &mut Random) -> Growth {
    random.pick(&[Growth::Bushy, Growth::Bushy, Growth::Chain])
}

fn of_sizes(sizes: &[usize], random: &mut Random) -> Draft {
    let (k, n) = (any_k(random), any_n(random));
    let mut guards = Vec::new();
    for &size in sizes {
        // many records of any shape would need more brackets than there may be
        let growth = if size > 40 {
            Growth::Chain
        } else {
            any_growth(random)
        };
        guards.push(guards::drawn(size, k, growth, random));
    }
    with_guards(k, n, guards, random)
}

fn sizes(count: usize, most: usize, random: &mut Random) -> Vec<usize> {
    (0..count).map(|_| random.between(1, most)).collect()
}

pub fn ordinary(random: &mut Random) -> Draft {
    let count = random.below(6);
    let most = random.pick(&[2, 5, 12, 30]);
    of_sizes(&sizes(count, most, random), random)
}

pub fn few(random: &mut Random) -> Draft {
    let count = random.below(3);
    of_sizes(&sizes(count, 6, random), random)
}

pub fn deep(random: &mut Random) -> Draft {
    let (k, n) = (any_k(random), any_n(random));
    let mut guards = Vec::new();
    for _ in 0..random.between(1, 2) {
        let depth = random.pick(&[30, 31, 32, 32, 33, 33, 34]);
        guards.push(guards::deep(depth, k, random));
    }
    with_guards(k, n, guards, random)
}

fn long(random: &mut Random) -> Draft {
    if random.one_in(3) {
        let (k, n) = (any_k(random), any_n(random));
        let size = random.between(30, MOST_RECORDS);
        let guards = vec![guards::drawn(size, k, Growth::Nots, random)];
        return with_guards(k, n, guards, random);
    }
    let size = random.between(60, 480);
    of_sizes(&[size, random.between(1, 20)], random)
}

/// About as many records as there may be, in many small clauses or few large ones, with any item for the last.
pub fn full(random: &mut Random) -> Draft {
    let total = MOST_RECORDS - 2 + random.below(5);
    let (last, growth) = match random.below(4) {
        0 => (1, Growth::Flat),
        1 => (random.between(2, 7), Growth::Nots),
        2 => (random.pick(&[3, 5, 7, 31]), Growth::Flat),
        _ => (total, Growth::Flat),
    };
    let most = random.pick(&[1, 1, 2, 4, 40, 200]);
    let mut draft = of_sizes(&sizes_to(total - last, most, random), random);
    if random.one_in(3) {
        let given = std::mem::take(&mut draft.lists[0]);
        draft.lists[1].splice(0..0, given);
    }
    let guard = guards::drawn(last, draft.k, growth, random);
    let last = clause(draft.n, guard, random);
    let list = usize::from(!draft.lists[1].is_empty() || random.one_in(2));
    draft.lists[list].push(last);
    draft
}

/// Sizes that add up to a total, all but the last of them from half of the most on.
fn sizes_to(total: usize, most: usize, random: &mut Random) -> Vec<usize> {
    let mut sizes = Vec::new();
    let mut left = total;
    while left > 0 {
        let size = random.between(most.div_ceil(2), most).min(left);
        sizes.push(size);
        left -= size;
    }
    sizes
}

fn clauses_of_one_record(count: usize, random: &mut Random) -> Sample {
    let draft = of_sizes(&vec![1; count], random);
    drafted("clauses of one record", draft, random)
}

/// A text with a gap so long that places no longer fit sixteen bits.
fn wide(random: &mut Random) -> Sample {
    let mut sample = if random.one_in(2) {
        drafted("wide", few(random), random)
    } else {
        damage::damaged(random)
    };
    let gap = vec![b' '; random.pick(&[300, 65_500, 65_536, 70_000])];
    let place = sample.text.iter().position(|byte| *byte == b' ');
    let place = place.filter(|_| random.one_in(3)).unwrap_or(0);
    sample.text.splice(place..place, gap);
    sample.every_place = false;
    sample
}

/// Limits that nothing may have, with texts that would be accepted and others.
fn beyond_limits(random: &mut Random) -> Sample {
    let mut sample = if random.one_in(2) {
        drafted("limits", few(random), random)
    } else {
        damage::damaged(random)
    };
    sample.what = format!("{}, beyond the limits", sample.what);
    (sample.known, sample.every_place) = (None, false);
    let low = sample.k;
    let wrong_k = [
        13,
        13,
        14,
        26,
        255,
        256,
        256 + low,
        65_536 + low,
        (1 << 32) + low,
        usize::MAX,
    ];
    let low = sample.n;
    let wrong_n = [
        0,
        0,
        1_009,
        1_009,
        1_010,
        65_536,
        65_536 + low,
        (1 << 32) + low,
        usize::MAX,
    ];
    match random.below(5) {
        0 | 1 => sample.k = random.pick(&wrong_k),
        2 | 3 => sample.n = random.pick(&wrong_n),
        _ => (sample.k, sample.n) = (random.pick(&wrong_k), random.pick(&wrong_n)),
    }
    sample
}

/// A text that would be accepted, with fewer variables or nodes than it speaks of.
fn narrowed(random: &mut Random) -> Sample {
    let mut sample = drafted("narrowed", ordinary(random), random);
    (sample.known, sample.every_place) = (None, false);
    if random.one_in(2) {
        sample.k = sample.k.saturating_sub(random.between(1, 3));
    } else {
        let fewer = random.pick(&[sample.n - 1, sample.n / 2, sample.n / 10, 1]);
        sample.n = fewer.max(1);
    }
    sample
}

/// Spacing for a text whose items matter, not its gaps.
pub fn mostly_usual(random: &mut Random) -> Spacing {
    random.pick(&[
        Spacing::Usual,
        Spacing::Usual,
        Spacing::Tight,
        Spacing::Wild,
    ])
}
