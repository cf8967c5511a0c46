//! Jobs from a seed: accepted ones whose answers are spread, and damaged ones that reach every refusal.

pub mod accepted;
pub mod damage;
pub mod draft;
pub mod guards;
pub mod large;
pub mod random;
pub mod shape;
pub mod spread;

use draft::Draft;
use random::Random;
use shape::Shape;

pub struct Sample {
    pub what: String,
    /// The records that the job was made from, for packing.
    pub draft: Draft,
    pub job: Vec<u8>,
}

/// The job of a seed and an index, always the same one.
pub fn sample(seed: u64, index: u64) -> Sample {
    let mut random = Random::new(seed, index);
    if let Some(shape) = largest_at(index) {
        return accepted_sample("largest", shape, &mut random);
    }
    match random.below(100) {
        0..=45 => accepted_sample("ordinary", Shape::ordinary(&mut random), &mut random),
        46..=51 => accepted_sample("sizes at an edge", Shape::edge(&mut random), &mut random),
        52..=57 => accepted_sample("long", Shape::long(&mut random), &mut random),
        _ => damaged_sample(&mut random),
    }
}

/// The index of the one job that takes the second checker seconds.
pub const SLOWEST: u64 = 777;

/// The largest jobs stand at fixed places, because they are slow and must not be missed.
fn largest_at(index: u64) -> Option<Shape> {
    match index {
        150 => Some(Shape::largest_few_alive()),
        450 => Some(Shape::largest_but_short()),
        SLOWEST => Some(Shape::largest()),
        _ => match index % 4_000 {
            1_500 => Some(Shape::largest_few_alive()),
            3_500 => Some(Shape::largest_but_short()),
            _ => None,
        },
    }
}

fn accepted_sample(what: &str, shape: Shape, random: &mut Random) -> Sample {
    let plan = shape.plan;
    let draft = accepted::draft(shape, random);
    Sample {
        what: format!("{what}, {plan:?}"),
        job: draft.bytes(),
        draft,
    }
}

fn damaged_sample(random: &mut Random) -> Sample {
    if random.one_in(20) {
        return raw_sample(random);
    }
    let draft = accepted::draft(Shape::small(random), random);
    let (what, job) = damage::damaged(&draft, random);
    Sample { what, draft, job }
}

/// Bytes of no meaning, of any length.
fn raw_sample(random: &mut Random) -> Sample {
    let length = random.pick(&[0, 1, 2, 511, 512, 513, 1_024, 1_536, 16_896, 16_897, 17_408]);
    let zeros = random.one_in(2);
    let job = (0..length)
        .map(|_| if zeros { 0 } else { random.byte() })
        .collect();
    Sample {
        what: "raw bytes".to_string(),
        draft: accepted::draft(Shape::small(random), random),
        job,
    }
}
