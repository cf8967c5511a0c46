//! Which calls are made on a job: every operation, with rooms, cases and times on both sides of every border.

use crate::checker::operations::{self, Outcome, ANSWER_BYTES};
use crate::checker::runs::{last_time, Answer, Story};
use crate::checker::stored::Job;
use crate::generate::damage;
use crate::generate::random::Random;
use crate::generate::spread::Survey;
use crate::generate::Sample;
use crate::harness::Harness;

pub fn try_sample(harness: &mut Harness, sample: &Sample, survey: &Survey, random: &mut Random) {
    let job = &sample.job;
    harness.spread.note_job(survey);
    harness.sizes(job, ANSWER_BYTES);
    harness.sizes(job, answer_room(random));
    try_unpack(harness, job, survey, random);
    try_pack(harness, sample, random);
    match survey {
        Survey::Refused(refusal) => {
            let outcome = Outcome::refused(*refusal);
            try_refused(harness, job, &outcome, random);
        }
        Survey::Accepted { job: read, stories } => {
            let outcome = operations::outcome_of_stories(stories);
            harness.check(job, &outcome, ANSWER_BYTES);
            if random.one_in(10) {
                harness.check(job, &outcome, random.pick(&[0, 39, 41]));
            }
            try_cases(harness, job, read, stories, random);
        }
    }
}

/// Mostly as much as is needed.
fn answer_room(random: &mut Random) -> usize {
    if random.one_in(5) {
        random.pick(&[0, 1, 39, 41, 64, 100])
    } else {
        ANSWER_BYTES
    }
}

fn room_near(need: usize, random: &mut Random) -> usize {
    let (short, more) = (need.saturating_sub(1), need + 1);
    random.pick(&[need, need, short, more, 0, need / 2, need + 700])
}

fn try_unpack(harness: &mut Harness, job: &[u8], survey: &Survey, random: &mut Random) {
    let needs = match survey {
        Survey::Refused(_) => [64, 64, 64],
        Survey::Accepted { job, .. } => [
            8 * job.gates.len(),
            8 * job.expressions.len(),
            8 * job.clauses.len(),
        ],
    };
    harness.unpack(job, needs, ANSWER_BYTES);
    let mut one_short = needs;
    let short = random.below(3);
    one_short[short] = needs[short].saturating_sub(1);
    harness.unpack(job, one_short, answer_room(random));
    let near = needs.map(|need| room_near(need, random));
    harness.unpack(job, near, answer_room(random));
    let ample = needs.map(|need| need + random.below(20));
    harness.unpack(job, ample, answer_room(random));
}

fn packed_length(lists: &[Vec<u8>; 3]) -> usize {
    let blocks = lists.iter().map(|list| (list.len() / 8).div_ceil(63));
    512 * (1 + blocks.sum::<usize>())
}

fn try_pack(harness: &mut Harness, sample: &Sample, random: &mut Random) {
    let lists = sample.draft.lists();
    let k = u64::from(sample.draft.k);
    let need = packed_length(&lists);
    harness.pack(k, &lists, need, ANSWER_BYTES);
    harness.pack(k, &lists, room_near(need, random), answer_room(random));
    for _ in 0..2 {
        let (k, lists) = damage::packing(&sample.draft, random);
        let room = room_near(packed_length(&lists), random);
        harness.pack(k, &lists, room, answer_room(random));
    }
}

fn try_refused(harness: &mut Harness, job: &[u8], outcome: &Outcome, random: &mut Random) {
    harness.check(job, outcome, answer_room(random));
    let case = any_case(2, random);
    let time = any_time(1, random);
    harness.one_case(job, case, answer_room(random));
    harness.row(job, case, time, room_near(64, random), answer_room(random));
    harness.row(job, 0, 0, 2_000, ANSWER_BYTES);
}

fn any_case(cases: u64, random: &mut Random) -> u64 {
    let inside = random.next() % cases;
    let wide = [
        65_536 + inside,
        (1 << 32) + inside,
        1 << 63,
        u64::MAX,
        u64::MAX - inside,
    ];
    match random.below(8) {
        0 => 0,
        1 => cases - 1,
        2 => cases,
        3 => cases + inside,
        4 => random.pick(&wide),
        _ => inside,
    }
}

fn any_time(last: u64, random: &mut Random) -> u64 {
    let inside = random.next() % (last + 1);
    let wide = [
        256 + inside,
        65_536,
        65_536 + 1,
        1 << 32,
        (1 << 32) + inside,
        u64::MAX,
    ];
    match random.below(10) {
        0 => 0,
        1 => last,
        2 => last + 1,
        3 => 255,
        4 => random.pick(&[256, 257, 511]),
        5 => random.pick(&wide),
        6 => random.next() % 256,
        _ => inside,
    }
}

/// A case with such an answer, if one is met soon.
fn case_with(
    stories: &[Story],
    random: &mut Random,
    wanted: fn(&Answer) -> bool,
) -> Option<(u64, Answer)> {
    let from = random.below(stories.len());
    let mut cases = (from..stories.len()).chain(0..from);
    let case = cases.find(|&case| wanted(&stories[case].answer))?;
    Some((case as u64, stories[case].answer))
}

fn try_cases(
    harness: &mut Harness,
    bytes: &[u8],
    job: &Job,
    stories: &[Story],
    random: &mut Random,
) {
    let cases = stories.len() as u64;
    let empty = case_with(stories, random, |a| matches!(a, Answer::Empty { .. }));
    let fails = case_with(stories, random, |a| matches!(a, Answer::Fails(_)));
    let passes = case_with(stories, random, |a| matches!(a, Answer::Passes));
    for (case, answer) in [empty, fails, passes].into_iter().flatten() {
        harness.one_case(bytes, case, ANSWER_BYTES);
        try_rows_of_answer(harness, bytes, job, case, &answer, random);
    }
    harness.one_case(bytes, any_case(cases, random), answer_room(random));
    let (n, last) = (job.gates.len(), last_time(job) as u64);
    for _ in 0..3 {
        let (case, time) = (any_case(cases, random), any_time(last, random));
        harness.row(bytes, case, time, room_near(n, random), answer_room(random));
    }
}

/// The rows at which an answer is decided, and those next to them.
fn try_rows_of_answer(
    harness: &mut Harness,
    bytes: &[u8],
    job: &Job,
    case: u64,
    answer: &Answer,
    random: &mut Random,
) {
    let n = job.gates.len();
    match answer {
        Answer::Passes => {}
        Answer::Fails(miss) => harness.row(bytes, case, miss.time as u64, n, ANSWER_BYTES),
        Answer::Empty { time, .. } => {
            let collision = *time as u64;
            let room = room_near(n, random);
            harness.row(bytes, case, collision, n, ANSWER_BYTES);
            harness.row(bytes, case, any_time(255, random), room, ANSWER_BYTES);
            if collision > 0 {
                harness.row(bytes, case, collision - 1, room, ANSWER_BYTES);
            }
        }
    }
}

/// What a fuzzer chooses besides the job.
pub struct Parameters {
    pub case: u64,
    pub time: u64,
    pub k: u64,
    pub rooms: [usize; 3],
    pub answer_room: usize,
}

/// The six operations on stored jobs, on any bytes. For packing the bytes are cut into three lists at the rooms.
pub fn try_raw(harness: &mut Harness, job: &[u8], parameters: &Parameters) {
    let Parameters {
        case,
        time,
        k,
        rooms,
        answer_room,
    } = *parameters;
    harness.sizes(job, answer_room);
    harness.unpack(job, rooms, answer_room);
    harness.row(job, case, time, rooms[0], answer_room);
    harness.one_case(job, case, answer_room);
    harness.check(job, &operations::check(job), answer_room);
    let lists = cut(job, rooms);
    harness.pack(k, &lists, rooms[2], answer_room);
    harness.pack(k, &lists, packed_length(&lists), answer_room);
    if let Ok((header, lists)) = crate::checker::stored::lists_of(job) {
        harness.pack(header.k, &lists, job.len(), answer_room);
        harness.row(
            job,
            case % (1 << header.k),
            time % 256,
            header.n,
            answer_room,
        );
        harness.unpack(job, lists.map(|list| list.len()), answer_room);
    }
}

fn cut(bytes: &[u8], rooms: [usize; 3]) -> [Vec<u8>; 3] {
    let mut left = bytes;
    rooms.map(|room| {
        let (list, after) = left.split_at(room.min(left.len()));
        left = after;
        list.to_vec()
    })
}
