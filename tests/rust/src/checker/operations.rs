//! The six operations as seen through the C functions: a word, its numbers, and what is written where.

use super::runs::{self, Answer, Counts, Miss, Story, Verdict};
use super::stored::{self, refusal, Job, Refusal, Value, MOST_TIME};

pub const DONE: u32 = 1;
pub const REFUSED: u32 = 2;
pub const PASSES: u32 = 3;
pub const EMPTY: u32 = 4;
pub const FAILS: u32 = 5;
pub const HOLDS: u32 = 6;
pub const VACANT: u32 = 7;

pub const ANSWER_BYTES: usize = 40;

#[derive(Clone, Debug, PartialEq, Eq)]
pub struct Outcome {
    pub word: u32,
    pub numbers: Vec<u32>,
    /// What each lent output begins with afterwards. An output past the end of this list stays as it is.
    pub writes: Vec<Vec<u8>>,
}

impl Outcome {
    pub fn new(word: u32, numbers: Vec<u32>) -> Outcome {
        Outcome {
            word,
            numbers,
            writes: Vec::new(),
        }
    }

    pub fn refused(refusal: Refusal) -> Outcome {
        Outcome::new(REFUSED, vec![refusal.number, refusal.block, refusal.record])
    }

    pub fn refusal_number(&self) -> Option<u32> {
        (self.word == REFUSED).then(|| self.numbers[0])
    }

    /// The answer as the forty bytes that a caller is given.
    pub fn answer_bytes(&self) -> [u8; ANSWER_BYTES] {
        let mut bytes = [0; ANSWER_BYTES];
        let numbers = std::iter::once(&self.word).chain(&self.numbers);
        for (place, number) in numbers.enumerate() {
            bytes[4 * place..4 * place + 4].copy_from_slice(&number.to_le_bytes());
        }
        bytes
    }

    /// The line that the check program prints, without its newline.
    pub fn line(&self) -> String {
        let numbers = &self.numbers;
        let counts = || {
            format!(
                "cases={} passing={} failing={} empty={}",
                numbers[0], numbers[1], numbers[2], numbers[3]
            )
        };
        let place = || {
            format!(
                "case={} time={} node={}",
                numbers[4], numbers[5], numbers[6]
            )
        };
        match self.word {
            REFUSED => format!(
                "REFUSED {} block={} record={}",
                numbers[0], numbers[1], numbers[2]
            ),
            HOLDS => format!("HOLDS {}", counts()),
            VACANT => format!("VACANT {} {}", counts(), place()),
            FAILS => format!(
                "FAILS {} {} wanted={} found={}",
                counts(),
                place(),
                letter(numbers[7]),
                letter(numbers[8])
            ),
            word => panic!("word {word} is no answer for a whole job"),
        }
    }
}

fn letter(value: u32) -> char {
    ['0', '1', 'X'][value as usize]
}

pub fn number_of(value: Value) -> u32 {
    match value {
        Value::Zero => 0,
        Value::One => 1,
        Value::X => 2,
    }
}

fn outcome_of(result: Result<Outcome, Refusal>) -> Outcome {
    result.unwrap_or_else(Outcome::refused)
}

fn demand(kept: bool, number: u32) -> Result<(), Refusal> {
    if kept {
        Ok(())
    } else {
        Err(refusal(number))
    }
}

fn sizes_of(header: &stored::Header) -> Vec<u32> {
    vec![
        header.k as u32,
        header.n as u32,
        header.e as u32,
        header.c as u32,
    ]
}

pub fn sizes(bytes: &[u8]) -> Outcome {
    outcome_of(stored::read(bytes).map(|_| {
        let header = stored::header_of(bytes);
        Outcome::new(DONE, sizes_of(&header))
    }))
}

pub fn unpack(bytes: &[u8], rooms: [usize; 3]) -> Outcome {
    let unpacked = || {
        let (header, lists) = stored::lists_of(bytes)?;
        let fits = lists
            .iter()
            .zip(rooms)
            .all(|(list, room)| list.len() <= room);
        demand(fits, 13)?;
        let mut outcome = Outcome::new(DONE, sizes_of(&header));
        outcome.writes = lists.to_vec();
        Ok(outcome)
    };
    outcome_of(unpacked())
}

/// An outcome that writes one output and says how much.
fn written(bytes: Vec<u8>) -> Outcome {
    let mut outcome = Outcome::new(DONE, vec![bytes.len() as u32]);
    outcome.writes = vec![bytes];
    outcome
}

pub fn pack(k: u64, lists: [&[u8]; 3], room: usize) -> Outcome {
    let packed = || {
        let bytes = stored::pack(k, lists)?;
        demand(bytes.len() <= room, 13)?;
        Ok(written(bytes))
    };
    outcome_of(packed())
}

fn read_with_case(bytes: &[u8], case: u64) -> Result<Job, Refusal> {
    let job = stored::read(bytes)?;
    demand(case < 1 << job.k, 11)?;
    Ok(job)
}

pub fn row(bytes: &[u8], case: u64, time: u64, room: usize) -> Outcome {
    let found = || {
        let job = read_with_case(bytes, case)?;
        demand(time <= MOST_TIME as u64, 12)?;
        demand(job.gates.len() <= room, 13)?;
        let row = runs::row(&job, case, time as usize).ok_or(refusal(14))?;
        Ok(written(row_bytes(&row)))
    };
    outcome_of(found())
}

pub fn row_bytes(row: &[Value]) -> Vec<u8> {
    row.iter().map(|&value| number_of(value) as u8).collect()
}

pub fn one_case(bytes: &[u8], case: u64) -> Outcome {
    outcome_of(
        read_with_case(bytes, case).map(|job| outcome_of_answer(&runs::one_case(&job, case))),
    )
}

fn miss_numbers(miss: &Miss) -> [u32; 4] {
    [
        miss.time as u32,
        miss.node as u32,
        number_of(miss.wanted),
        number_of(miss.found),
    ]
}

pub fn outcome_of_answer(answer: &Answer) -> Outcome {
    match answer {
        Answer::Passes => Outcome::new(PASSES, Vec::new()),
        Answer::Empty { time, node } => Outcome::new(EMPTY, vec![*time as u32, *node as u32]),
        Answer::Fails(miss) => Outcome::new(FAILS, miss_numbers(miss).to_vec()),
    }
}

pub fn check(bytes: &[u8]) -> Outcome {
    outcome_of(stored::read(bytes).map(|job| outcome_of_stories(&runs::stories(&job))))
}

pub fn outcome_of_stories(stories: &[Story]) -> Outcome {
    outcome_of_verdict(&runs::counts(stories), &runs::verdict(stories))
}

pub fn outcome_of_verdict(counts: &Counts, verdict: &Verdict) -> Outcome {
    let counted = [counts.cases, counts.passing, counts.failing, counts.empty];
    let mut numbers = counted.map(|count| count as u32).to_vec();
    let word = match verdict {
        Verdict::Holds => HOLDS,
        Verdict::Fails { case, miss } => {
            numbers.push(*case as u32);
            numbers.extend(miss_numbers(miss));
            FAILS
        }
        Verdict::Vacant { case, time, node } => {
            numbers.extend([*case as u32, *time as u32, *node as u32]);
            VACANT
        }
    };
    Outcome::new(word, numbers)
}
