//! Calls a library and compares all that it was lent, to the last byte, with what the second checker says.

use crate::boundary::Library;
use crate::checker::operations::{self, Outcome, ANSWER_BYTES};
use crate::generate::random::Random;
use crate::generate::spread::Spread;

const GUARD: usize = 64;
pub(crate) const MOST_COMPLAINTS: usize = 5;

/// Memory lent to a call: guard bytes, the bytes lent, guard bytes again.
pub(crate) struct Lent {
    name: &'static str,
    bytes: Vec<u8>,
    before: Vec<u8>,
    start: usize,
    pub(crate) length: usize,
}

impl Lent {
    /// The fill differs from call to call, so that no wrong write can always happen to fit it.
    pub(crate) fn room(name: &'static str, length: usize, fill: &mut Random) -> Lent {
        let start = GUARD + fill.below(8);
        let mut bytes = Vec::with_capacity(start + length + GUARD + 8);
        while bytes.len() < start + length + GUARD {
            bytes.extend(fill.next().to_le_bytes());
        }
        Lent {
            name,
            before: bytes.clone(),
            bytes,
            start,
            length,
        }
    }

    pub(crate) fn holding(name: &'static str, content: &[u8], fill: &mut Random) -> Lent {
        let mut lent = Lent::room(name, content.len(), fill);
        lent.bytes[lent.start..lent.start + content.len()].copy_from_slice(content);
        lent.before = lent.bytes.clone();
        lent
    }

    pub(crate) fn at(&mut self) -> *mut u8 {
        // inside the allocation, since the guard bytes stand on both sides
        unsafe { self.bytes.as_mut_ptr().add(self.start) }
    }

    /// Where these bytes differ from those before the call with `written` at their start.
    pub(crate) fn difference(&self, written: &[u8]) -> Option<String> {
        let mut expected = self.before.clone();
        expected[self.start..self.start + written.len()].copy_from_slice(written);
        let at = (0..expected.len()).find(|&at| expected[at] != self.bytes[at])?;
        Some(format!(
            "{} differs first at byte {} of {}: {} instead of {}",
            self.name,
            at as i64 - self.start as i64,
            self.length,
            self.bytes[at],
            expected[at]
        ))
    }
}

pub struct Harness {
    /// Without a library only the spread is counted.
    library: Option<Library>,
    pub spread: Spread,
    pub passed: u64,
    pub failed: u64,
    pub complaints: Vec<String>,
    fill: Random,
}

/// One call: what it was, what it gave back, and the memory that it was lent.
struct Made<'a> {
    operation: usize,
    parameters: String,
    returned: usize,
    answer: &'a Lent,
    inputs: &'a [Lent],
    outputs: &'a [Lent],
}

impl Harness {
    pub fn new(library: Option<Library>, seed: u64) -> Harness {
        Harness {
            library,
            spread: Spread::default(),
            passed: 0,
            failed: 0,
            complaints: Vec::new(),
            fill: Random::new(seed, u64::MAX),
        }
    }

    /// One comparison more.
    pub fn count(&mut self, complaint: Option<String>) {
        match complaint {
            None => self.passed += 1,
            Some(complaint) => {
                self.failed += 1;
                if self.complaints.len() < MOST_COMPLAINTS {
                    self.complaints.push(complaint);
                }
            }
        }
    }

    fn note(&mut self, operation: usize, expected: &Outcome) {
        if let Some(number) = expected.refusal_number() {
            self.spread.note_refusal(operation, number);
        }
    }

    fn judge(&mut self, made: Made, expected: &Outcome) {
        let answered = made.answer.length >= ANSWER_BYTES;
        let (word, answer_bytes, writes) = if answered {
            let word = expected.word as usize;
            (word, expected.answer_bytes().to_vec(), &expected.writes[..])
        } else {
            (0, Vec::new(), &[][..])
        };
        let complain = |what: String| {
            let name = crate::generate::spread::OPERATIONS[made.operation];
            let given = numbers_in(made.answer);
            format!(
                "{name} {}: {what}\n  expected {expected:?}\n  returned {} with numbers {given:?}",
                made.parameters, made.returned
            )
        };
        let wrong_word = made.returned != word;
        self.count(wrong_word.then(|| complain(format!("returned a word other than {word}"))));
        self.count(made.answer.difference(&answer_bytes).map(complain));
        for input in made.inputs {
            self.count(input.difference(&[]).map(complain));
        }
        for (place, output) in made.outputs.iter().enumerate() {
            let written = writes.get(place).map_or(&[][..], |bytes| bytes);
            self.count(output.difference(written).map(complain));
        }
    }

    pub fn sizes(&mut self, job: &[u8], answer_room: usize) {
        let expected = operations::sizes(job);
        self.note(0, &expected);
        let Some(library) = self.library else { return };
        let mut job = Lent::holding("job", job, &mut self.fill);
        let mut answer = Lent::room("answer", answer_room, &mut self.fill);
        let returned = unsafe { (library.sizes)(job.at(), job.length, answer.at(), answer.length) };
        let made = Made {
            operation: 0,
            parameters: format!("answer={answer_room}"),
            returned,
            answer: &answer,
            inputs: &[job],
            outputs: &[],
        };
        self.judge(made, &expected);
    }

    pub fn unpack(&mut self, job: &[u8], rooms: [usize; 3], answer_room: usize) {
        let expected = operations::unpack(job, rooms);
        self.note(1, &expected);
        let Some(library) = self.library else { return };
        let mut job = Lent::holding("job", job, &mut self.fill);
        let mut answer = Lent::room("answer", answer_room, &mut self.fill);
        let mut nodes = Lent::room("nodes", rooms[0], &mut self.fill);
        let mut expressions = Lent::room("expressions", rooms[1], &mut self.fill);
        let mut clauses = Lent::room("clauses", rooms[2], &mut self.fill);
        let returned = unsafe {
            (library.unpack)(
                job.at(),
                job.length,
                nodes.at(),
                nodes.length,
                expressions.at(),
                expressions.length,
                clauses.at(),
                clauses.length,
                answer.at(),
                answer.length,
            )
        };
        let made = Made {
            operation: 1,
            parameters: format!("rooms={rooms:?} answer={answer_room}"),
            returned,
            answer: &answer,
            inputs: &[job],
            outputs: &[nodes, expressions, clauses],
        };
        self.judge(made, &expected);
    }

    pub fn pack(&mut self, k: u64, lists: &[Vec<u8>; 3], room: usize, answer_room: usize) {
        let expected = operations::pack(k, [&lists[0], &lists[1], &lists[2]], room);
        self.note(2, &expected);
        let Some(library) = self.library else { return };
        let mut nodes = Lent::holding("nodes", &lists[0], &mut self.fill);
        let mut expressions = Lent::holding("expressions", &lists[1], &mut self.fill);
        let mut clauses = Lent::holding("clauses", &lists[2], &mut self.fill);
        let mut out = Lent::room("out", room, &mut self.fill);
        let mut answer = Lent::room("answer", answer_room, &mut self.fill);
        let returned = unsafe {
            (library.pack)(
                k as usize,
                nodes.at(),
                nodes.length,
                expressions.at(),
                expressions.length,
                clauses.at(),
                clauses.length,
                out.at(),
                out.length,
                answer.at(),
                answer.length,
            )
        };
        let lengths = lists.each_ref().map(|list| list.len());
        let made = Made {
            operation: 2,
            parameters: format!("k={k} lists={lengths:?} room={room} answer={answer_room}"),
            returned,
            answer: &answer,
            inputs: &[nodes, expressions, clauses],
            outputs: &[out],
        };
        self.judge(made, &expected);
    }

    pub fn row(&mut self, job: &[u8], case: u64, time: u64, room: usize, answer_room: usize) {
        let expected = operations::row(job, case, time, room);
        self.note(3, &expected);
        let Some(library) = self.library else { return };
        let mut job = Lent::holding("job", job, &mut self.fill);
        let mut out = Lent::room("out", room, &mut self.fill);
        let mut answer = Lent::room("answer", answer_room, &mut self.fill);
        let returned = unsafe {
            (library.row)(
                job.at(),
                job.length,
                case as usize,
                time as usize,
                out.at(),
                out.length,
                answer.at(),
                answer.length,
            )
        };
        let made = Made {
            operation: 3,
            parameters: format!("case={case} time={time} room={room} answer={answer_room}"),
            returned,
            answer: &answer,
            inputs: &[job],
            outputs: &[out],
        };
        self.judge(made, &expected);
    }

    pub fn one_case(&mut self, job: &[u8], case: u64, answer_room: usize) {
        let expected = operations::one_case(job, case);
        self.note(4, &expected);
        let Some(library) = self.library else { return };
        let mut job = Lent::holding("job", job, &mut self.fill);
        let mut answer = Lent::room("answer", answer_room, &mut self.fill);
        let returned = unsafe {
            (library.one_case)(
                job.at(),
                job.length,
                case as usize,
                answer.at(),
                answer.length,
            )
        };
        let made = Made {
            operation: 4,
            parameters: format!("case={case} answer={answer_room}"),
            returned,
            answer: &answer,
            inputs: &[job],
            outputs: &[],
        };
        self.judge(made, &expected);
    }

    /// The outcome is given, because a large job is worked once only.
    pub fn check(&mut self, job: &[u8], expected: &Outcome, answer_room: usize) {
        self.note(5, expected);
        let Some(library) = self.library else { return };
        let mut job = Lent::holding("job", job, &mut self.fill);
        let mut answer = Lent::room("answer", answer_room, &mut self.fill);
        let returned = unsafe { (library.check)(job.at(), job.length, answer.at(), answer.length) };
        let made = Made {
            operation: 5,
            parameters: format!("answer={answer_room}"),
            returned,
            answer: &answer,
            inputs: &[job],
            outputs: &[],
        };
        self.judge(made, expected);
    }
}

/// The answer's bytes as the numbers that they are meant to be, for a complaint.
pub(crate) fn numbers_in(answer: &Lent) -> Vec<u32> {
    let most = answer.length.min(ANSWER_BYTES);
    answer.bytes[answer.start..answer.start + most]
        .chunks_exact(4)
        .map(|four| u32::from_le_bytes([four[0], four[1], four[2], four[3]]))
        .collect()
}
