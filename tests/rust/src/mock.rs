//! Six of the C functions on top of the second checker, with a mistake to choose: shows that the comparison sees it.
//! The seventh, on texts, has mistakes of its own in `texts::mock`.

use crate::boundary::Library;
use crate::checker::operations::{self, Outcome, ANSWER_BYTES};
use crate::checker::runs::{self, Answer, Counts, Miss, Verdict};
use crate::checker::stored::{self, Clause, Expression, Gate, Job, Refusal, Side, Value, BLOCK};
use crate::generate::draft::mend;
use std::sync::atomic::{AtomicUsize, Ordering};
use Value::{One, Zero, X};

macro_rules! mistakes {
    ($($name:ident)*) => {
        #[derive(Clone, Copy, Debug, PartialEq, Eq)]
        pub enum Mistake {
            NoMistake,
            $($name,)*
        }

        pub const MISTAKES: &[Mistake] = &[$(Mistake::$name,)*];
    };
}

mistakes! {
    RowZeroStartsAtZero
    ConstantsStartAtTheirValue
    LastMissInsteadOfFirst
    HighestMissedNode
    MissBeforeCollision
    CollisionBecomesUnknown
    StimulusOverwrites
    UnknownTakenForZero
    UnknownMeetsAnything
    WantedAndFoundSwapped
    WantedPrefersOne
    HighestCollidingNode
    FirstCollidingClause
    MuxOfOnesIsUnknown
    WireAgainstItselfIsKnown
    OneStepShort
    TimeZeroOnly
    VariablesReversed
    GuardOfStimulusIgnored
    FirstGroupOnly
    LastFailingCase
    LastEmptyCase
    UnusedPlacesCounted
    VacantBeforeFails
    FailingOneTooMany
    EmptyCountedAsPassing
    RowStopsAtLastTime
    RowForgetsEarlierCollision
    CaseCutTo32Bits
    TimeCutTo16Bits
    CountBeforeHeader
    NumberBeforeCheck
    ExpressionBeforeGate
    LastBadBlock
    RestOfHeaderBlockForgiven
    UnusedOperandsForgiven
    RoomBeforeCase
    WritesOnRefusal
    WritesOnePastEnd
    AnswerNotCleared
    AnswerInThirtyNineBytes
    AnswerOneByteTooLong
    JobAltered
    PackCutsTheCountOfVariables
    PackForgetsTheNodeBlocks
    PackClearsTheRest
    OperandsCutToAByte
    GuardsCutToAByte
    ClausesOfTime255Forgotten
    LastPlaceOfAWordForgotten
    RowsWorkedInPlace
    StimulusNotFedBack
    CollisionWithGateUnseen
    CollisionOfClausesUnseen
    ExpectationAtTimeZeroSkipped
    MissCountedInACollidingCase
    LastRestByteForgiven
    LastBadRecord
    UnpackLooksAtTheRoomForNodesOnly
    PackNeedsOneByteMore
    ClauseNodesCutToAByte
    ExpressionOperandsCutToAByte
    VariableElevenTakenForTen
    HalfTheGroupsForgotten
    CountsCutToTwelveBits
    ClausesBeyond255Forgotten
    CollisionsOfLastTimeForgotten
}

use Mistake::*;

static CHOSEN: AtomicUsize = AtomicUsize::new(NoMistake as usize);

pub fn choose(mistake: Mistake) {
    CHOSEN.store(mistake as usize, Ordering::SeqCst);
}

/// Chooses the mistake that the environment names in MISTAKE, if it names one.
pub fn choose_from_environment() {
    let Ok(name) = std::env::var("MISTAKE") else {
        return;
    };
    let named = MISTAKES.iter().find(|m| format!("{m:?}") == name);
    choose(*named.unwrap_or_else(|| panic!("no mistake is called {name}")));
}

fn making(mistake: Mistake) -> bool {
    CHOSEN.load(Ordering::SeqCst) == mistake as usize
}

pub fn library() -> Library {
    Library {
        sizes,
        unpack,
        pack,
        row,
        one_case,
        check,
        text: crate::texts::mock::text,
    }
}

fn read(bytes: &[u8]) -> Result<Job, Refusal> {
    let mut order = stored::STEPS;
    if making(CountBeforeHeader) {
        order.swap(3, 4);
    }
    if making(NumberBeforeCheck) {
        order.swap(1, 2);
    }
    if making(ExpressionBeforeGate) {
        order.swap(7, 8);
    }
    let mut job = match order.iter().find_map(|step| step(bytes)) {
        Some(refusal) => forgive(bytes, refusal)?,
        None => stored::read(bytes)?,
    };
    misread(&mut job);
    Ok(job)
}

fn misread(job: &mut Job) {
    if making(OperandsCutToAByte) {
        job.gates.iter_mut().for_each(cut_operands);
    }
    if making(GuardsCutToAByte) {
        job.clauses.iter_mut().for_each(|c| c.guard %= 256);
    }
    if making(ClauseNodesCutToAByte) {
        job.clauses.iter_mut().for_each(|c| c.node %= 256);
    }
    if making(ClausesBeyond255Forgotten) {
        job.clauses.truncate(256);
    }
    if making(ExpressionOperandsCutToAByte) || making(VariableElevenTakenForTen) {
        job.expressions.iter_mut().for_each(misread_expression);
    }
    if making(ClausesOfTime255Forgotten) {
        job.clauses.retain(|clause| clause.time < 255);
    }
}

fn misread_expression(expression: &mut Expression) {
    match expression {
        Expression::False | Expression::True => {}
        Expression::Variable(i) if making(VariableElevenTakenForTen) => *i = (*i).min(10),
        Expression::Not(a) if making(ExpressionOperandsCutToAByte) => *a %= 256,
        Expression::And(a, b) | Expression::Or(a, b) | Expression::Xor(a, b)
            if making(ExpressionOperandsCutToAByte) =>
        {
            (*a, *b) = (*a % 256, *b % 256);
        }
        _ => {}
    }
}

fn cut_operands(gate: &mut Gate) {
    match gate {
        Gate::Input | Gate::Zero | Gate::One => {}
        Gate::Buf(p) | Gate::Not(p) => *p %= 256,
        Gate::And(p, q) | Gate::Or(p, q) | Gate::Xor(p, q) => {
            (*p, *q) = (*p % 256, *q % 256);
        }
        Gate::Mux(p, q, r) => (*p, *q, *r) = (*p % 256, *q % 256, *r % 256),
    }
}

fn forgive(bytes: &[u8], refusal: Refusal) -> Result<Job, Refusal> {
    let mut tidied = bytes.to_vec();
    if making(LastBadBlock) && refusal.number == 2 {
        return Err(last_bad_block(bytes));
    }
    if making(LastBadRecord) && refusal.number == 8 {
        return Err(last_bad_gate(bytes));
    }
    if making(LastRestByteForgiven) && refusal.number == 7 {
        tidied[BLOCK * refusal.block as usize + 507] = 0;
    }
    if making(RestOfHeaderBlockForgiven) && refusal.number == 7 && refusal.block == 0 {
        tidied[12..508].fill(0);
    }
    if making(UnusedOperandsForgiven) && refusal.number == 8 {
        clear_unused_operands(&mut tidied);
    }
    if tidied == bytes {
        return Err(refusal);
    }
    mend(&mut tidied);
    stored::read(&tidied)
}

fn last_bad_block(bytes: &[u8]) -> Refusal {
    let bad = |block: &[u8]| stored::sum_of_words(block) != stored::CHECK_SUM;
    let last = bytes.chunks(BLOCK).rposition(bad).unwrap();
    Refusal {
        number: 2,
        block: last as u32,
        record: 0,
    }
}

fn last_bad_gate(bytes: &[u8]) -> Refusal {
    let n = stored::header_of(bytes).n;
    let bad = |node: &usize| stored::gate_of(&gate_record(bytes, *node), n).is_none();
    let last = (0..n).rev().find(bad).unwrap();
    Refusal {
        number: 8,
        block: 1 + last as u32 / 63,
        record: last as u32 % 63,
    }
}

fn gate_place(node: usize) -> usize {
    BLOCK * (1 + node / 63) + 4 + 8 * (node % 63)
}

fn gate_record(bytes: &[u8], node: usize) -> stored::Record {
    let at = gate_place(node);
    bytes[at..at + 8].try_into().unwrap()
}

fn clear_unused_operands(bytes: &mut [u8]) {
    let nodes = stored::header_of(bytes).n;
    for node in 0..nodes {
        let at = gate_place(node);
        let operands = match bytes[at] {
            0..=2 => 0,
            3 | 4 => 1,
            5..=7 => 2,
            _ => 3,
        };
        bytes[at + 2 + 2 * operands..at + 8].fill(0);
    }
}

fn truths(job: &Job, case: u64) -> Vec<bool> {
    if !making(VariablesReversed) {
        return runs::truths(&job.expressions, case);
    }
    let reversed = |expression: &Expression| match *expression {
        Expression::Variable(i) => Expression::Variable(job.k - 1 - i),
        other => other,
    };
    let expressions: Vec<Expression> = job.expressions.iter().map(reversed).collect();
    runs::truths(&expressions, case)
}

fn first_row(job: &Job) -> Vec<Value> {
    let start = |gate: &Gate| match gate {
        _ if making(RowZeroStartsAtZero) => Zero,
        Gate::Zero if making(ConstantsStartAtTheirValue) => Zero,
        Gate::One if making(ConstantsStartAtTheirValue) => One,
        _ => X,
    };
    job.gates.iter().map(start).collect()
}

fn forced_by(gate: &Gate, row: &[Value]) -> Value {
    match *gate {
        Gate::Mux(p, q, r)
            if making(MuxOfOnesIsUnknown) && row[p] == X && row[q] == One && row[r] == One =>
        {
            X
        }
        Gate::Xor(p, q) if making(WireAgainstItselfIsKnown) && p == q => Zero,
        _ => runs::forced_by(gate, row),
    }
}

fn forced_at(job: &Job, time: usize, before: &[Value]) -> Vec<Value> {
    if time == 0 {
        first_row(job)
    } else if making(RowsWorkedInPlace) {
        let mut row = before.to_vec();
        for (node, gate) in job.gates.iter().enumerate() {
            row[node] = forced_by(gate, &row);
        }
        row
    } else {
        let forced = |gate| forced_by(gate, before);
        job.gates.iter().map(forced).collect()
    }
}

/// Whether a collision at a node that a gate forced so goes unseen.
fn collision_unseen(forced: Value) -> bool {
    making(StimulusOverwrites)
        || making(CollisionWithGateUnseen) && forced != X
        || making(CollisionOfClausesUnseen) && forced == X
}

fn join_stimulus(
    job: &Job,
    truths: &[bool],
    time: usize,
    forced: &[Value],
) -> Result<Vec<Value>, usize> {
    let mut row = forced.to_vec();
    let mut colliding = Vec::new();
    for clause in &job.clauses {
        let told = truths[clause.guard] || making(GuardOfStimulusIgnored);
        if clause.side != Side::Stimulus || clause.time != time || !told {
            continue;
        }
        match runs::join(row[clause.node], clause.value) {
            Some(value) => row[clause.node] = value,
            None if making(CollisionBecomesUnknown) => row[clause.node] = X,
            None if collision_unseen(forced[clause.node]) => row[clause.node] = clause.value,
            None if making(CollisionsOfLastTimeForgotten) && time == runs::last_time(job) => {}
            None => colliding.push(clause.node),
        }
    }
    let reported = if making(HighestCollidingNode) {
        colliding.iter().max()
    } else if making(FirstCollidingClause) {
        colliding.first()
    } else {
        colliding.iter().min()
    };
    match reported {
        Some(node) => Err(*node),
        None => Ok(row),
    }
}

fn is_missed(clause: &Clause, found: Value) -> bool {
    let forgiven = found == X
        && (making(UnknownMeetsAnything) || making(UnknownTakenForZero) && clause.value == Zero);
    found != clause.value && !forgiven
}

fn miss_at(job: &Job, truths: &[bool], time: usize, row: &[Value]) -> Option<Miss> {
    if making(ExpectationAtTimeZeroSkipped) && time == 0 {
        return None;
    }
    let missed = runs::speaking(job, truths, Side::Expectation, time)
        .filter(|clause| is_missed(clause, row[clause.node]));
    let rank = |clause: &&Clause| {
        let node = clause.node as i64;
        let node = if making(HighestMissedNode) {
            -node
        } else {
            node
        };
        (node, (clause.value == One) != making(WantedPrefersOne))
    };
    let clause = missed.min_by_key(rank)?;
    let (mut wanted, mut found) = (clause.value, row[clause.node]);
    if making(WantedAndFoundSwapped) {
        std::mem::swap(&mut wanted, &mut found);
    }
    Some(Miss {
        time,
        node: clause.node,
        wanted,
        found,
    })
}

fn last_time(job: &Job) -> usize {
    let last = runs::last_time(job);
    if making(TimeZeroOnly) {
        0
    } else if making(OneStepShort) {
        last.saturating_sub(1)
    } else {
        last
    }
}

fn answer_for(job: &Job, case: u64) -> Answer {
    let truths = truths(job, case);
    let mut row = Vec::new();
    let mut miss = None;
    for time in 0..=last_time(job) {
        let forced = forced_at(job, time, &row);
        match (join_stimulus(job, &truths, time, &forced), miss) {
            (Ok(joined), _) => row = joined,
            (Err(_), Some(miss)) if making(MissBeforeCollision) => return Answer::Fails(miss),
            (Err(node), _) => return Answer::Empty { time, node },
        }
        let missed = miss_at(job, &truths, time, &row);
        if making(StimulusNotFedBack) {
            row = forced;
        }
        miss = if making(LastMissInsteadOfFirst) {
            missed.or(miss)
        } else {
            miss.or(missed)
        };
    }
    miss.map_or(Answer::Passes, Answer::Fails)
}

fn row_of(job: &Job, case: u64, time: usize) -> Option<Vec<Value>> {
    let truths = truths(job, case);
    let asked = if making(RowStopsAtLastTime) {
        time.min(runs::last_time(job))
    } else {
        time
    };
    let mut row = Vec::new();
    for time in 0..=asked {
        let forced = forced_at(job, time, &row);
        row = match join_stimulus(job, &truths, time, &forced) {
            Ok(row) => row,
            Err(_) if making(RowForgetsEarlierCollision) && time < asked => forced,
            Err(_) => return None,
        };
    }
    Some(row)
}

fn outcome_of_job(job: &Job) -> Outcome {
    let cases = 1_u64 << job.k;
    let worked = match job.k {
        0..=5 if making(UnusedPlacesCounted) => 64,
        7.. if making(FirstGroupOnly) => 64,
        12 if making(HalfTheGroupsForgotten) => 2_048,
        _ => cases,
    };
    let mut counts = Counts {
        cases,
        passing: 0,
        failing: 0,
        empty: 0,
    };
    let (mut fails, mut empty) = (None, None);
    for case in 0..worked {
        match answer_for(job, case) {
            _ if making(LastPlaceOfAWordForgotten) && case % 64 == 63 => counts.passing += 1,
            Answer::Passes => counts.passing += 1,
            Answer::Fails(miss) => {
                counts.failing += 1;
                if fails.is_none() || making(LastFailingCase) {
                    fails = Some(Verdict::Fails { case, miss });
                }
            }
            Answer::Empty { time, node } => {
                counts.empty += 1;
                let missed = runs::story(job, case).missed_before_collision;
                counts.failing += u64::from(making(MissCountedInACollidingCase) && missed);
                if empty.is_none() || making(LastEmptyCase) {
                    empty = Some(Verdict::Vacant { case, time, node });
                }
            }
        }
    }
    counts.passing += cases.saturating_sub(worked);
    if making(CountsCutToTwelveBits) {
        counts.passing %= 4_096;
    }
    if making(FailingOneTooMany) && counts.failing > 0 && counts.passing > 0 {
        counts.failing += 1;
        counts.passing -= 1;
    }
    if making(EmptyCountedAsPassing) {
        counts.passing += counts.empty;
    }
    let verdict = if making(VacantBeforeFails) {
        empty.or(fails)
    } else {
        fails.or(empty)
    };
    operations::outcome_of_verdict(&counts, &verdict.unwrap_or(Verdict::Holds))
}

fn outcome_of_row(bytes: &[u8], case: u64, time: u64, room: usize) -> Outcome {
    let expected = operations::row(bytes, case, time, room);
    if making(TimeCutTo16Bits) {
        return operations::row(bytes, case, time % 65_536, room);
    }
    if making(RoomBeforeCase) && expected.refusal_number() == Some(11) {
        return operations::row(bytes, 0, 0, room);
    }
    let lawful = matches!(expected.refusal_number(), None | Some(14));
    match read(bytes) {
        Err(refusal) => Outcome::refused(refusal),
        Ok(_) if !lawful => expected,
        Ok(job) => match row_of(&job, case, time as usize) {
            None => Outcome::refused(stored::refusal(14)),
            Some(row) => {
                let mut outcome = Outcome::new(operations::DONE, vec![row.len() as u32]);
                outcome.writes = vec![operations::row_bytes(&row)];
                outcome
            }
        },
    }
}

fn outcome_of_case(bytes: &[u8], case: u64) -> Outcome {
    let case = if making(CaseCutTo32Bits) {
        case % (1 << 32)
    } else {
        case
    };
    match read(bytes) {
        Err(refusal) => Outcome::refused(refusal),
        Ok(job) if case >> job.k > 0 => Outcome::refused(stored::refusal(11)),
        Ok(job) => operations::outcome_of_answer(&answer_for(&job, case)),
    }
}

fn outcome_of_pack(k: u64, lists: [&[u8]; 3], room: usize) -> Outcome {
    let k = if making(PackCutsTheCountOfVariables) {
        k % 256
    } else {
        k
    };
    let room_seen = room.saturating_sub(usize::from(making(PackNeedsOneByteMore)));
    let mut outcome = operations::pack(k, lists, room_seen);
    if making(PackForgetsTheNodeBlocks) && outcome.refusal_number() == Some(9) {
        outcome.numbers[1] -= (lists[0].len() / 8).div_ceil(63) as u32;
    }
    if making(PackClearsTheRest) && outcome.word == operations::DONE {
        outcome.writes[0].resize(room, 0);
    }
    outcome
}

unsafe fn lent<'a>(at: *mut u8, length: usize) -> &'a mut [u8] {
    std::slice::from_raw_parts_mut(at, length)
}

unsafe fn lent_to_read<'a>(at: *const u8, length: usize) -> &'a [u8] {
    std::slice::from_raw_parts(at, length)
}

/// Writes what an outcome says, and the answer last.
unsafe fn respond(
    outcome: Outcome,
    outputs: &[(*mut u8, usize)],
    answer: *mut u8,
    answer_length: usize,
) -> usize {
    for (bytes, (at, length)) in outcome.writes.iter().zip(outputs) {
        lent(*at, *length)[..bytes.len()].copy_from_slice(bytes);
        if making(WritesOnePastEnd) {
            *at.add(bytes.len()) = 0;
        }
    }
    if making(WritesOnRefusal) && outcome.word == operations::REFUSED {
        for (at, length) in outputs {
            lent(*at, *length).fill(2);
        }
    }
    let full = outcome.answer_bytes();
    let told = if making(AnswerNotCleared) {
        &full[..4 * (1 + outcome.numbers.len())]
    } else {
        &full[..]
    };
    let told = &told[..told.len().min(answer_length)];
    lent(answer, answer_length)[..told.len()].copy_from_slice(told);
    if making(AnswerOneByteTooLong) {
        *answer.add(ANSWER_BYTES) = 0;
    }
    outcome.word as usize
}

fn too_short(answer_length: usize) -> bool {
    let least = if making(AnswerInThirtyNineBytes) {
        ANSWER_BYTES - 1
    } else {
        ANSWER_BYTES
    };
    answer_length < least
}

pub unsafe extern "C" fn sizes(
    job: *const u8,
    job_length: usize,
    answer: *mut u8,
    answer_length: usize,
) -> usize {
    if too_short(answer_length) {
        return 0;
    }
    let bytes = lent_to_read(job, job_length);
    let outcome = match read(bytes) {
        Err(refusal) => Outcome::refused(refusal),
        Ok(_) => {
            let header = stored::header_of(bytes);
            let numbers = [header.k as usize, header.n, header.e, header.c];
            Outcome::new(operations::DONE, numbers.map(|n| n as u32).to_vec())
        }
    };
    respond(outcome, &[], answer, answer_length)
}

#[allow(clippy::too_many_arguments)]
pub unsafe extern "C" fn unpack(
    job: *const u8,
    job_length: usize,
    nodes: *mut u8,
    nodes_length: usize,
    expressions: *mut u8,
    expressions_length: usize,
    clauses: *mut u8,
    clauses_length: usize,
    answer: *mut u8,
    answer_length: usize,
) -> usize {
    if too_short(answer_length) {
        return 0;
    }
    let rooms = [nodes_length, expressions_length, clauses_length];
    let mut outcome = operations::unpack(lent_to_read(job, job_length), rooms);
    if making(UnpackLooksAtTheRoomForNodesOnly) {
        let enough = [nodes_length, usize::MAX, usize::MAX];
        outcome = operations::unpack(lent_to_read(job, job_length), enough);
        for (written, room) in outcome.writes.iter_mut().zip(rooms) {
            written.truncate(room);
        }
    }
    let outputs = [
        (nodes, nodes_length),
        (expressions, expressions_length),
        (clauses, clauses_length),
    ];
    respond(outcome, &outputs, answer, answer_length)
}

#[allow(clippy::too_many_arguments)]
pub unsafe extern "C" fn pack(
    k: usize,
    nodes: *const u8,
    nodes_length: usize,
    expressions: *const u8,
    expressions_length: usize,
    clauses: *const u8,
    clauses_length: usize,
    out: *mut u8,
    out_length: usize,
    answer: *mut u8,
    answer_length: usize,
) -> usize {
    if too_short(answer_length) {
        return 0;
    }
    let lists = [
        lent_to_read(nodes, nodes_length),
        lent_to_read(expressions, expressions_length),
        lent_to_read(clauses, clauses_length),
    ];
    let outcome = outcome_of_pack(k as u64, lists, out_length);
    respond(outcome, &[(out, out_length)], answer, answer_length)
}

#[allow(clippy::too_many_arguments)]
pub unsafe extern "C" fn row(
    job: *const u8,
    job_length: usize,
    case: usize,
    time: usize,
    out: *mut u8,
    out_length: usize,
    answer: *mut u8,
    answer_length: usize,
) -> usize {
    if too_short(answer_length) {
        return 0;
    }
    let bytes = lent_to_read(job, job_length);
    let outcome = outcome_of_row(bytes, case as u64, time as u64, out_length);
    respond(outcome, &[(out, out_length)], answer, answer_length)
}

pub unsafe extern "C" fn one_case(
    job: *const u8,
    job_length: usize,
    case: usize,
    answer: *mut u8,
    answer_length: usize,
) -> usize {
    if too_short(answer_length) {
        return 0;
    }
    let outcome = outcome_of_case(lent_to_read(job, job_length), case as u64);
    respond(outcome, &[], answer, answer_length)
}

pub unsafe extern "C" fn check(
    job: *const u8,
    job_length: usize,
    answer: *mut u8,
    answer_length: usize,
) -> usize {
    if too_short(answer_length) {
        return 0;
    }
    let outcome = match read(lent_to_read(job, job_length)) {
        Err(refusal) => Outcome::refused(refusal),
        Ok(job) => outcome_of_job(&job),
    };
    if making(JobAltered) && job_length > 0 {
        *job.cast_mut() ^= 1;
    }
    respond(outcome, &[], answer, answer_length)
}
