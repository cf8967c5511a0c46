//! The C function on texts by the reader that walks, with a mistake to choose: shows that the comparison sees it.

use super::mistakes::{making, Mistake::*};
use super::reader::Reading;
use super::walk::walked;
use crate::checker::operations::{Outcome, ANSWER_BYTES, DONE, REFUSED};
use crate::checker::stored::{refusal, Refusal};

fn within_limits(k: usize, n: usize) -> bool {
    let variables = k <= 12 || making(VariablesNotChecked);
    let nodes = (1..=1_008).contains(&n)
        || making(NodesNotChecked)
        || making(NoNodesAccepted) && n == 0
        || making(Nodes1009Accepted) && n == 1_009;
    variables && nodes
}

fn cut(number: usize, bound: usize, mistaken: bool) -> usize {
    if mistaken {
        number % bound
    } else {
        number
    }
}

fn outcome(k: usize, n: usize, text: &[u8], rooms: [usize; 2]) -> Outcome {
    let k = cut(k, 256, making(VariablesCutToAByte));
    let n = cut(n, 65_536, making(NodesCutTo16Bits));
    let hardly_room = rooms.iter().any(|room| *room < 8);
    if making(RoomBeforeLimits) && hardly_room && !within_limits(k, n) {
        return Outcome::refused(refusal(13));
    }
    if !within_limits(k, n) && !making(TextBeforeLimits) {
        return Outcome::refused(refusal(4));
    }
    // no node has so many digits, and a mistake adds one
    let walked = walked(k, n.min(1 << 20), text);
    match walked.stop {
        Some(_) if making(RoomBeforeText) && hardly_room => Outcome::refused(refusal(13)),
        Some(place) => outcome_of_stop(place, &walked.reading, rooms),
        None if !within_limits(k, n) => Outcome::refused(refusal(4)),
        None => outcome_with_room(&walked.reading, text, rooms),
    }
}

/// What was read up to the stop concerns nobody, but for some mistakes.
fn outcome_of_stop(place: usize, before: &Reading, rooms: [usize; 2]) -> Outcome {
    let lists = lists_of(before);
    let overrun = lists
        .iter()
        .zip(rooms)
        .any(|(list, room)| list.len() > room);
    if making(RoomRunsOutBeforeTheText) && overrun {
        return Outcome::refused(refusal(13));
    }
    let mut outcome = Outcome::refused(refusal_at(place));
    if making(WrittenUpToTheStop) && !overrun {
        outcome.writes = lists.to_vec();
    }
    outcome
}

fn lists_of(reading: &Reading) -> [Vec<u8>; 2] {
    [reading.expressions.concat(), reading.clauses.concat()]
}

fn refusal_at(place: usize) -> Refusal {
    let (low, high) = (place as u32, (place as u64 >> 32) as u32);
    let (block, record) = if making(PlaceInTheThirdNumber) {
        (high, low)
    } else {
        (low, high)
    };
    Refusal {
        number: 15,
        block,
        record,
    }
}

/// Whether each list is longer than its room.
fn shortages(lengths: [usize; 2], rooms: [usize; 2]) -> [bool; 2] {
    let short = |list: usize| match () {
        _ if making(RoomOneByteTooMany) => lengths[list] + 1 > rooms[list],
        _ if making(RoomOneByteTooFew) => lengths[list] > rooms[list] + 1,
        _ if making(RoomSummed) => lengths[0] + lengths[1] > rooms[0] + rooms[1],
        _ => lengths[list] > rooms[list],
    };
    [
        short(0) && !making(RoomOfExpressionsNotChecked),
        short(1) && !making(RoomOfClausesNotChecked),
    ]
}

fn outcome_with_room(reading: &Reading, text: &[u8], rooms: [usize; 2]) -> Outcome {
    let mut lists = lists_of(reading);
    let lengths = lists.each_ref().map(|list| list.len());
    let short = shortages(lengths, rooms);
    for (list, room) in lists.iter_mut().zip(rooms) {
        let written = if making(RestCleared) {
            room
        } else {
            room.min(list.len())
        };
        list.resize(written, 0);
    }
    if short.contains(&true) {
        return outcome_without_room(short, &lists, text);
    }
    let mut counts = [reading.expressions.len(), reading.clauses.len()];
    if making(CountsInBytes) {
        counts = lengths;
    }
    if making(CountsSwapped) {
        counts.swap(0, 1);
    }
    let mut outcome = Outcome::new(DONE, counts.map(|count| count as u32).to_vec());
    outcome.writes = lists.to_vec();
    outcome
}

fn outcome_without_room(short: [bool; 2], lists: &[Vec<u8>; 2], text: &[u8]) -> Outcome {
    let mut refusal = refusal(13);
    if making(RoomWithPlace) {
        refusal.block = text.len() as u32;
    }
    let mut outcome = Outcome::refused(refusal);
    if making(ExpressionsWrittenBeforeClausesAreMeasured) && !short[0] {
        outcome.writes = vec![lists[0].clone()];
    }
    outcome
}

unsafe fn lent<'a>(at: *mut u8, length: usize) -> &'a mut [u8] {
    std::slice::from_raw_parts_mut(at, length)
}

/// Writes the lists as an outcome says, or as a mistake would.
unsafe fn write_lists(outcome: &Outcome, lists: [(*mut u8, usize); 2]) {
    for (bytes, (at, length)) in outcome.writes.iter().zip(lists) {
        lent(at, length)[..bytes.len()].copy_from_slice(bytes);
        if making(WritesOnePastTheEnd) {
            *at.add(bytes.len()) ^= 1;
        }
    }
    let refused = outcome.word == REFUSED;
    let short = outcome.refusal_number() == Some(13);
    let touched = [
        refused && making(ExpressionsTouchedWhenRefused) || short && making(TouchedWhenRoomIsShort),
        refused && making(ClausesTouchedWhenRefused),
    ];
    for (at, length) in lists.into_iter().zip(touched).filter(|t| t.1).map(|t| t.0) {
        lent(at, length).iter_mut().for_each(|byte| *byte ^= 1);
    }
}

unsafe fn write_answer(outcome: &Outcome, answer: *mut u8, answer_length: usize) {
    let full = outcome.answer_bytes();
    let told = if making(AnswerNotCleared) {
        &full[..4 * (1 + outcome.numbers.len())]
    } else {
        &full[..]
    };
    let told = &told[..told.len().min(answer_length)];
    lent(answer, answer_length)[..told.len()].copy_from_slice(told);
    if making(AnswerOneByteTooLong) {
        *answer.add(ANSWER_BYTES) ^= 1;
    }
}

#[allow(clippy::too_many_arguments)]
pub unsafe extern "C" fn text(
    k: usize,
    n: usize,
    text: *const u8,
    text_length: usize,
    expressions: *mut u8,
    expressions_length: usize,
    clauses: *mut u8,
    clauses_length: usize,
    answer: *mut u8,
    answer_length: usize,
) -> usize {
    let bytes = std::slice::from_raw_parts(text, text_length);
    let lists = [(expressions, expressions_length), (clauses, clauses_length)];
    let outcome = outcome(k, n, bytes, [expressions_length, clauses_length]);
    if answer_length < ANSWER_BYTES - usize::from(making(AnswerInThirtyNineBytes)) {
        if making(ShortAnswerStillWritesLists) {
            write_lists(&outcome, lists);
        }
        return 0;
    }
    write_lists(&outcome, lists);
    write_answer(&outcome, answer, answer_length);
    if making(TextAltered) && text_length > 0 {
        *text.cast_mut() ^= 1;
    }
    if making(ReturnsZero) && outcome.word == REFUSED {
        return 0;
    }
    outcome.word as usize
}
