//! Which calls are made on a text: lists on both sides of long enough, answers likewise, and the text cut short.

use super::calls::{shown, Calls, Given};
use super::generate::Sample;
use super::mock;
use super::place::{can_complete, find, place_from_the_front, Finding};
use super::reader::{is_gap, Limits};
use crate::checker::operations::ANSWER_BYTES;
use crate::generate::random::Random;

const LONG_ENOUGH_FOR_ALL: [usize; 2] = [8 * 504 + 30, 8 * 504 + 30];
/// Texts below this length are asked at every place.
const SHORT: usize = 150;

pub fn try_sample(calls: &mut Calls, sample: &Sample, random: &mut Random) {
    let Sample { k, n, ref text, .. } = *sample;
    let finding = find(k, n, text);
    let given = Given::new(k, n, text, &finding);
    calls.spread.note_text(given);
    try_rooms(calls, given, random);
    if sample.every_place {
        try_every_place(calls, sample);
    }
}

fn try_rooms(calls: &mut Calls, given: Given, random: &mut Random) {
    let needs = given.finding.needs();
    calls.call(given, needs, ANSWER_BYTES);
    let long = needs.map(|need| need + 1 + random.below(40));
    calls.call(given, long, answer_room(random));
    let short = random.below(2);
    let mut one_short = needs;
    one_short[short] = needs[short].saturating_sub(1);
    one_short[1 - short] += random.pick(&[0, 0, 9]);
    calls.call(given, one_short, answer_room(random));
    let near = needs.map(|need| random.pick(&[need, 0, 7, need / 2, need.saturating_sub(8)]));
    calls.call(given, near, answer_room(random));
}

/// Mostly as much as is needed.
fn answer_room(random: &mut Random) -> usize {
    if random.one_in(2) {
        random.pick(&[39, 39, 64, 64, 0, 41])
    } else {
        ANSWER_BYTES
    }
}

fn try_every_place(calls: &mut Calls, sample: &Sample) {
    let Sample { k, n, ref text, .. } = *sample;
    for end in 0..text.len() {
        let finding = find(k, n, &text[..end]);
        let given = Given::new(k, n, &text[..end], &finding);
        calls.spread.note_text(given);
        calls.call(given, LONG_ENOUGH_FOR_ALL, ANSWER_BYTES);
    }
}

/// What is small enough to be tried in full.
pub fn try_all_of_a_kind(calls: &mut Calls) {
    try_every_byte(calls);
    try_every_short_guard(calls);
}

/// Texts with each byte in place of each of theirs, and before it: all that a single byte can do.
fn try_every_byte(calls: &mut Calls) {
    let texts: [(usize, usize, &[u8]); 2] = [
        (3, 13, b"given when a & !(b ^ c) : 12 is 1 at 3 ; expect"),
        (12, 1_008, b"given expect when!(l|0):1007 is 0 at 255;"),
    ];
    for (k, n, text) in texts {
        for place in 0..text.len() {
            for byte in 0..=u8::MAX {
                let replaced = [&text[..place], &[byte], &text[place + 1..]].concat();
                let inserted = [&text[..place], &[byte], &text[place..]].concat();
                try_one(calls, k, n, &replaced);
                try_one(calls, k, n, &inserted);
            }
        }
    }
}

/// All guards of four bytes, from one byte of each kind.
fn try_every_short_guard(calls: &mut Calls) {
    const KINDS: &[u8; 10] = b"a1!&^|(): ";
    for number in 0..10_000_usize {
        let guard = [1_000, 100, 10, 1].map(|place| KINDS[number / place % 10]);
        let text = [b"given when ", &guard[..], b":0 is 0 at 0;expect"].concat();
        try_one(calls, 1, 1, &text);
    }
}

fn try_one(calls: &mut Calls, k: usize, n: usize, text: &[u8]) {
    let finding = find(k, n, text);
    let given = Given::new(k, n, text, &finding);
    calls.call(given, LONG_ENOUGH_FOR_ALL, ANSWER_BYTES);
}

/// Any bytes as a text, with the rooms given and with those that are just enough, if any are.
pub fn try_raw(calls: &mut Calls, k: usize, n: usize, text: &[u8], rooms: [usize; 2], room: usize) {
    let finding = find(k, n, text);
    let given = Given::new(k, n, text, &finding);
    calls.call(given, rooms, room);
    calls.call(given, LONG_ENOUGH_FOR_ALL, ANSWER_BYTES);
    let needs = finding.needs();
    calls.call(given, needs, ANSWER_BYTES);
    for short in 0..2 {
        let mut rooms = needs;
        rooms[short] = rooms[short].saturating_sub(1);
        calls.call(given, rooms, ANSWER_BYTES);
    }
}

/// What the second reader must agree with: how the text was made, itself asked otherwise, and the walking reader.
pub fn try_second_reader(calls: &mut Calls, sample: &Sample, random: &mut Random) {
    let Sample { k, n, ref text, .. } = *sample;
    let finding = find(k, n, text);
    let complain = |what: &str| {
        let shown = shown(text);
        format!("{} (k={k} n={n} {shown:?}): {what}", sample.what)
    };
    let wrongs = [
        against_its_making(sample, &finding),
        start_missed(sample, random),
        place_otherwise(sample, &finding),
    ];
    for wrong in wrongs {
        calls.count(wrong.map(complain));
    }
    let mut walk = Calls::new(Some(mock::text), random.next());
    try_rooms(&mut walk, Given::new(k, n, text, &finding), random);
    calls.count(walk.complaints.pop());
}

fn against_its_making(sample: &Sample, finding: &Finding) -> Option<&'static str> {
    let known = sample.known.as_ref()?;
    let same = matches!(finding, Finding::Reads(reading) if reading == known);
    (!same).then_some("other records than it was made of")
}

/// The place again, asked of each start by itself if the text is short.
fn place_otherwise(sample: &Sample, finding: &Finding) -> Option<&'static str> {
    let Finding::Stops(place) = *finding else {
        return None;
    };
    let text = &sample.text;
    let limits = Limits::of(sample.k, sample.n);
    if text.len() < SHORT && place_from_the_front(text, &limits) != place {
        return Some("another place from the front");
    }
    // a gap byte may stand wherever another has just stood
    let both_gaps = |at: usize| at > 0 && text[at - 1..].iter().take(2).all(|byte| is_gap(*byte));
    (place < text.len() && both_gaps(place)).then_some("stops at the second of two gap bytes")
}

/// Every start of an accepted text can be completed; of a long one only some are asked.
fn start_missed(sample: &Sample, random: &mut Random) -> Option<&'static str> {
    sample.known.as_ref()?;
    let limits = Limits::of(sample.k, sample.n);
    let length = sample.text.len();
    let mut ends: Vec<usize> = if length < SHORT {
        (0..=length).collect()
    } else {
        (length - 3..=length).collect()
    };
    for _ in 0..6 {
        ends.push(random.below(length));
    }
    let missed = |end: &usize| !can_complete(&sample.text[..*end], &limits);
    ends.iter()
        .any(missed)
        .then_some("a start of it has no completion")
}
