//! Damage of every kind that the paper names, to records and to blocks.

use super::draft::{mend, Draft};
use super::random::Random;
use crate::checker::stored::{Record, BLOCK, RECORD};

/// What can be done to a stored job. The order is that of the refusals which it mostly leads to.
const DAMAGES: [(&str, fn(&mut Vec<u8>, &mut Random)); 12] = [
    ("length", wrong_length),
    ("number", wrong_number),
    ("exchanged blocks", exchanged_blocks),
    ("header", wrong_header),
    ("header count", wrong_header_count),
    ("block count", wrong_block_count),
    ("kind", wrong_kind),
    ("used count", wrong_used_count),
    ("rest", wrong_rest),
    ("any byte", any_byte),
    ("exchanged words", exchanged_words),
    ("zero block", zero_block),
];

const RECORD_DAMAGES: [(&str, fn(&mut Draft, &mut Random)); 3] = [
    ("gate", wrong_gate),
    ("expression", wrong_expression),
    ("clause", wrong_clause),
];

/// The bytes of a draft after one to three damages, mostly mended so that the late refusals are reached.
pub fn damaged(draft: &Draft, random: &mut Random) -> (String, Vec<u8>) {
    let mut what = String::from("damaged:");
    let mut draft = draft.clone();
    let mut in_blocks = 0;
    for _ in 0..random.pick(&[1, 1, 1, 2, 2, 3]) {
        if random.one_in(2) {
            in_blocks += 1;
        } else {
            damage_a_record(&mut draft, random, &mut what);
        }
    }
    let mut bytes = draft.bytes();
    for _ in 0..in_blocks {
        let (name, damage) = random.pick(&DAMAGES);
        for _ in 0..times(random) {
            what.push_str(&format!(" {name}"));
            damage(&mut bytes, random);
        }
    }
    if in_blocks > 0 && !random.one_in(8) {
        mend(&mut bytes);
    }
    if random.one_in(16) {
        for _ in 0..times(random) {
            what.push_str(" unmended byte");
            any_byte(&mut bytes, random);
        }
    }
    (what, bytes)
}

fn damage_a_record(draft: &mut Draft, random: &mut Random, what: &mut String) {
    let (name, damage) = random.pick(&RECORD_DAMAGES);
    for _ in 0..times(random) {
        what.push_str(&format!(" {name}"));
        damage(draft, random);
    }
}

/// The same damage twice shows whether the first place is named.
fn times(random: &mut Random) -> usize {
    random.pick(&[1, 1, 1, 2])
}

/// Lists for packing, from a draft, with its refusals reached in about half of them.
pub fn packing(draft: &Draft, random: &mut Random) -> (u64, [Vec<u8>; 3]) {
    let mut draft = draft.clone();
    if random.one_in(3) {
        damage_a_record(&mut draft, random, &mut String::new());
    }
    if random.one_in(8) {
        wrong_list_length(&mut draft, random);
    }
    let mut lists = draft.lists();
    if random.one_in(8) {
        let extra = random.between(1, 7);
        let list = &mut lists[random.below(3)];
        list.extend((0..extra).map(|_| 0));
    }
    let k = u64::from(draft.k);
    let k = if random.one_in(8) {
        random.pick(&[13, 14, 255, 256 + k, 65_536 + k, (1 << 32) + k, u64::MAX])
    } else {
        k
    };
    (k, lists)
}

fn wrong_list_length(draft: &mut Draft, random: &mut Random) {
    match random.below(4) {
        0 => draft.nodes.clear(),
        1 => draft
            .nodes
            .resize(random.pick(&[1_009, 1_100, 65_537]), [0; 8]),
        2 => draft
            .expressions
            .resize(random.pick(&[505, 600, 65_536]), [0; 8]),
        _ => draft
            .clauses
            .resize(random.pick(&[505, 567, 65_600]), [0; 8]),
    }
}

fn set_u16(bytes: &mut [u8], at: usize, value: usize) {
    bytes[at..at + 2].copy_from_slice(&(value as u16).to_le_bytes());
}

fn any_index(list: &[Record], random: &mut Random) -> Option<usize> {
    (!list.is_empty()).then(|| random.below(list.len()))
}

/// A number that is not below the bound.
fn beyond(bound: usize, random: &mut Random) -> usize {
    let above = random.below(300);
    random.pick(&[bound, bound, bound + 1, bound + above, 65_535])
}

fn wrong_gate(draft: &mut Draft, random: &mut Random) {
    let n = draft.nodes.len();
    let Some(index) = any_index(&draft.nodes, random) else {
        return;
    };
    let record = &mut draft.nodes[index];
    match random.below(6) {
        0 => record[0] = random.pick(&[9, 10, 16, 128, 255]),
        1 => record[1] = random.pick(&[1, 2, 128, 255]),
        2 => record[0] = random.pick(&[0, 1, 2, 3, 4, 5, 6, 7, 8]),
        3 => set_u16(record, random.pick(&[2, 4, 6]), random.between(1, n)),
        _ => set_u16(record, random.pick(&[2, 4, 6]), beyond(n, random)),
    }
}

fn wrong_expression(draft: &mut Draft, random: &mut Random) {
    let k = usize::from(draft.k);
    let Some(index) = any_index(&draft.expressions, random) else {
        return;
    };
    let record = &mut draft.expressions[index];
    let operand = random.pick(&[2, 4]);
    match random.below(8) {
        0 => record[0] = random.pick(&[7, 8, 16, 128, 255]),
        1 => record[1] = random.pick(&[1, 2, 128, 255]),
        2 => set_u16(record, 6, random.pick(&[1, 256, 65_535])),
        3 => {
            record[0] = 2;
            set_u16(record, 2, beyond(k, random));
        }
        4 => record[0] = random.pick(&[0, 1, 2, 3, 4, 5, 6]),
        5 => set_u16(record, operand, random.between(1, 12)),
        _ => set_u16(record, operand, beyond(index, random)),
    }
}

fn wrong_clause(draft: &mut Draft, random: &mut Random) {
    let (n, e) = (draft.nodes.len(), draft.expressions.len());
    let Some(index) = any_index(&draft.clauses, random) else {
        return;
    };
    let record = &mut draft.clauses[index];
    match random.below(5) {
        0 => record[0] = random.pick(&[2, 3, 128, 255]),
        1 => record[1] = random.pick(&[2, 3, 128, 255]),
        2 => set_u16(record, 2, beyond(n, random)),
        3 => set_u16(record, 4, beyond(256, random)),
        _ => set_u16(record, 6, beyond(e, random)),
    }
}

fn blocks(bytes: &[u8]) -> usize {
    bytes.len() / BLOCK
}

/// The start of a block that is there.
fn any_block(bytes: &[u8], random: &mut Random) -> Option<usize> {
    (blocks(bytes) > 0).then(|| BLOCK * random.below(blocks(bytes)))
}

fn wrong_length(bytes: &mut Vec<u8>, random: &mut Random) {
    let length = bytes.len();
    let little = random.between(1, 511);
    let changed = random.pick(&[
        0,
        1,
        length + 1,
        length.saturating_sub(1),
        length + little,
        length.saturating_sub(little),
        16_895,
        16_897,
        17_408,
        17_920,
        40_000,
    ]);
    bytes.resize(changed, 0);
}

fn wrong_number(bytes: &mut Vec<u8>, random: &mut Random) {
    let Some(start) = any_block(bytes, random) else {
        return;
    };
    let own = start / BLOCK;
    set_u16(bytes, start, random.pick(&[own + 1, own + 256, 0, 65_535]));
}

fn exchanged_blocks(bytes: &mut Vec<u8>, random: &mut Random) {
    let (Some(one), Some(other)) = (any_block(bytes, random), any_block(bytes, random)) else {
        return;
    };
    // with their numbers, or without so that only kind and count betray it
    for at in random.pick(&[0, 2])..BLOCK {
        bytes.swap(one + at, other + at);
    }
}

fn wrong_header(bytes: &mut Vec<u8>, random: &mut Random) {
    if bytes.len() < BLOCK {
        return;
    }
    match random.below(7) {
        0 => bytes[2] = random.pick(&[0, 2, 3, 4, 255]),
        1 => bytes[3] = random.pick(&[0, 2, 63, 64, 255]),
        2 => bytes[4] = random.pick(&[0, 2, 255]),
        3 => bytes[5] = random.pick(&[13, 14, 64, 128, 255]),
        4 => set_u16(bytes, 6, random.pick(&[0, 1_009, 1_010, 65_535])),
        5 => set_u16(bytes, 8, random.pick(&[505, 506, 65_535])),
        _ => set_u16(bytes, 10, random.pick(&[505, 506, 65_535])),
    }
}

/// A header whose counts are lawful but not those of the blocks.
fn wrong_header_count(bytes: &mut Vec<u8>, random: &mut Random) {
    if bytes.len() < BLOCK {
        return;
    }
    let at = random.pick(&[6, 8, 10]);
    let count = usize::from(u16::from_le_bytes([bytes[at], bytes[at + 1]]));
    let changed = random.pick(&[count + 1, count.saturating_sub(1), count + 63, 1, 64, 504]);
    set_u16(bytes, at, changed);
}

fn wrong_block_count(bytes: &mut Vec<u8>, random: &mut Random) {
    let length = bytes.len();
    if random.one_in(2) && blocks(bytes) > 1 {
        bytes.truncate(length - BLOCK);
        return;
    }
    let Some(start) = any_block(bytes, random) else {
        return;
    };
    let again = bytes[start..start + BLOCK].to_vec();
    bytes.extend(again);
    let own = blocks(bytes) - 1;
    set_u16(bytes, BLOCK * own, own);
}

fn wrong_kind(bytes: &mut Vec<u8>, random: &mut Random) {
    if let Some(start) = any_block(bytes, random) {
        bytes[start + 2] = random.pick(&[0, 1, 2, 3, 4, 5, 128, 255]);
    }
}

fn wrong_used_count(bytes: &mut Vec<u8>, random: &mut Random) {
    if let Some(start) = any_block(bytes, random) {
        let used = bytes[start + 3];
        let changed = [used.wrapping_add(1), used.wrapping_sub(1), 0, 63, 64, 255];
        bytes[start + 3] = random.pick(&changed);
    }
}

fn wrong_rest(bytes: &mut Vec<u8>, random: &mut Random) {
    let Some(start) = any_block(bytes, random) else {
        return;
    };
    let first = 4 + RECORD * usize::from(bytes[start + 3]);
    if first < 508 {
        let at = random.between(first, 507);
        bytes[start + random.pick(&[first, at, 507])] = random.pick(&[1, 128, 255]);
    }
}

fn any_byte(bytes: &mut Vec<u8>, random: &mut Random) {
    if !bytes.is_empty() {
        let at = random.below(bytes.len());
        bytes[at] ^= random.pick(&[1, 2, 4, 8, 16, 32, 64, 128, 255]);
    }
}

/// The check does not see it.
fn exchanged_words(bytes: &mut Vec<u8>, random: &mut Random) {
    let Some(start) = any_block(bytes, random) else {
        return;
    };
    let (one, other) = (random.below(40), random.below(40));
    for at in 0..4 {
        bytes.swap(start + 4 * one + at, start + 4 * other + at);
    }
}

fn zero_block(bytes: &mut Vec<u8>, random: &mut Random) {
    if let Some(start) = any_block(bytes, random) {
        bytes[start..start + BLOCK].fill(0);
    }
}
