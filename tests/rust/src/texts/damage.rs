//! Texts that are wrong in one place, in every part of the grammar, and some that are wrong all over.

use super::draft::{any_gap, any_spacing, is_run, spaced, Draft};
use super::generate::{any_k, any_n, deep, few, full, mostly_usual, ordinary, Sample};
use super::guards::Item;
use super::reader::is_gap;
use crate::generate::random::Random;

type ItemDamage = fn(&mut Vec<Item>, &Draft, &mut Random);
type ByteDamage = fn(&mut Vec<u8>, &mut Random);

const ITEM_DAMAGES: [(&str, ItemDamage); 15] = [
    ("item dropped", drop_item),
    ("item doubled", double_item),
    ("items exchanged", exchange_items),
    ("item replaced", replace_item),
    ("item inserted", insert_item),
    ("word misspelt", misspell),
    ("leading zero", lead_with_zero),
    ("number at a limit", number_at_limit),
    ("time at a limit", time_at_limit),
    ("value at a limit", value_at_limit),
    ("needed gap dropped", join_runs),
    ("operand dropped", drop_operand),
    ("letter about k", letter_about_k),
    ("bracket too many", insert_bracket),
    ("item after the end", append_item),
];

const BYTE_DAMAGES: [(&str, ByteDamage); 10] = [
    ("byte changed", change_byte),
    ("byte dropped", drop_byte),
    ("byte inserted", insert_byte),
    ("bytes exchanged", exchange_bytes),
    ("cut off", cut_off),
    ("byte after the end", append_byte),
    ("gap dropped", drop_gap),
    ("gap in an item", insert_gap),
    ("another byte for a gap", replace_gap),
    ("letter case or high bit", flip_high_bit),
];

/// Every item that a text can have, and some that none has.
const ITEMS: [&str; 38] = [
    "given", "expect", "when", "is", "at", "0", "1", "2", "9", "10", "255", "256", "007", "00",
    "01", "a", "b", "l", "m", "z", "!", "&", "^", "|", "(", ")", ":", ";", "Given", "whenn", "exp",
    "and", "~", "=", "0x1", "-1", "+1", "1.0",
];

const ODD_BYTES: [u8; 20] = [
    0, 9, 11, 12, 31, 33, 47, 58, 64, 91, 96, 123, 127, 128, 133, 160, 176, 225, 254, 255,
];

fn place<T>(list: &[T], random: &mut Random) -> usize {
    random.below(list.len().max(1))
}

/// The place of an item of some kind, if there is one.
fn place_of(items: &[Item], kind: fn(&[u8]) -> bool, random: &mut Random) -> Option<usize> {
    let places: Vec<usize> = (0..items.len()).filter(|&at| kind(&items[at])).collect();
    (!places.is_empty()).then(|| random.pick(&places))
}

fn is_number(item: &[u8]) -> bool {
    item.iter().all(u8::is_ascii_digit)
}

fn is_letter(item: &[u8]) -> bool {
    item.len() == 1 && item[0].is_ascii_lowercase()
}

/// Some values and times look like operands too, and lack just as much.
fn is_operand(item: &[u8]) -> bool {
    is_letter(item) || item == b"0" || item == b"1"
}

fn is_word(item: &[u8]) -> bool {
    item.len() > 1 && item[0].is_ascii_lowercase()
}

pub fn any_item(random: &mut Random) -> Item {
    Item::from(random.pick(&ITEMS))
}

fn drop_item(items: &mut Vec<Item>, _: &Draft, random: &mut Random) {
    items.remove(place(items, random));
}

fn double_item(items: &mut Vec<Item>, _: &Draft, random: &mut Random) {
    let at = place(items, random);
    items.insert(at, items[at].clone());
}

fn exchange_items(items: &mut Vec<Item>, _: &Draft, random: &mut Random) {
    let at = place(items, random);
    let anywhere = place(items, random);
    let other = random.pick(&[(at + 1) % items.len(), anywhere]);
    items.swap(at, other);
}

fn replace_item(items: &mut Vec<Item>, _: &Draft, random: &mut Random) {
    let at = place(items, random);
    items[at] = any_item(random);
}

fn insert_item(items: &mut Vec<Item>, _: &Draft, random: &mut Random) {
    let at = random.between(0, items.len());
    items.insert(at, any_item(random));
}

fn misspell(items: &mut Vec<Item>, _: &Draft, random: &mut Random) {
    let Some(at) = place_of(items, is_word, random) else {
        return;
    };
    let word = &mut items[at];
    let letter = place(word, random);
    match random.below(5) {
        0 => drop(word.remove(letter)),
        1 => word[letter] = b'a' + random.below(26) as u8,
        2 => word.insert(letter, word[letter]),
        3 => word.make_ascii_uppercase(),
        _ => word.truncate(letter),
    }
}

fn lead_with_zero(items: &mut Vec<Item>, _: &Draft, random: &mut Random) {
    if let Some(at) = place_of(items, is_number, random) {
        items[at].insert(0, b'0');
    }
}

fn number_at_limit(items: &mut Vec<Item>, draft: &Draft, random: &mut Random) {
    let n = draft.n;
    let numbers = [
        n - 1,
        n,
        n + 1,
        10 * n,
        2,
        10,
        254,
        255,
        256,
        260,
        1_000,
        65_536,
        1 << 32,
    ];
    if let Some(at) = place_of(items, is_number, random) {
        items[at] = Item::from(random.pick(&numbers).to_string());
    }
    if random.one_in(20) {
        let at = place(items, random);
        items[at] = Item::from("18446744073709551616");
    }
}

/// The place of an item that stands after a certain one, if there is one.
fn place_after(items: &[Item], before: &[u8], random: &mut Random) -> Option<usize> {
    let follows = |at: &usize| items[at - 1] == before;
    let places: Vec<usize> = (1..items.len()).filter(follows).collect();
    (!places.is_empty()).then(|| random.pick(&places))
}

fn time_at_limit(items: &mut Vec<Item>, _: &Draft, random: &mut Random) {
    let times = [254, 255, 256, 257, 260, 299, 300, 999, 1_000, 2_550, 65_535];
    if let Some(at) = place_after(items, b"at", random) {
        items[at] = Item::from(random.pick(&times).to_string());
    }
}

fn value_at_limit(items: &mut Vec<Item>, _: &Draft, random: &mut Random) {
    if let Some(at) = place_after(items, b"is", random) {
        items[at] = Item::from(random.pick(&["2", "2", "3", "10", "11", "00", "01", "x"]));
    }
}

/// Two items that need a gap between them, without one; often before a guard, where many kinds of items follow.
fn join_runs(items: &mut Vec<Item>, _: &Draft, random: &mut Random) {
    let any = random.one_in(2);
    let both = |at: &usize| {
        let wanted = any || items[*at] == b"when";
        wanted && is_run(&items[*at]) && is_run(&items[at + 1])
    };
    let places: Vec<usize> = (0..items.len() - 1).filter(both).collect();
    if !places.is_empty() {
        let at = random.pick(&places);
        let second = items.remove(at + 1);
        items[at].extend(second);
    }
}

/// An operand dropped, or put into brackets and dropped.
fn drop_operand(items: &mut Vec<Item>, _: &Draft, random: &mut Random) {
    let Some(at) = place_of(items, is_operand, random) else {
        return;
    };
    if random.one_in(2) {
        items.splice(at..=at, [Item::from("("), Item::from(")")]);
    } else {
        items.remove(at);
    }
}

fn letter_about_k(items: &mut Vec<Item>, draft: &Draft, random: &mut Random) {
    let about = [draft.k.saturating_sub(1), draft.k, draft.k, draft.k + 1, 25];
    if let Some(at) = place_of(items, is_letter, random) {
        items[at] = vec![b'a' + random.pick(&about) as u8];
    }
}

fn insert_bracket(items: &mut Vec<Item>, _: &Draft, random: &mut Random) {
    let at = random.between(0, items.len());
    items.insert(at, vec![random.pick(b"()")]);
}

fn append_item(items: &mut Vec<Item>, _: &Draft, random: &mut Random) {
    items.push(any_item(random));
}

fn any_byte(random: &mut Random) -> u8 {
    match random.below(4) {
        0 => random.byte(),
        1 => random.pick(&ODD_BYTES),
        _ => random.pick(b"abcelgiwxz0129!&^|():; \n\rA"),
    }
}

fn change_byte(text: &mut Vec<u8>, random: &mut Random) {
    let at = place(text, random);
    text[at] = any_byte(random);
}

fn drop_byte(text: &mut Vec<u8>, random: &mut Random) {
    text.remove(place(text, random));
}

fn insert_byte(text: &mut Vec<u8>, random: &mut Random) {
    let at = random.between(0, text.len());
    text.insert(at, any_byte(random));
}

fn exchange_bytes(text: &mut Vec<u8>, random: &mut Random) {
    let at = place(text, random);
    let anywhere = place(text, random);
    let other = random.pick(&[(at + 1) % text.len(), anywhere]);
    text.swap(at, other);
}

fn append_byte(text: &mut Vec<u8>, random: &mut Random) {
    let any = any_byte(random);
    text.push(random.pick(&[0, 9, b';', any]));
}

fn cut_off(text: &mut Vec<u8>, random: &mut Random) {
    text.truncate(place(text, random));
}

fn place_of_gap(text: &[u8], random: &mut Random) -> Option<usize> {
    let places: Vec<usize> = (0..text.len()).filter(|&at| is_gap(text[at])).collect();
    (!places.is_empty()).then(|| random.pick(&places))
}

/// The whole run of gap bytes, so that two items touch.
fn drop_gap(text: &mut Vec<u8>, random: &mut Random) {
    let Some(mut at) = place_of_gap(text, random) else {
        return;
    };
    while at > 0 && is_gap(text[at - 1]) {
        at -= 1;
    }
    while at < text.len() && is_gap(text[at]) {
        text.remove(at);
    }
}

fn insert_gap(text: &mut Vec<u8>, random: &mut Random) {
    let at = random.between(0, text.len());
    text.insert(at, any_gap(random));
}

fn replace_gap(text: &mut Vec<u8>, random: &mut Random) {
    if let Some(at) = place_of_gap(text, random) {
        text[at] = random.pick(&[9, 9, 0, 11, 12, 133, 160, 44, 95]);
    }
}

fn flip_high_bit(text: &mut Vec<u8>, random: &mut Random) {
    let at = place(text, random);
    text[at] ^= random.pick(&[0x20, 0x80]);
}

fn any_draft(random: &mut Random) -> (&'static str, Draft) {
    match random.below(80) {
        0 => ("full", full(random)),
        1..=6 => ("deep", deep(random)),
        7..=35 => ("few", few(random)),
        _ => ("ordinary", ordinary(random)),
    }
}

/// One damage, now and then two.
pub fn damaged(random: &mut Random) -> Sample {
    let (of, draft) = any_draft(random);
    let mut items = draft.items();
    let mut what = of.to_string();
    let on_items = random.one_in(2);
    if on_items {
        let (name, damage) = random.pick(&ITEM_DAMAGES);
        damage(&mut items, &draft, random);
        what = format!("{what}, {name}");
    }
    let mut text = spaced(&items, any_spacing(random), random);
    if !on_items || random.one_in(10) {
        let (name, damage) = random.pick(&BYTE_DAMAGES);
        damage(&mut text, random);
        what = format!("{what}, {name}");
    }
    Sample {
        what,
        k: draft.k,
        n: draft.n,
        every_place: text.len() < 130 && random.one_in(100),
        text,
        known: None,
    }
}

/// Items in no order, after a beginning that is right.
pub fn soup(random: &mut Random) -> Sample {
    let beginnings = [
        "",
        "given",
        "given when",
        "given when 0 :",
        "given when 1 : 0 is",
        "given when ( 0 : ",
        "given expect",
        "given expect when 1 : 0 is 1 at",
        "given when 0 : 0 is 0 at 0 ;",
    ];
    let beginning = random.pick(&beginnings).split_whitespace();
    let mut items: Vec<Item> = beginning.map(Item::from).collect();
    for _ in 0..random.below(12) {
        items.push(any_item(random));
    }
    let spacing = mostly_usual(random);
    let text = spaced(&items, spacing, random);
    unknown("items in no order", text, random)
}

/// Bytes of no meaning.
pub fn bytes(random: &mut Random) -> Sample {
    let length = random.pick(&[0, 1, 2, 5, 40]);
    let text = (0..length).map(|_| any_byte(random)).collect();
    unknown("bytes in no order", text, random)
}

fn unknown(what: &str, text: Vec<u8>, random: &mut Random) -> Sample {
    Sample {
        what: what.to_string(),
        k: any_k(random),
        n: any_n(random),
        text,
        known: None,
        every_place: false,
    }
}
