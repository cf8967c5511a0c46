//! The request's own example, and both sides of every border, worked by hand.

use super::calls::{Calls, Given};
use super::mock;
use super::place::{find, Finding};
use super::reader::{Reading, Record};
use crate::checker::operations::{Outcome, DONE, REFUSED};

const EXAMPLE: &str = "when a & !(b ^ c) : 12 is 1 at 3 ;";

/// What the second reader says, once the reader that walks has said the same with lists that suffice.
fn found(k: usize, n: usize, text: &str) -> Finding {
    let finding = find(k, n, text.as_bytes());
    let mut calls = Calls::new(Some(mock::text), 1);
    let given = Given::new(k, n, text.as_bytes(), &finding);
    calls.call(given, [5_000, 5_000], 40);
    assert_eq!(calls.complaints, Vec::<String>::new());
    finding
}

fn reads(k: usize, n: usize, text: &str) -> Reading {
    match found(k, n, text) {
        Finding::Reads(reading) => reading,
        other => panic!("{text:?} gives {other:?}"),
    }
}

#[track_caller]
fn stops(k: usize, n: usize, text: &str, place: usize) {
    assert_eq!(found(k, n, text), Finding::Stops(place), "{text:?}");
}

/// A text that stops at the one place marked with an arrow, which is no byte of it.
#[track_caller]
fn stops_at_arrow(k: usize, n: usize, marked: &str) {
    let place = marked.find('→').expect("an arrow");
    stops(k, n, &marked.replacen('→', "", 1), place);
}

fn guard_records(k: usize, guard: &str) -> Vec<Record> {
    reads(k, 1, &format!("given when {guard}: 0 is 0 at 0; expect")).expressions
}

fn record(code: u8, a: u8, b: u8) -> Record {
    [code, 0, a, 0, b, 0, 0, 0]
}

#[test]
fn the_example_of_the_request() {
    let records = [
        record(2, 0, 0),
        record(2, 1, 0),
        record(2, 2, 0),
        record(6, 1, 2),
        record(3, 3, 0),
        record(4, 0, 4),
    ];
    let under_given = reads(3, 13, &format!("given {EXAMPLE} expect"));
    assert_eq!(under_given.expressions, records);
    assert_eq!(under_given.clauses, [[0, 1, 12, 0, 3, 0, 5, 0]]);
    let under_expect = reads(3, 13, &format!("given expect {EXAMPLE}"));
    assert_eq!(under_expect.expressions, records);
    assert_eq!(under_expect.clauses, [[1, 1, 12, 0, 3, 0, 5, 0]]);
}

#[test]
fn the_example_with_limits_that_it_breaks() {
    stops_at_arrow(2, 13, "given when a & !(b ^ →c) : 12 is 1 at 3 ; expect");
    stops_at_arrow(0, 13, "given when →a & !(b ^ c) : 12 is 1 at 3 ; expect");
    stops_at_arrow(3, 12, "given when a & !(b ^ c) : 1→2 is 1 at 3 ; expect");
    stops_at_arrow(3, 1, "given when a & !(b ^ c) : →12 is 1 at 3 ; expect");
    for (k, n) in [
        (13, 13),
        (3, 0),
        (3, 1_009),
        (usize::MAX, 13),
        (3, usize::MAX),
    ] {
        assert_eq!(found(k, n, "nothing of a text"), Finding::BeyondLimits);
    }
}

#[test]
fn two_clauses_go_on_counting() {
    let text = format!("given {EXAMPLE} expect when 1|a:0 is 0 at 255;");
    let reading = reads(12, 1_008, &text);
    let second = [record(1, 0, 0), record(2, 0, 0), record(5, 6, 7)];
    assert_eq!(reading.expressions[6..], second);
    let clauses = [[0, 1, 12, 0, 3, 0, 5, 0], [1, 0, 0, 0, 255, 0, 8, 0]];
    assert_eq!(reading.clauses, clauses);
}

#[test]
fn strength_and_order_of_operators() {
    let (a, b, c) = (record(2, 0, 0), record(2, 1, 0), record(2, 2, 0));
    let left = |first, second| vec![a, b, record(first, 0, 1), c, record(second, 2, 3)];
    let right = |first, second| vec![a, b, c, record(second, 1, 2), record(first, 0, 3)];
    for (operator, code) in [("&", 4), ("^", 6), ("|", 5)] {
        assert_eq!(
            guard_records(3, &format!("a{operator}b{operator}c")),
            left(code, code)
        );
        assert_eq!(
            guard_records(3, &format!("a{operator}(b{operator}c)")),
            right(code, code)
        );
    }
    assert_eq!(guard_records(3, "a&b^c"), left(4, 6));
    assert_eq!(guard_records(3, "a^b&c"), right(6, 4));
    assert_eq!(guard_records(3, "a^b|c"), left(6, 5));
    assert_eq!(guard_records(3, "a|b^c"), right(5, 6));
    assert_eq!(guard_records(3, "a&b|c"), left(4, 5));
    assert_eq!(guard_records(3, "a|b&c"), right(5, 4));
    let not_a = vec![a, record(3, 0, 0), b, record(4, 1, 2)];
    assert_eq!(guard_records(3, "!a&b"), not_a);
    assert_eq!(
        guard_records(3, "!(a&b)"),
        [a, b, record(4, 0, 1), record(3, 2, 0)]
    );
    assert_eq!(
        guard_records(3, "!!((a))"),
        [a, record(3, 0, 0), record(3, 1, 0)]
    );
    assert_eq!(guard_records(0, "0"), [record(0, 0, 0)]);
    assert_eq!(guard_records(0, "(1)"), [record(1, 0, 0)]);
}

#[test]
fn gaps() {
    assert_eq!(reads(0, 1, "given expect"), Reading::default());
    assert_eq!(reads(0, 1, "\r\n given\r\rexpect\n"), Reading::default());
    reads(
        1,
        1,
        "given when(a):0 is 1 at 0;when!a:0\nis\r1 at 0;expect when 1:0 is 1 at 0;",
    );
    stops_at_arrow(1, 1, "given→expect");
    stops_at_arrow(1, 1, "given→\texpect");
    stops_at_arrow(1, 1, "given when→a:0 is 1 at 0;expect");
    stops_at_arrow(1, 1, "given when→0:0 is 1 at 0;expect");
    stops_at_arrow(1, 1, "given when a:0→is 1 at 0;expect");
    stops_at_arrow(1, 1, "given when a:0 is→1 at 0;expect");
    stops_at_arrow(1, 1, "given when a:0 is 1→at 0;expect");
    stops_at_arrow(1, 1, "given when a:0 is 1 at→0;expect");
    stops_at_arrow(1, 1, "given expect→when a:0 is 1 at 0;");
    stops_at_arrow(1, 1, "given when a →a:0 is 1 at 0;expect");
    stops_at_arrow(1, 1, "gi→ ven expect");
}

#[test]
fn numbers() {
    let at = |node: &str, value: &str, time: &str| {
        format!("given when 0:{node} is {value} at {time};expect")
    };
    reads(0, 1_008, &at("1007", "1", "255"));
    stops_at_arrow(0, 1_008, &at("100→8", "1", "255"));
    stops_at_arrow(0, 1_008, &at("0→0", "1", "255"));
    stops_at_arrow(0, 1_008, &at("0→7", "1", "255"));
    stops_at_arrow(0, 1_008, &at("7", "→2", "255"));
    stops_at_arrow(0, 1_008, &at("7", "1→0", "255"));
    stops_at_arrow(0, 1_008, &at("7", "0→1", "255"));
    stops_at_arrow(0, 1_008, &at("7", "1", "25→6"));
    stops_at_arrow(0, 1_008, &at("7", "1", "26→0"));
    stops_at_arrow(0, 1_008, &at("7", "1", "0→5"));
    stops_at_arrow(0, 10, &at("→x", "1", "5"));
    stops_at_arrow(0, 10, &at("1→0", "1", "5"));
    stops_at_arrow(0, 11, &at("1→1", "1", "5"));
    reads(0, 11, &at("10", "1", "5"));
}

#[test]
fn words_and_ends() {
    for end in 0.."given expect".len() {
        stops(0, 1, &"given expect"[..end], end);
    }
    stops_at_arrow(0, 1, "→expect");
    stops_at_arrow(0, 1, "→Given expect");
    stops_at_arrow(0, 1, "given expect →expect");
    stops_at_arrow(0, 1, "given →given expect");
    stops_at_arrow(0, 1, "given expect→s");
    stops_at_arrow(0, 1, "given expect →;");
    stops_at_arrow(0, 1, "given when →: 0 is 0 at 0; expect");
    stops_at_arrow(0, 1, "given when (→) : 0 is 0 at 0; expect");
    stops_at_arrow(0, 1, "given when (0 →: 0 is 0 at 0; expect");
    stops_at_arrow(0, 1, "given when 0→) : 0 is 0 at 0; expect");
    stops_at_arrow(0, 1, "given when 0 & →& 0 : 0 is 0 at 0; expect");
    stops_at_arrow(0, 1, "given when 0 →! : 0 is 0 at 0; expect");
    stops_at_arrow(0, 1, "given when 0 : 0 is 0 at 0 →expect");
}

#[test]
fn brackets() {
    let nested = |depth: usize| {
        let (open, close) = ("(".repeat(depth), ")".repeat(depth));
        format!("given when {open}0{close}:0 is 0 at 0;expect")
    };
    reads(0, 1, &nested(31));
    reads(0, 1, &nested(32));
    stops(0, 1, &nested(33), "given when ".len() + 32);
    let twice = format!("{0}0{1}&{0}0{1}", "(".repeat(32), ")".repeat(32));
    assert_eq!(guard_records(0, &twice).len(), 3);
}

/// `given`, so many clauses of one record each, and the start of another.
fn clauses(count: usize, then: &str) -> String {
    let clause = "when 1:0 is 0 at 0;";
    format!("given {}{then}", clause.repeat(count))
}

#[test]
fn full_lists() {
    let reading = reads(0, 1, &clauses(504, "expect"));
    assert_eq!(
        (reading.expressions.len(), reading.clauses.len()),
        (504, 504)
    );
    assert_eq!(reading.clauses[503], [0, 0, 0, 0, 0, 0, 0xF7, 0x01]);
    stops_at_arrow(0, 1, &clauses(504, "→when 1:0 is 0 at 0;expect"));
    stops_at_arrow(0, 1, &clauses(504, "expect →when 1:0 is 0 at 0;"));
    stops_at_arrow(0, 1, &clauses(503, "when →!1:0 is 0 at 0;expect"));
    stops_at_arrow(0, 1, &clauses(503, "when 1→|1:0 is 0 at 0;expect"));
    stops_at_arrow(0, 1, &clauses(502, "when !1→|1:0 is 0 at 0;expect"));
    stops_at_arrow(0, 1, &clauses(502, "when ((!→!1)):0 is 0 at 0;expect"));
    reads(0, 1, &clauses(503, "when ((1)):0 is 0 at 0;expect"));
    reads(0, 1, &clauses(502, "when (!(1)):0 is 0 at 0;expect"));
    reads(0, 1, &clauses(501, "when 1 ^ 1:0 is 0 at 0;expect"));
    reads(
        0,
        1,
        &format!("given when {}1:0 is 0 at 0;expect", "!".repeat(503)),
    );
    stops(
        0,
        1,
        &format!("given when {}1:0 is 0 at 0;expect", "!".repeat(504)),
        11 + 503,
    );
}

#[test]
fn outcomes() {
    let refused = |numbers: [u32; 3]| Outcome::new(REFUSED, numbers.to_vec());
    let example = format!("given {EXAMPLE} expect");
    let finding = find(3, 13, example.as_bytes());
    let done = finding.outcome([48, 8]);
    assert_eq!((done.word, &done.numbers[..]), (DONE, &[6, 1][..]));
    assert_eq!(finding.outcome([47, 8]), refused([13, 0, 0]));
    assert_eq!(finding.outcome([48, 7]), refused([13, 0, 0]));
    assert_eq!(Finding::Stops(5).outcome([0, 0]), refused([15, 5, 0]));
    assert_eq!(
        Finding::Stops((3 << 32) + 7).outcome([0, 0]),
        refused([15, 7, 3])
    );
    assert_eq!(Finding::BeyondLimits.outcome([0, 0]), refused([4, 0, 0]));
}
