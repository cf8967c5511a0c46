//! The paper's own examples: the flag job byte for byte, P1 to P12, and both sides of every border.

use super::operations::{self, Outcome};
use super::runs::{and, mux, or, xor};
use super::stored::{self, sum_of_words, Value, BLOCK};
use Value::{One, Zero, X};

fn block(used: &[u8], check: [u8; 4]) -> Vec<u8> {
    let mut block = used.to_vec();
    block.resize(508, 0);
    block.extend(check);
    block
}

/// The flag job as the paper prints it.
fn flag_job() -> Vec<u8> {
    let header = [0, 0, 1, 1, 1, 1, 2, 0, 2, 0, 4, 0];
    let nodes = [1, 0, 2, 2, 0, 0, 0, 0, 0, 0, 0, 0, 6, 0, 0, 0, 1, 0, 0, 0];
    let expressions = [2, 0, 3, 2, 2, 0, 0, 0, 0, 0, 0, 0, 3, 0, 0, 0, 0, 0, 0, 0];
    let clauses = [
        3, 0, 4, 4, //
        0, 1, 0, 0, 0, 0, 0, 0, //
        0, 0, 0, 0, 0, 0, 1, 0, //
        1, 1, 1, 0, 1, 0, 0, 0, //
        1, 0, 1, 0, 1, 0, 1, 0,
    ];
    [
        block(&header, [0xFC, 0xFE, 0xF8, 0xFE]),
        block(&nodes, [0xF7, 0xFF, 0xFD, 0xFD]),
        block(&expressions, [0xF8, 0xFF, 0xFC, 0xFD]),
        block(&clauses, [0xF8, 0xFD, 0xF7, 0xFB]),
    ]
    .concat()
}

/// The flag job with more expressions and clauses, packed.
fn flag_job_with(expressions: &[[u8; 8]], clauses: &[[u8; 8]]) -> Vec<u8> {
    let (header, lists) = stored::lists_of(&flag_job()).unwrap();
    let expressions = [lists[1].clone(), expressions.concat()].concat();
    let clauses = [lists[2].clone(), clauses.concat()].concat();
    stored::pack(header.k, [&lists[0], &expressions, &clauses]).unwrap()
}

const TRUE: [u8; 8] = [1, 0, 0, 0, 0, 0, 0, 0];
const FLAG_0_AT_TIME_0_ALWAYS: [u8; 8] = [0, 0, 1, 0, 0, 0, 2, 0];
const FLAG_0_AT_TIME_1_WHERE_VARIABLE: [u8; 8] = [0, 0, 1, 0, 1, 0, 0, 0];

fn packed(k: u64, nodes: &[[u8; 8]], expressions: &[[u8; 8]], clauses: &[[u8; 8]]) -> Vec<u8> {
    let lists = [nodes.concat(), expressions.concat(), clauses.concat()];
    stored::pack(k, [&lists[0], &lists[1], &lists[2]]).unwrap()
}

fn refused(number: u32, block: u32, record: u32) -> Outcome {
    Outcome::new(operations::REFUSED, vec![number, block, record])
}

fn mend(bytes: &mut [u8]) {
    for block in bytes.chunks_mut(BLOCK) {
        let off = stored::CHECK_SUM.wrapping_sub(sum_of_words(block));
        let check = u32::from_le_bytes(block[508..512].try_into().unwrap());
        block[508..512].copy_from_slice(&check.wrapping_add(off).to_le_bytes());
    }
}

#[test]
fn p1_to_p5_gates() {
    assert_eq!(and(Zero, X), Zero);
    assert_eq!(or(X, One), One);
    assert_eq!(xor(X, X), X);
    assert_eq!(mux(X, One, One), One);
    assert_eq!(mux(X, Zero, Zero), Zero);
}

#[test]
fn the_flag_job_is_packed_as_printed() {
    let (header, lists) = stored::lists_of(&flag_job()).unwrap();
    let packed = stored::pack(header.k, [&lists[0], &lists[1], &lists[2]]);
    assert_eq!(packed, Ok(flag_job()));
    assert_eq!(operations::sizes(&flag_job()).numbers, [1, 2, 2, 4]);
}

#[test]
fn p6_flag_job_fails_as_printed() {
    assert_eq!(
        operations::check(&flag_job()).line(),
        "FAILS cases=2 passing=1 failing=1 empty=0 case=0 time=1 node=1 wanted=0 found=X"
    );
    let case_0 = operations::one_case(&flag_job(), 0);
    assert_eq!(case_0, Outcome::new(operations::FAILS, vec![1, 1, 0, 2]));
}

#[test]
fn p7_case_1_passes() {
    let case_1 = operations::one_case(&flag_job(), 1);
    assert_eq!(case_1, Outcome::new(operations::PASSES, vec![]));
}

#[test]
fn p8_a_flag_that_starts_at_0_holds() {
    let job = flag_job_with(&[TRUE], &[FLAG_0_AT_TIME_0_ALWAYS]);
    assert_eq!(
        operations::check(&job).line(),
        "HOLDS cases=2 passing=2 failing=0 empty=0"
    );
}

#[test]
fn p9_a_stimulus_against_the_gate_is_vacant() {
    let more = [FLAG_0_AT_TIME_0_ALWAYS, FLAG_0_AT_TIME_1_WHERE_VARIABLE];
    assert_eq!(
        operations::check(&flag_job_with(&[TRUE], &more)).line(),
        "VACANT cases=2 passing=1 failing=0 empty=1 case=1 time=1 node=1"
    );
}

#[test]
fn p10_a_constant_is_unknown_in_row_0() {
    let job = packed(0, &[[2, 0, 0, 0, 0, 0, 0, 0]], &[], &[]);
    assert_eq!(operations::row(&job, 0, 0, 1).writes, [[2]]);
    assert_eq!(operations::row(&job, 0, 1, 1).writes, [[1]]);
    assert_eq!(operations::row(&job, 0, 255, 1).writes, [[1]]);
}

#[test]
fn p11_no_clauses_hold() {
    let job = packed(3, &[[0; 8]], &[], &[]);
    assert_eq!(
        operations::check(&job).line(),
        "HOLDS cases=8 passing=8 failing=0 empty=0"
    );
}

#[test]
fn p12_a_collision_goes_before_an_earlier_miss() {
    let job = packed(
        0,
        &[[1, 0, 0, 0, 0, 0, 0, 0]],
        &[TRUE],
        &[[0, 1, 0, 0, 1, 0, 0, 0], [1, 0, 0, 0, 0, 0, 0, 0]],
    );
    let answer = operations::one_case(&job, 0);
    assert_eq!(answer, Outcome::new(operations::EMPTY, vec![1, 0]));
    assert_eq!(operations::row(&job, 0, 0, 1).writes, [[2]]);
    assert_eq!(operations::row(&job, 0, 1, 1), refused(14, 0, 0));
    assert_eq!(operations::row(&job, 0, 255, 1), refused(14, 0, 0));
}

#[test]
fn a_printed_refusal() {
    let mut job = flag_job();
    job[BLOCK + 4] = 9;
    mend(&mut job);
    assert_eq!(operations::check(&job).line(), "REFUSED 8 block=1 record=0");
}

#[test]
fn lengths_on_both_sides() {
    for length in [0, 1, 511, 513, 16_895, 16_897, 17_408] {
        assert_eq!(operations::sizes(&vec![0; length]), refused(1, 0, 0));
    }
    assert_eq!(operations::sizes(&[0; 16_896]), refused(2, 0, 0));
    let full = packed(
        12,
        &vec![[0; 8]; 1_008],
        &vec![TRUE; 504],
        &vec![[1, 0, 0, 0, 0, 0, 0, 0]; 504],
    );
    assert_eq!(full.len(), 16_896);
    assert_eq!(operations::sizes(&full).numbers, [12, 1_008, 504, 504]);
}

#[test]
fn limits_on_both_sides() {
    let node = [0; 8];
    assert!(stored::pack(12, [&node, &[], &[]]).is_ok());
    for k in [13, 256, 1 << 32, u64::MAX] {
        let packed = stored::pack(k, [&node, &[], &[]]);
        assert_eq!(packed.unwrap_err().number, 4);
    }
    assert_eq!(packed(0, &[node; 63], &[], &[]).len(), 2 * BLOCK);
    assert_eq!(packed(0, &[node; 64], &[], &[]).len(), 3 * BLOCK);
    let too_late = [0, 0, 0, 0, 0, 1, 0, 0];
    let refused = stored::pack(0, [&node, &TRUE, &too_late]).unwrap_err();
    assert_eq!((refused.number, refused.block, refused.record), (10, 3, 0));
}

#[test]
fn exchanged_words_are_not_seen_but_a_changed_byte_is() {
    let mut job = flag_job();
    let (guard_of_first, guard_of_second) = (3 * BLOCK + 8, 3 * BLOCK + 16);
    for at in 0..4 {
        job.swap(guard_of_first + at, guard_of_second + at);
    }
    assert_ne!(job, flag_job());
    assert_eq!(operations::sizes(&job).word, operations::DONE);
    job[3 * BLOCK + 300] ^= 1;
    assert_eq!(operations::sizes(&job), refused(2, 3, 0));
}

#[test]
fn wide_numbers_are_refused_not_cut() {
    let job = flag_job();
    for case in [2, 1 << 32, (1 << 32) + 1, u64::MAX] {
        assert_eq!(operations::one_case(&job, case), refused(11, 0, 0));
    }
    for time in [256, 65_537, 1 << 32, u64::MAX] {
        assert_eq!(operations::row(&job, 1, time, 2), refused(12, 0, 0));
    }
    assert_eq!(operations::row(&job, 1, 255, 1), refused(13, 0, 0));
    assert_eq!(operations::row(&job, 1, 255, 2).writes, [[2, 1]]);
}
