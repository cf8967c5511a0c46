//! The mock as a static library with the product's names. MISTAKE in the environment chooses what it gets wrong, and
//! TEXT_MISTAKE what it gets wrong with texts.

use second::mock;
use second::texts;
use std::sync::Once;

static START: Once = Once::new();

fn start() {
    START.call_once(|| {
        mock::choose_from_environment();
        texts::mistakes::choose_from_environment();
    });
}

#[no_mangle]
pub unsafe extern "C" fn kelpanvil_sizes(
    job: *const u8,
    job_length: usize,
    answer: *mut u8,
    answer_length: usize,
) -> usize {
    start();
    mock::sizes(job, job_length, answer, answer_length)
}

#[no_mangle]
pub unsafe extern "C" fn kelpanvil_unpack(
    job: *const u8,
    job_length: usize,
    nodes: *mut u8,
    nodes_length: usize,
    expressions: *mut u8,
    expressions_length: usize,
    clauses: *mut u8,
    clauses_length: usize,
    answer: *mut u8,
    answer_length: usize,
) -> usize {
    start();
    mock::unpack(
        job,
        job_length,
        nodes,
        nodes_length,
        expressions,
        expressions_length,
        clauses,
        clauses_length,
        answer,
        answer_length,
    )
}

#[no_mangle]
pub unsafe extern "C" fn kelpanvil_pack(
    k: usize,
    nodes: *const u8,
    nodes_length: usize,
    expressions: *const u8,
    expressions_length: usize,
    clauses: *const u8,
    clauses_length: usize,
    out: *mut u8,
    out_length: usize,
    answer: *mut u8,
    answer_length: usize,
) -> usize {
    start();
    mock::pack(
        k,
        nodes,
        nodes_length,
        expressions,
        expressions_length,
        clauses,
        clauses_length,
        out,
        out_length,
        answer,
        answer_length,
    )
}

#[no_mangle]
pub unsafe extern "C" fn kelpanvil_row(
    job: *const u8,
    job_length: usize,
    case: usize,
    time: usize,
    out: *mut u8,
    out_length: usize,
    answer: *mut u8,
    answer_length: usize,
) -> usize {
    start();
    mock::row(
        job,
        job_length,
        case,
        time,
        out,
        out_length,
        answer,
        answer_length,
    )
}

#[no_mangle]
pub unsafe extern "C" fn kelpanvil_one_case(
    job: *const u8,
    job_length: usize,
    case: usize,
    answer: *mut u8,
    answer_length: usize,
) -> usize {
    start();
    mock::one_case(job, job_length, case, answer, answer_length)
}

#[no_mangle]
pub unsafe extern "C" fn kelpanvil_check(
    job: *const u8,
    job_length: usize,
    answer: *mut u8,
    answer_length: usize,
) -> usize {
    start();
    mock::check(job, job_length, answer, answer_length)
}

#[no_mangle]
pub unsafe extern "C" fn kelpanvil_text(
    k: usize,
    n: usize,
    text: *const u8,
    text_length: usize,
    expressions: *mut u8,
    expressions_length: usize,
    clauses: *mut u8,
    clauses_length: usize,
    answer: *mut u8,
    answer_length: usize,
) -> usize {
    start();
    texts::mock::text(
        k,
        n,
        text,
        text_length,
        expressions,
        expressions_length,
        clauses,
        clauses_length,
        answer,
        answer_length,
    )
}
