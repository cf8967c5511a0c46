//! Measures the product against the baseline on the largest jobs: in this process, and as whole programs where
//! KELPANVIL names the product's. It only prints; no test depends on time.

use second::baseline;
use second::boundary::{self, Library};
use second::checker::operations::{self, Outcome, ANSWER_BYTES, FAILS};
use second::checker::{runs, stored};
use second::generate::large::{large_job, Large};
use second::program;
use std::time::{Duration, Instant};

const ROUNDS: usize = 15;

const SHAPES: [(&str, Large); 3] = [
    (
        "largest: 1008 gates, 504 clauses",
        Large {
            clauses: 504,
            fixed: 0,
        },
    ),
    (
        "seven tenths inputs and constants",
        Large {
            clauses: 504,
            fixed: 70,
        },
    ),
    (
        "few clauses: 8",
        Large {
            clauses: 8,
            fixed: 0,
        },
    ),
];

fn main() {
    let library = boundary::linked();
    if library.is_none() {
        println!("{}; the baseline alone is measured", boundary::NOT_LINKED);
    }
    for (name, large) in SHAPES {
        let job = large_job(large, 1);
        let expected = baseline::check(&job);
        must_end_only_in_the_last_case(&job, &expected);
        assert_eq!(stored::header_of(&job).c, large.clauses);
        println!("{name}: {}", expected.line());
        in_process(&job, library, &expected);
        as_programs(&job, &expected);
    }
}

fn must_end_only_in_the_last_case(job: &[u8], outcome: &Outcome) {
    assert_eq!(outcome.word, FAILS);
    assert_eq!(outcome.numbers[..5], [4_096, 4_095, 1, 0, 4_095]);
    let read = stored::read(job).unwrap();
    assert_eq!(runs::last_time(&read), 255);
    // the second checker takes long over the whole job, so it is asked for a few cases
    for case in [0, 63, 64, 2_047, 4_094] {
        assert_eq!(operations::one_case(job, case).word, operations::PASSES);
    }
    let last = operations::one_case(job, 4_095);
    assert_eq!(last.numbers[..], outcome.numbers[5..]);
}

fn product_answer(library: &Library, job: &[u8]) -> [u8; ANSWER_BYTES] {
    let mut answer = [0; ANSWER_BYTES];
    // both are lent whole and live through the call
    unsafe { (library.check)(job.as_ptr(), job.len(), answer.as_mut_ptr(), answer.len()) };
    answer
}

fn timed<T>(work: impl FnOnce() -> T) -> (Duration, T) {
    let start = Instant::now();
    let result = work();
    (start.elapsed(), result)
}

fn in_process(job: &[u8], library: Option<Library>, expected: &Outcome) {
    let (mut product, mut plain) = (Vec::new(), Vec::new());
    for _ in 0..ROUNDS {
        if let Some(library) = &library {
            let (time, answer) = timed(|| product_answer(library, job));
            assert_eq!(answer, expected.answer_bytes(), "the answers differ");
            product.push(time);
        }
        let (time, answer) = timed(|| baseline::check(job));
        assert_eq!(answer, *expected);
        plain.push(time);
    }
    show("in process", product, plain);
}

/// The baseline's program stands beside this one.
fn baseline_program() -> String {
    let here = std::env::current_exe().unwrap();
    here.with_file_name("baseline").display().to_string()
}

fn as_programs(job: &[u8], expected: &Outcome) {
    let named = std::env::var("KELPANVIL").ok();
    let beside = baseline_program();
    let line = format!("{}\n", expected.line());
    let (mut product, mut plain) = (Vec::new(), Vec::new());
    for _ in 0..ROUNDS {
        if let Some(program) = &named {
            let (time, printed) = timed(|| program::printed(program, job));
            assert_eq!(printed.as_ref(), Ok(&line), "the lines differ");
            product.push(time);
        }
        let (time, printed) = timed(|| program::printed(&beside, job));
        assert_eq!(printed.as_ref(), Ok(&line));
        plain.push(time);
    }
    show("as programs", product, plain);
}

fn milliseconds(time: Duration) -> f64 {
    time.as_secs_f64() * 1_000.0
}

/// The median and the least, in milliseconds.
fn median_and_least(mut times: Vec<Duration>) -> (f64, f64) {
    times.sort();
    (milliseconds(times[times.len() / 2]), milliseconds(times[0]))
}

fn show(how: &str, product: Vec<Duration>, plain: Vec<Duration>) {
    let (plain_median, plain_least) = median_and_least(plain);
    println!("  {how}: baseline median {plain_median:.2} ms, least {plain_least:.2} ms");
    if product.is_empty() {
        return;
    }
    let (median, least) = median_and_least(product);
    println!("  {how}: product  median {median:.2} ms, least {least:.2} ms");
    println!(
        "  {how}: ratio {:.2} (of the least: {:.2})",
        median / plain_median,
        least / plain_least
    );
}
