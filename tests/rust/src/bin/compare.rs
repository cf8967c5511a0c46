//! Compares the product with the second checker on generated jobs.
//!
//! `compare SEED COUNT` compares the linked library, and the program that KELPANVIL names;
//! `compare --self SEED COUNT` needs no library: the spread, and the second checker against the baseline;
//! `compare --mutants` tries the comparison on a library with a mistake in it, for each of many mistakes;
//! `compare --job SEED INDEX` compares on one job again.

use second::baseline;
use second::boundary::{self, Library};
use second::checker::operations::{self, Outcome};
use second::checker::stored;
use second::generate::random::Random;
use second::generate::spread::Survey;
use second::generate::{sample, Sample, SLOWEST};
use second::harness::Harness;
use second::mock;
use second::program;
use second::trial::try_sample;
use std::path::{Path, PathBuf};
use std::process::ExitCode;

const USAGE: &str = "compare SEED COUNT | --self SEED COUNT | --mutants | --job SEED INDEX";
const PROGRAM_RUNS: u64 = 300;
const MOST_JOBS_FOR_A_MUTANT: u64 = 3_000;

fn main() -> ExitCode {
    let arguments: Vec<String> = std::env::args().skip(1).collect();
    let words: Vec<&str> = arguments.iter().map(String::as_str).collect();
    let good = match words[..] {
        ["--mutants"] => try_mutants(),
        ["--self", seed, count] => compare_self(number(seed), number(count)),
        ["--job", seed, index] => {
            with_library(|library| repeat_one_job(library, number(seed), number(index)))
        }
        [seed, count] => with_library(|library| compare(library, number(seed), number(count))),
        _ => {
            eprintln!("{USAGE}");
            false
        }
    };
    if good {
        ExitCode::SUCCESS
    } else {
        ExitCode::FAILURE
    }
}

fn number(word: &str) -> u64 {
    word.parse().unwrap_or_else(|_| {
        eprintln!("{word} is no number; {USAGE}");
        std::process::exit(2)
    })
}

fn with_library(run: impl FnOnce(Library) -> bool) -> bool {
    match boundary::linked() {
        Some(library) => run(library),
        None => {
            eprintln!("{}", boundary::NOT_LINKED);
            false
        }
    }
}

/// Where what is left behind for a reader goes: beside what is built.
fn left_behind(name: &str) -> PathBuf {
    let root = Path::new(env!("CARGO_MANIFEST_DIR")).ancestors().nth(2);
    root.unwrap().join("target/second").join(name)
}

fn compare(library: Library, seed: u64, count: u64) -> bool {
    let mut harness = Harness::new(Some(library), seed);
    for index in 0..count {
        remember(seed, index);
        let failed_before = harness.failed;
        let sample = sample(seed, index);
        let survey = Survey::of(&sample.job);
        try_sample(&mut harness, &sample, &survey, &mut probes(seed, index));
        try_program(&mut harness, &sample.job, &survey, index, count);
        if failed_before == 0 && harness.failed > 0 {
            show_failure(&harness, &sample, seed, index);
        }
    }
    try_odd_lengths(&mut harness);
    conclude(&harness)
}

/// Should the library end this process, the job at fault is known.
fn remember(seed: u64, index: u64) {
    let told = format!("compare --job {seed} {index}\n");
    let _ = std::fs::write(left_behind("compare-last"), told);
}

/// The rooms, cases and times of a job, the same whenever it is repeated.
fn probes(seed: u64, index: u64) -> Random {
    Random::new(!seed, index)
}

fn repeat_one_job(library: Library, seed: u64, index: u64) -> bool {
    let mut harness = Harness::new(Some(library), seed);
    let sample = sample(seed, index);
    let survey = Survey::of(&sample.job);
    try_sample(&mut harness, &sample, &survey, &mut probes(seed, index));
    try_program(&mut harness, &sample.job, &survey, 0, 1);
    if harness.failed > 0 {
        show_failure(&harness, &sample, seed, index);
    }
    println!("{} passed, {} failed", harness.passed, harness.failed);
    harness.failed == 0
}

fn outcome_of(survey: &Survey) -> Outcome {
    match survey {
        Survey::Refused(refusal) => Outcome::refused(*refusal),
        Survey::Accepted { stories, .. } => operations::outcome_of_stories(stories),
    }
}

/// Runs the program named by KELPANVIL on some of the jobs, evenly chosen, and on every one of the largest.
fn try_program(harness: &mut Harness, job: &[u8], survey: &Survey, index: u64, count: u64) {
    let Ok(program) = std::env::var("KELPANVIL") else {
        return;
    };
    let runs = PROGRAM_RUNS.min(count);
    let chosen = index * runs / count != (index + 1) * runs / count;
    if chosen || job.len() == stored::MOST_BYTES {
        let expected = outcome_of(survey).line();
        harness.count(program::complaint(&program, job, &expected));
    }
}

fn try_odd_lengths(harness: &mut Harness) {
    let Ok(program) = std::env::var("KELPANVIL") else {
        return;
    };
    let good = sample(1, 150).job;
    for length in program::ODD_LENGTHS {
        let zeros = vec![0; length];
        let mut cut = good.clone();
        cut.resize(length, 0);
        for job in [zeros, cut] {
            let expected = operations::check(&job).line();
            harness.count(program::complaint(&program, &job, &expected));
        }
    }
}

fn show_failure(harness: &Harness, sample: &Sample, seed: u64, index: u64) {
    let path = left_behind("failure.job");
    println!("first failure, in a job made as: {}", sample.what);
    for complaint in &harness.complaints {
        println!("{complaint}");
    }
    match std::fs::write(&path, &sample.job) {
        Ok(()) => println!("the job is in {}", path.display()),
        Err(error) => println!("the job could not be written: {error}"),
    }
    println!("repeat it with: compare --job {seed} {index}");
}

fn conclude(harness: &Harness) -> bool {
    for line in harness.spread.table() {
        println!("{line}");
    }
    let poor = harness.spread.is_poor();
    if poor {
        println!("the spread is poor");
    }
    let failed = harness.failed + u64::from(poor);
    println!("{} passed, {failed} failed", harness.passed);
    failed == 0
}

fn compare_self(seed: u64, count: u64) -> bool {
    let mut harness = Harness::new(None, seed);
    for index in 0..count {
        let sample = sample(seed, index);
        let survey = Survey::of(&sample.job);
        try_sample(&mut harness, &sample, &survey, &mut probes(seed, index));
        try_program(&mut harness, &sample.job, &survey, index, count);
        try_second_checker(&mut harness, &sample, &survey, seed, index);
    }
    for complaint in &harness.complaints {
        println!("{complaint}");
    }
    conclude(&harness)
}

/// What the second checker must agree with: the drafts that jobs are made from, and the baseline.
fn try_second_checker(
    harness: &mut Harness,
    sample: &Sample,
    survey: &Survey,
    seed: u64,
    index: u64,
) {
    let at = |what: &str| format!("seed {seed}, job {index} ({}): {what}", sample.what);
    let lists = sample.draft.lists();
    let packed = stored::pack(u64::from(sample.draft.k), [&lists[0], &lists[1], &lists[2]]);
    let as_drafted = packed == Ok(sample.draft.bytes());
    harness.count((!as_drafted).then(|| at("pack differs from the draft")));
    let (second, fast) = (outcome_of(survey), baseline::check(&sample.job));
    let equal = second == fast;
    harness.count((!equal).then(|| at(&format!("{second:?} but the baseline {fast:?}"))));
}

/// Each mistake must be seen; no mistake must pass.
fn try_mutants() -> bool {
    let (mut caught, mut missed) = (0, 0);
    mock::choose(mock::Mistake::NoMistake);
    match first_failing_job(600) {
        None => println!("no mistake: nothing found in 600 jobs"),
        Some((index, complaint)) => {
            println!("no mistake, yet job {index} fails: {complaint}");
            missed += 1;
        }
    }
    for &mistake in mock::MISTAKES {
        mock::choose(mistake);
        match first_failing_job(MOST_JOBS_FOR_A_MUTANT) {
            Some((index, complaint)) => {
                caught += 1;
                let first_line = complaint.lines().next().unwrap_or("");
                println!("{mistake:?}: caught in job {index}: {first_line}");
            }
            None => {
                missed += 1;
                println!("{mistake:?}: NOT CAUGHT");
            }
        }
    }
    println!("{caught} passed, {missed} failed");
    missed == 0
}

fn first_failing_job(most: u64) -> Option<(u64, String)> {
    let seed = 1;
    let mut harness = Harness::new(Some(mock::library()), seed);
    for index in (0..most).filter(|index| *index != SLOWEST) {
        let sample = sample(seed, index);
        let survey = Survey::of(&sample.job);
        try_sample(&mut harness, &sample, &survey, &mut probes(seed, index));
        if let Some(complaint) = harness.complaints.first() {
            return Some((index, complaint.clone()));
        }
    }
    None
}
