//! Random calls on the proved library and on the model, compared after each call.

mod accesses;
mod cases;
mod coverage;
mod dump;
mod interface;
mod laws;
mod machines;
mod pair;
mod random;
mod settings;
mod walked;
mod words;
mod zeroing;

use coverage::Coverage;
use pair::Bench;
use std::panic::{self, AssertUnwindSafe};
use std::process::ExitCode;
use std::time::{Duration, Instant};

const USAGE: &str = "usage: difftest [--seed S] [--cases N] [--coverage]
       difftest --seed S --case N

Compares N random cases (100000) of seed S (1), and prints how many calls gave which answer. --coverage prints the
counts of each call and situation too. --case makes one case again and prints its calls. Exit status: 0 no difference,
1 a difference, or in a run of 10,000 cases or more a call, answer or situation that was never reached, 2 bad usage.";

/// Runs of this many cases have to reach everything that is counted.
const WHOLE: u64 = 10_000;

struct Options {
    seed: u64,
    cases: u64,
    case: Option<u64>,
    coverage: bool,
}

fn options() -> Option<Options> {
    let mut options = Options { seed: 1, cases: 100_000, case: None, coverage: false };
    let mut words = std::env::args().skip(1);
    while let Some(word) = words.next() {
        let mut number = || words.next().and_then(|text| text.parse().ok());
        match word.as_str() {
            "--seed" => options.seed = number()?,
            "--cases" => options.cases = number().filter(|&cases| cases > 0)?,
            "--case" => options.case = Some(number()?),
            "--coverage" => options.coverage = true,
            _ => return None,
        }
    }
    Some(options)
}

/// What was wrong with a case; an index out of range in the model is reported like a difference.
fn one_case(bench: &mut Bench, seed: u64, number: u64) -> Result<(), String> {
    let caught = panic::catch_unwind(AssertUnwindSafe(|| cases::case(bench, seed, number)));
    match caught {
        Ok(Ok(())) => Ok(()),
        Ok(Err(difference)) => Err(difference.0),
        Err(_) => Err("the model panicked".to_string()),
    }
}

fn compare(options: &Options) -> Result<Coverage, String> {
    let mut bench = Bench { coverage: Coverage::new(), trace: options.case.is_some() };
    let numbers = match options.case {
        Some(case) => case..case + 1,
        None => 0..options.cases,
    };
    let mut said = Instant::now();
    for number in numbers {
        if said.elapsed() > Duration::from_secs(5) {
            said = Instant::now();
            eprintln!("difftest: {number} of {} cases of seed {}", options.cases, options.seed);
        }
        if let Err(text) = one_case(&mut bench, options.seed, number) {
            let seed = options.seed;
            let text = text.trim_end();
            return Err(format!("case {number} of seed {seed}: {text}\nagain: difftest --seed {seed} --case {number}"));
        }
    }
    Ok(bench.coverage)
}

fn summary(options: &Options, coverage: &Coverage) -> String {
    let cases = if options.case.is_some() { 1 } else { options.cases };
    let answers: Vec<String> = coverage.answers.iter().enumerate().map(|(i, count)| format!("{i}: {count}")).collect();
    let (seed, calls) = (options.seed, coverage.calls);
    format!("difftest: seed {seed}, {cases} cases, {calls} calls, no difference; answers {}", answers.join(", "))
}

fn main() -> ExitCode {
    let Some(options) = options() else {
        eprintln!("{USAGE}");
        return ExitCode::from(2);
    };
    let coverage = match compare(&options) {
        Ok(coverage) => coverage,
        Err(text) => {
            println!("{text}");
            return ExitCode::from(1);
        }
    };
    if options.coverage {
        print!("{}", coverage.table());
    }
    println!("{}", summary(&options, &coverage));
    let missing = coverage.missing();
    if options.case.is_none() && options.cases >= WHOLE && !missing.is_empty() {
        println!("difftest: never reached: {}", missing.join("; "));
        return ExitCode::from(1);
    }
    ExitCode::SUCCESS
}
