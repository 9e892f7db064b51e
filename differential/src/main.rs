//! The proved library beside the independent implementation, call by call.
//!
//!     differential CALLS SEED      at least so many random calls; a disagreement is made small, printed and kept as a file
//!     differential replay FILE     runs a kept case again

#[cfg(test)]
mod broken;
mod call;
mod case;
mod compare;
mod convert;
#[cfg(test)]
mod cuts;
mod field;
#[cfg(test)]
mod hashes;
mod listing;
mod make;
mod names;
mod proved;
mod random;
mod run;
mod scraps;
mod second;
mod shrink;
mod side;

use case::Case;
use make::Maker;
use proved::Proved;
use run::{run, Count, Counts, Runner};
use second::Reference;
use std::process::ExitCode;
use std::time::{Duration, Instant};
use std::{env, fs, panic};

/// How often a run says on standard error how far it is.
const PROGRESS: Duration = Duration::from_secs(5);

/// Makes cases and runs them until so many calls are done; the case of the first disagreement if there is one.
fn compare(calls: u64, seed: u64, counts: &mut Counts) -> Option<Case> {
    let mut told = Instant::now();
    for at in 0.. {
        if counts.all.calls >= calls {
            break;
        }
        if told.elapsed() >= PROGRESS {
            eprintln!("differential: {} of {calls} calls", counts.all.calls);
            told = Instant::now();
        }
        let mut maker = Maker::of_case(seed, at);
        let mut case = Case { start: maker.start(), calls: Vec::new() };
        let mut runner = Runner::<Proved, Reference>::begin(&case.start);
        for _ in 0..maker.length() {
            case.calls.push(maker.call(runner.station(), runner.route(), runner.names()));
            if runner.step(&case.calls[case.calls.len() - 1], counts).is_err() {
                return Some(case);
            }
        }
    }
    None
}

/// The case and its first difference, in lines; nothing if the two agree on it.
fn report(case: &Case) -> Option<String> {
    let (at, difference) = run::<Proved, Reference>(case)?;
    let about = format!("# after call {} of {}, {}:\n", at + 1, case.calls.len(), difference.what);
    Some(format!("{about}#   proved    {}\n#   reference {}\n{}", difference.first, difference.second, case.text()))
}

/// A line for each kind of call: how many, how often each number was answered, how many only waited, and how many
/// handed up an age.
fn print_counts(counts: &Counts) {
    let print = |kind: &str, count: &Count| {
        let met = count.answers.iter().enumerate().filter(|(_, times)| **times > 0);
        let answers: String = met.map(|(answer, times)| format!(" {answer}:{times}")).collect();
        let waits = if count.waits > 0 { format!(" waits:{}", count.waits) } else { String::new() };
        let ages: u64 = count.ages.iter().sum();
        let ages = if ages > 0 { format!(" ages:{ages}") } else { String::new() };
        println!("{:>10} {kind:<24}{answers}{waits}{ages}", count.calls);
    };
    println!("     calls kind                     answer:times ..");
    counts.kinds.iter().for_each(|(kind, count)| print(kind, count));
    print("all", &counts.all);
}

fn random_calls(calls: u64, seed: u64) -> ExitCode {
    let began = Instant::now();
    let mut counts = Counts::default();
    let found = compare(calls, seed, &mut counts);
    print_counts(&counts);
    let case = match found {
        None => {
            println!("{} calls agree, seed {seed}, {:.1} s", counts.all.calls, began.elapsed().as_secs_f64());
            return ExitCode::SUCCESS;
        }
        Some(case) => case,
    };
    panic::set_hook(Box::new(|_| ()));
    let text = report(&shrink::shrink::<Proved, Reference>(&case)).unwrap_or_else(|| case.text());
    let file = format!("target/disagreement-calls-{seed}");
    println!("the two disagree, kept as {file} (differential replay {file}):\n{text}");
    if let Err(error) = fs::create_dir_all("target").and_then(|()| fs::write(&file, text)) {
        eprintln!("differential: {file}: {error}");
    }
    ExitCode::FAILURE
}

fn replay(file: &str) -> Result<ExitCode, String> {
    let text = fs::read_to_string(file).map_err(|error| format!("{file}: {error}"))?;
    let case = Case::read(&text).map_err(|line| format!("{file}: cannot read '{line}'"))?;
    Ok(match report(&case) {
        Some(text) => {
            println!("the two disagree:\n{text}");
            ExitCode::FAILURE
        }
        None => {
            println!("{} calls agree", case.calls.len());
            ExitCode::SUCCESS
        }
    })
}

fn main() -> ExitCode {
    let words: Vec<String> = env::args().skip(1).collect();
    let words: Vec<&str> = words.iter().map(String::as_str).collect();
    let done = match words[..] {
        ["replay", file] => replay(file),
        [calls, seed] => match (calls.parse(), seed.parse()) {
            (Ok(calls), Ok(seed)) => Ok(random_calls(calls, seed)),
            _ => Err("CALLS and SEED are numbers".to_string()),
        },
        _ => Err("usage: differential CALLS SEED | differential replay FILE".to_string()),
    };
    done.unwrap_or_else(|error| {
        eprintln!("differential: {error}");
        ExitCode::from(2)
    })
}
