//! Compares the published crate with the port and prints what came of it.
//!
//! `compare [--threads N] [--rounds N] [--seed N] [--whole] [--try-wrong]`

use std::process::ExitCode;
use std::time::Instant;

use beside::inputs::{Amount, Section, Share, SECTIONS};
use beside::judge::Tally;
use beside::known::Known;
use beside::{habits, port, published, shares, wrong};

const SEED: u64 = 20_250_117;
/// Random trees: a run of about half a minute on two cores, and of two where the whole is asked for.
const ROUNDS: u64 = 60_000;

struct Arguments {
    threads: usize,
    rounds: u64,
    seed: u64,
    whole: bool,
    only_wrong: bool,
}

fn arguments() -> Result<Arguments, String> {
    let mut arguments = Arguments {
        threads: std::thread::available_parallelism().map_or(1, usize::from),
        rounds: ROUNDS,
        seed: SEED,
        whole: false,
        only_wrong: false,
    };
    let mut words = std::env::args().skip(1);
    while let Some(word) = words.next() {
        let mut number = || {
            let value: Option<u64> = words.next().and_then(|value| value.parse().ok());
            value.ok_or(format!("{word} wants a number"))
        };
        match word.as_str() {
            "--threads" => arguments.threads = number()?.max(1) as usize,
            "--rounds" => arguments.rounds = number()?,
            "--seed" => arguments.seed = number()?,
            "--whole" => arguments.whole = true,
            "--try-wrong" => arguments.only_wrong = true,
            _ => return Err(format!("no such argument: {word}")),
        }
    }
    Ok(arguments)
}

/// Shows every section and prints a line for each.
fn compare(arguments: &Arguments) -> Tally {
    let length = Share {
        index: 0,
        of: 1,
        rounds: arguments.rounds,
        seed: arguments.seed,
    };
    let ports = port::all();
    let mut sum = Tally::default();
    let wanted = |section: &&Section| arguments.whole || section.amount != Amount::Most;
    for section in SECTIONS.iter().filter(wanted) {
        let start = Instant::now();
        let tally = shares::run(section, arguments.threads, length, &ports);
        println!(
            "{:>12} comparisons {:6.1} s  {}",
            tally.comparisons,
            start.elapsed().as_secs_f64(),
            section.name
        );
        sum.add(tally);
    }
    sum
}

fn report(sum: &Tally, seconds: f64) {
    for (known, met) in Known::ALL.iter().zip(&sum.known) {
        println!("{met:>12} known       {}", known.words());
    }
    for report in &sum.reports {
        println!("DIFFERENCE: {report}");
    }
    println!(
        "beside: {} comparisons in {seconds:.1} s, {} differences on no list",
        sum.comparisons, sum.differences
    );
}

fn main() -> ExitCode {
    let arguments = match arguments() {
        Ok(arguments) => arguments,
        Err(fault) => {
            eprintln!("compare: {fault}");
            return ExitCode::from(2);
        }
    };
    published::hush_expected_panics();
    if !wrong::all_caught(arguments.only_wrong) || !habits::all_shown() {
        return ExitCode::FAILURE;
    }
    if arguments.only_wrong {
        return ExitCode::SUCCESS;
    }
    let names: Vec<_> = port::all().iter().map(|port| port.name()).collect();
    println!(
        "crate thrift 0.25.0 beside: {}; seed {}, {} random trees, {} threads",
        names.join(", "),
        arguments.seed,
        arguments.rounds,
        arguments.threads
    );
    let start = Instant::now();
    let sum = compare(&arguments);
    report(&sum, start.elapsed().as_secs_f64());
    if sum.differences == 0 {
        ExitCode::SUCCESS
    } else {
        ExitCode::FAILURE
    }
}
