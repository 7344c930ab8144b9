//! Holds our library to the original, and its calls on values to a model: `differential` and one of the words below.
mod bench;
mod case;
mod damaged;
mod edits;
mod exhaustive;
mod expected;
mod faults;
mod field;
mod getters;
mod large;
mod library;
mod original_side;
mod random;
mod stored;
mod tally;
mod value_cases;
mod value_faults;
mod values;

use case::Call;
use std::process::ExitCode;
use tally::{Tally, run};

const USAGE: &str = "differential quick [SEED]   a hundredth of these, for an emulator
differential short [SEED]   the runs of about a minute
differential long [SEED]    all short inputs, and over 200 million calls
differential values [SEED]  of the short runs those of values alone: some seconds
differential bench          our library beside the original, timed and counted
differential faults         that the runs can fail: libraries with a small fault each, and where that shows
differential edits          wrong edits of the library's source, and what they change of stored answers and of the getters
differential getters stdin  the records of which the program getters prints what our getters say, to the standard output
differential getters stdout what the original's getters say of them, line by line
differential store          the answers of the original that the program replay makes again, to the standard output";

/// How much is run: one in so many of the short inputs and of the short values, and so many of the others. `every_value`
/// has no divisor in common with the choices that number the short values, so that each choice is met.
struct Size {
    every: u64,
    random: u64,
    damaged: u64,
    large: u64,
    every_value: u64,
    values: u64,
}

const QUICK: Size = Size { every: 1_000, random: 200_000, damaged: 100_000, large: 600, every_value: 997, values: 20_000 };
const SHORT: Size = Size { every: 5, random: 20_000_000, damaged: 8_000_000, large: 4_000, every_value: 1, values: 10_000_000 };
const LONG: Size =
    Size { every: 1, random: 150_000_000, damaged: 50_000_000, large: 40_000, every_value: 1, values: 30_000_000 };

/// The two runs of values.
fn value_runs(seed: u64, size: &Size) -> Tally {
    let every = size.every_value;
    let short = value_cases::SHORT_CALLS.div_ceil(every);
    let mut total = run("short values", short, |n| value_cases::short(n * every), &library::call);
    total.add(&run("random values", size.values, |n| value_cases::random(seed, n), &library::call));
    total
}

fn values_alone(seed: u64) -> bool {
    println!("seed {seed}");
    let total = value_runs(seed, &SHORT);
    let all_met = total.show_calls(Call::VALUES);
    println!("values: {} calls, {} differences", total.calls, total.differences);
    all_met && total.differences == 0
}

/// All six runs.
fn runs(seed: u64, size: &Size) -> bool {
    println!("seed {seed}");
    let &Size { every, random, damaged, large, .. } = size;
    let lists = exhaustive::Lists::new();
    let short = exhaustive::count(&lists);
    let mut total = Tally::new();
    total.add(&run("short inputs", short.div_ceil(every), |n| exhaustive::case(&lists, n * every), &library::call));
    total.add(&run("random", random, |n| random::case(seed, n), &library::call));
    total.add(&run("damaged", damaged, |n| damaged::case(seed, n), &library::call));
    total.add(&run("large", large, |n| large::case(seed, n), &library::call));
    total.add(&value_runs(seed, size));
    let all_met = total.show_numbers();
    println!("total: {} calls, {} differences", total.calls, total.differences);
    all_met && total.differences == 0
}

fn main() -> ExitCode {
    let words: Vec<String> = std::env::args().skip(1).collect();
    let words: Vec<&str> = words.iter().map(String::as_str).collect();
    let seed = |word: &str| {
        word.parse().unwrap_or_else(|_| {
            eprintln!("differential: a seed is a number below 2^64, and '{word}' is not");
            std::process::exit(2)
        })
    };
    let done = match words[..] {
        ["quick"] => runs(1, &QUICK),
        ["quick", word] => runs(seed(word), &QUICK),
        ["short"] => runs(1, &SHORT),
        ["short", word] => runs(seed(word), &SHORT),
        ["long"] => runs(1, &LONG),
        ["long", word] => runs(seed(word), &LONG),
        ["values"] => values_alone(1),
        ["values", word] => values_alone(seed(word)),
        ["bench"] => bench::run(),
        ["faults"] => faults::run(),
        ["edits"] => edits::run(),
        ["getters", "stdin"] => getters::records(),
        ["getters", "stdout"] => getters::lines(),
        ["store"] => stored::run(1),
        ["spin", label, side, times] => {
            bench::spin(label, side, times.parse().expect("a number of calls"));
            true
        }
        _ => {
            eprintln!("{USAGE}");
            return ExitCode::from(2);
        }
    };
    if done { ExitCode::SUCCESS } else { ExitCode::FAILURE }
}
