//! Measures the reading of row images: the calls of the port against two plain Rust readers, on the same input, in one process. And how
//! long the check of a map and the writing of rows take.
//!
//!     bench compare SEED CASES              whether all sides answer the same
//!     bench time SEED ROUNDS COLUMNS...     times, all sides in turn
//!     bench check ROUNDS COLUMNS...         times of the check of maps
//!     bench write ROUNDS COLUMNS...         whether rows are written as they were read, and times of it
//!     bench count SIDE COLUMNS TIMES        runs one side so many times, for a counter of instructions
//!     bench count-check COLUMNS KEYS TIMES  checks a map so many times, for the same
//!     bench sides                           the names of the sides
//!
//! `bench/run` builds and calls it.

mod compare;
mod input;
mod iterator;
mod maps;
mod near;
mod port;
mod record;
mod side;
mod strongest;
mod time;
mod value;
mod write;

use side::Side;
use std::process::ExitCode;

const USAGE: &str =
    "usage: bench compare SEED CASES | time SEED ROUNDS COLUMNS... | check ROUNDS COLUMNS... |
    write ROUNDS COLUMNS... | count SIDE COLUMNS TIMES | count-check COLUMNS KEYS TIMES | sides";

/// All sides, the baselines first.
fn sides() -> Vec<Box<dyn Side>> {
    vec![
        Box::new(side::Iterated),
        Box::new(side::Strongest),
        Box::new(side::Stored),
        Box::new(port::Run),
        Box::new(port::RunFromC),
        Box::new(port::Crate),
        Box::new(port::CrateImages),
        Box::new(port::Steps),
        Box::new(port::StepsFromC),
    ]
}

fn main() -> ExitCode {
    let words: Vec<String> = std::env::args().skip(1).collect();
    let words: Vec<&str> = words.iter().map(String::as_str).collect();
    let done = match words[..] {
        ["compare", seed, cases] => compared(seed, cases),
        ["time", seed, rounds, ref columns @ ..] if !columns.is_empty() => {
            timed(seed, rounds, columns)
        }
        ["check", rounds, ref columns @ ..] if !columns.is_empty() => checked(rounds, columns),
        ["write", rounds, ref columns @ ..] if !columns.is_empty() => wrote(rounds, columns),
        ["count", side, columns, times] => counted(side, columns, times),
        ["count-check", columns, keys, times] => counted_checks(columns, keys, times),
        ["sides"] => {
            sides().iter().for_each(|side| println!("{}", side.name()));
            Ok(())
        }
        _ => Err(USAGE.to_string()),
    };
    match done {
        Ok(()) => ExitCode::SUCCESS,
        Err(why) => {
            eprintln!("bench: {why}");
            ExitCode::FAILURE
        }
    }
}

fn number<T: std::str::FromStr>(word: &str) -> Result<T, String> {
    word.parse()
        .map_err(|_| format!("'{word}' is not a number that is taken here"))
}

fn compared(seed: &str, cases: &str) -> Result<(), String> {
    let seed = number(seed)?;
    maps::compare()?;
    compare::measured(&sides(), seed)?;
    compare::near(&sides(), seed, number(cases)?)
}

fn timed(seed: &str, rounds: &str, columns: &[&str]) -> Result<(), String> {
    for word in columns {
        time::table(&sides(), number(seed)?, number(rounds)?, number(word)?)?;
    }
    Ok(())
}

fn counted(name: &str, columns: &str, times: &str) -> Result<(), String> {
    let sides = sides();
    let side = sides
        .iter()
        .find(|side| side.name() == name)
        .ok_or(format!("there is no side '{name}'"))?;
    time::repeat(side.as_ref(), number(columns)?, number(times)?)
}

fn numbers(words: &[&str]) -> Result<Vec<usize>, String> {
    words.iter().map(|word| number(word)).collect()
}

fn checked(rounds: &str, columns: &[&str]) -> Result<(), String> {
    maps::table(number(rounds)?, &numbers(columns)?)
}

fn wrote(rounds: &str, columns: &[&str]) -> Result<(), String> {
    write::table(number(rounds)?, &numbers(columns)?)
}

fn counted_checks(columns: &str, keys: &str, times: &str) -> Result<(), String> {
    let event = maps::event(number(columns)?, number(keys)?);
    maps::best_nanos(&event, number(times)?).map(|_| ())
}
