//! The command `bench`.

mod blocks;
mod judges;
mod pairs;
mod read;
mod steps;
#[cfg(test)]
mod tests;
mod timing;

use second::Records;
use std::process::ExitCode;

const USAGE: &str = "usage:
  bench blocks [T] [REPEATS]  judge the real blocks: the library, the second program, a hash table in C
  bench alone [REPEATS]       judge the real blocks of gates with the library alone, for a profiler
  bench cells [REPEATS]       the same with the blocks of cells
  bench pairs                 judge the real blocks, and try all their operand pairs
  bench steps                 the time of one step for 1,024 to 16,384 terms
  bench read                  read a text and evaluate a pair: the library, the second program";

fn main() -> ExitCode {
    let arguments: Vec<String> = std::env::args().skip(1).collect();
    let words: Vec<&str> = arguments.iter().map(String::as_str).collect();
    match outcome(&words) {
        Some(true) => ExitCode::SUCCESS,
        Some(false) => ExitCode::FAILURE,
        None => {
            eprintln!("{USAGE}");
            ExitCode::from(2)
        }
    }
}

/// Carries out a command and says whether the results agree; none for misuse.
fn outcome(words: &[&str]) -> Option<bool> {
    match words {
        ["blocks"] => Some(blocks::run(1_024, 20)),
        ["blocks", limit] => Some(blocks::run(term_limit(limit)?, 20)),
        ["blocks", limit, repeats] => Some(blocks::run(term_limit(limit)?, count(repeats)?)),
        ["alone"] => Some(blocks::run_alone(Records::Gates, 100)),
        ["alone", repeats] => Some(blocks::run_alone(Records::Gates, count(repeats)?)),
        ["cells"] => Some(blocks::run_alone(Records::Cells, 100)),
        ["cells", repeats] => Some(blocks::run_alone(Records::Cells, count(repeats)?)),
        ["pairs"] => Some(pairs::run()),
        ["steps"] => Some(steps::run()),
        ["read"] => Some(read::run()),
        _ => None,
    }
}

/// T as the judges take it.
fn term_limit(word: &str) -> Option<u64> {
    word.parse()
        .ok()
        .filter(|limit| (128..=16_384).contains(limit))
}

/// How often, at least once.
fn count(word: &str) -> Option<u32> {
    word.parse().ok().filter(|&repeats| repeats > 0)
}
