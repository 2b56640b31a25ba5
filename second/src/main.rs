//! The command `second`.

use second::cells_file::read_cells;
use second::desk::{answer_line, refusal_line, TABLE_WORDS};
use second::netlists::Made;
use second::rules::{CountRules, Rules};
use second::{blocks, desk, judge, orders, read};
use second::{reading::Reading, Answer, Records, Step};
use std::io::{Read, Write};
use std::process::ExitCode;

const USAGE: &str = "usage:
  second desk                                    judge what is on standard input, as the desk program does
  second judge [--steps] KIND T FILE [ORDERFILE] judge a netlist file; KIND is u, s, t, m or ms
  second evaluate FILE A B                       the word the outputs show for an operand pair; of a block
                                                 that adds c, A is a + 2^n·b and B is c
  second blocks [T] [SEEDS]                      run the larger real blocks
a FILE whose name ends in .cells has a table of lookup cells";

const LIMITS: CountRules = Rules::of_document().counts;

/// Why a command could not be carried out.
enum Trouble {
    Misuse,
    File(String),
}

fn main() -> ExitCode {
    let arguments: Vec<String> = std::env::args().skip(1).collect();
    match command(&arguments) {
        Ok(true) => ExitCode::SUCCESS,
        Ok(false) => ExitCode::FAILURE,
        Err(Trouble::Misuse) => {
            eprintln!("{USAGE}");
            ExitCode::from(2)
        }
        Err(Trouble::File(message)) => {
            eprintln!("second: {message}");
            ExitCode::from(2)
        }
    }
}

/// Carries out a command and says whether all went as it should.
fn command(arguments: &[String]) -> Result<bool, Trouble> {
    let words: Vec<&str> = arguments.iter().map(String::as_str).collect();
    let shows_steps = words.contains(&"--steps");
    let words: Vec<&str> = words.into_iter().filter(|&w| w != "--steps").collect();
    match (shows_steps, words.as_slice()) {
        (false, ["desk"]) => desk_command(),
        (steps, ["judge", kind, limit, file]) => judge_command(steps, kind, limit, file, None),
        (steps, ["judge", kind, limit, file, order]) => {
            judge_command(steps, kind, limit, file, Some(order))
        }
        (false, ["evaluate", file, a, b]) => evaluate_command(file, number(a)?, number(b)?),
        (false, ["blocks"]) => Ok(blocks::run_larger(16_384, 2)),
        (false, ["blocks", limit]) => Ok(blocks::run_larger(number(limit)?, 2)),
        (false, ["blocks", limit, seeds]) => Ok(blocks::run_larger(number(limit)?, number(seeds)?)),
        _ => Err(Trouble::Misuse),
    }
}

fn desk_command() -> Result<bool, Trouble> {
    let mut input = Vec::new();
    std::io::stdin()
        .read_to_end(&mut input)
        .map_err(|error| Trouble::File(format!("standard input: {error}")))?;
    std::io::stdout()
        .write_all(&desk(&input))
        .map_err(|error| Trouble::File(format!("standard output: {error}")))?;
    Ok(true)
}

fn judge_command(
    shows_steps: bool,
    kind: &str,
    limit: &str,
    file: &str,
    order_file: Option<&str>,
) -> Result<bool, Trouble> {
    let reading = Reading::of_name(kind.as_bytes()).ok_or(Trouble::Misuse)?;
    let limit = number(limit)?;
    let netlist = netlist_in(file)?;
    let given_order = order_file.map(order_in).transpose()?;
    let (answer, log) = match netlist {
        Ok(made) => {
            let order = given_order.unwrap_or_else(|| orders::falling(made.counts));
            judged(&made, reading, limit, &order)
        }
        Err(number) => (Answer::Refused(number), Vec::new()),
    };
    println!("{}", answer_line(reading, &answer));
    for Step { gate, terms, made } in log.iter().filter(|_| shows_steps) {
        println!("{gate} {terms} {made}");
    }
    Ok(true)
}

/// The answer, and the log of the steps completed.
fn judged(made: &Made, reading: Reading, limit: u64, order: &[u32]) -> (Answer, Vec<Step>) {
    // A limit that is too high is refused before the lent words are measured.
    let words = limit.min(16_384) as usize * made.counts.term_words();
    let mut store = vec![0; words];
    let mut scratch = vec![0; made.records.most_made() * words];
    let mut log = vec![Step::default(); order.len()];
    let mut occurrences = vec![0; made.counts.m as usize + 1];
    let answer = judge(
        made.counts,
        &made.table,
        made.records,
        reading.kind(),
        limit,
        order,
        &mut store,
        &mut scratch,
        &mut log,
        &mut occurrences,
    );
    log.truncate(steps_completed(&answer));
    (answer, log)
}

fn steps_completed(answer: &Answer) -> usize {
    let steps = match *answer {
        Answer::Equal { steps, .. } => steps,
        Answer::Differs { steps, .. } => steps,
        Answer::Unfinished { steps, .. } => steps,
        Answer::OutOfRoom { step, .. } => step.saturating_sub(1),
        Answer::Refused(_) => 0,
    };
    steps as usize
}

fn evaluate_command(file: &str, a: u64, b: u64) -> Result<bool, Trouble> {
    let word = netlist_in(file)?.and_then(|made| made.word_at(a, b));
    match word {
        Ok(word) => println!("{word}"),
        Err(number) => println!("{}", refusal_line(number)),
    }
    Ok(true)
}

/// The netlist of a file, or the number by which reading refuses its text.
///
/// A file of cells is no text of the product, so one that is malformed has no number.
fn netlist_in(file: &str) -> Result<Result<Made, u32>, Trouble> {
    let text = bytes_of(file)?;
    if file.ends_with(blocks::CELLS_ENDING) {
        let made = std::str::from_utf8(&text).ok().and_then(read_cells);
        return match made {
            // M is checked before a step is named for each variable up to it.
            Some(made) => Ok(made.counts.within_limits(&LIMITS).map(|()| made)),
            None => Err(Trouble::File(format!("{file}: no table of lookup cells"))),
        };
    }
    let mut table = vec![0; TABLE_WORDS];
    Ok(read(&text, &mut table).map(|counts| Made {
        counts,
        records: Records::Gates,
        table,
    }))
}

fn bytes_of(file: &str) -> Result<Vec<u8>, Trouble> {
    std::fs::read(file).map_err(|error| Trouble::File(format!("{file}: {error}")))
}

/// Gate variables as decimal numbers with white space between them.
fn order_in(file: &str) -> Result<Vec<u32>, Trouble> {
    let text = String::from_utf8(bytes_of(file)?).map_err(|_| Trouble::Misuse)?;
    text.split_ascii_whitespace().map(number).collect()
}

/// A decimal number that fits its type; a sign is misuse.
fn number<N: std::str::FromStr>(word: &str) -> Result<N, Trouble> {
    if !word.bytes().all(|byte| byte.is_ascii_digit()) {
        return Err(Trouble::Misuse);
    }
    word.parse().map_err(|_| Trouble::Misuse)
}
