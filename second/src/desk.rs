//! The desk program: one netlist on standard input, one line on standard output.

use crate::judge::{judge_by, Answer};
use crate::orders;
use crate::reading::Reading;
use crate::records::Records;
use crate::rules::{self, DeskRules, Rules};
use crate::table::Counts;
use crate::text::read_by;
use crate::words::{Lent, Step};

/// The most words that O + 2A can be: 64 outputs, and 1,021 gates on 2 inputs.
pub const TABLE_WORDS: usize = 2_106;

/// The desk program's line, with its LF, for this input.
pub fn desk(input: &[u8]) -> Vec<u8> {
    desk_by(&Rules::of_document(), input)
}

pub fn desk_by(rules: &Rules, input: &[u8]) -> Vec<u8> {
    let mut line = match judged(rules, input) {
        Ok((reading, answer)) => line_of(&rules.desk, reading, &answer),
        Err(number) => refused(&rules.desk, number),
    };
    if rules.desk.line_has_its_end {
        line.push('\n');
    }
    line.into_bytes()
}

/// The checks in their order: 13 by length, 9 for the kind line, 1 to 7, 13 for M, then judging.
fn judged(rules: &Rules, input: &[u8]) -> Result<(Reading, Answer), u32> {
    let length = desk_limit(input.len() <= rules.desk.most_bytes);
    if rules.desk.length_comes_before_kind {
        length?;
    }
    let (reading, text) = kind_line(&rules.desk, input).ok_or(rules::KIND)?;
    length?;
    let mut table = [0; TABLE_WORDS];
    let counts = read_by(rules, text, &mut table)?;
    let variables = desk_limit(counts.m <= rules.desk.most_variables);
    if rules.desk.variables_come_before_judging {
        variables?;
    }
    let answer = answer_of(rules, counts, &table, reading);
    if let Answer::Refused(number) = answer {
        return Err(number);
    }
    variables?;
    Ok((reading, answer))
}

/// Refusal 13.
fn desk_limit(holds: bool) -> Result<(), u32> {
    if holds {
        Ok(())
    } else {
        Err(rules::DESK)
    }
}

/// The reading that line 1 names, and the netlist text after it.
fn kind_line<'a>(rules: &DeskRules, input: &'a [u8]) -> Option<(Reading, &'a [u8])> {
    let (line, text) = match input.iter().position(|&byte| byte == b'\n') {
        Some(end) => (&input[..end], &input[end + 1..]),
        None if !rules.kind_line_needs_its_end => (input, &[][..]),
        None => return None,
    };
    let seen = if rules.whole_kind_line_counts {
        line
    } else {
        &line[..line.len().min(1)]
    };
    Some((Reading::of_name(seen)?, text))
}

fn answer_of(rules: &Rules, counts: Counts, table: &[u32], reading: Reading) -> Answer {
    let mut order = orders::falling(counts);
    if !rules.desk.order_falls {
        order.reverse();
    }
    let words = rules.desk.limit as usize * counts.term_words();
    let lent = Lent {
        store: &mut vec![0; words],
        scratch: &mut vec![0; Records::Gates.most_made() * words],
        log: &mut vec![Step::default(); order.len()],
        occurrences: &mut vec![0; counts.m as usize + 1],
    };
    let kind = reading.kind();
    let (records, limit) = (Records::Gates, rules.desk.limit);
    judge_by(rules, counts, table, records, kind, limit, &order, lent)
}

/// An answer under a reading as the desk program prints it, without the line's end.
pub fn answer_line(reading: Reading, answer: &Answer) -> String {
    line_of(&Rules::of_document().desk, reading, answer)
}

/// A refusal as the desk program prints it, without the line's end.
pub fn refusal_line(number: u32) -> String {
    refused(&Rules::of_document().desk, number)
}

fn refused(rules: &DeskRules, number: u32) -> String {
    line(rules, 'X', &[number.into()])
}

fn line_of(rules: &DeskRules, reading: Reading, answer: &Answer) -> String {
    let (letter, numbers) = match *answer {
        Answer::Equal { steps, terms } => ('E', vec![steps.into(), terms.into()]),
        Answer::Differs {
            steps,
            terms,
            a,
            b,
            c,
            got,
            wanted,
        } => {
            let operands = shown_operands(rules, reading, [a, b, c]);
            let words = if rules.got_comes_before_wanted {
                [got, wanted]
            } else {
                [wanted, got]
            };
            let counts = [steps.into(), terms.into()];
            ('D', [&counts[..], &operands, &words].concat())
        }
        Answer::OutOfRoom { step, terms } => ('R', vec![step.into(), terms.into()]),
        Answer::Unfinished { steps, terms } => ('U', vec![steps.into(), terms.into()]),
        Answer::Refused(number) => return refused(rules, number),
    };
    line(rules, letter, &numbers)
}

/// The operands as D prints them: c after b, where the reading adds it.
fn shown_operands(rules: &DeskRules, reading: Reading, [a, b, c]: [u64; 3]) -> Vec<u64> {
    let shows_c = if reading.adds() {
        rules.c_is_shown_where_it_is_added
    } else {
        !rules.c_is_hidden_where_there_is_none
    };
    match (shows_c, rules.c_comes_after_b) {
        (false, _) => vec![a, b],
        (true, true) => vec![a, b, c],
        (true, false) => vec![c, a, b],
    }
}

/// A letter and decimal numbers with no leading zero, one space before each number.
fn line(rules: &DeskRules, letter: char, numbers: &[u64]) -> String {
    let mut line = String::from(letter);
    for number in numbers {
        line += if rules.numbers_are_bare { " " } else { " 0" };
        line += &number.to_string();
    }
    line
}
