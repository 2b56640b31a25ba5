//! Reading a netlist text into a table.

use crate::records::Records;
use crate::rules::{self, Rules, TextRules};
use crate::table::{gate_is_sound, output_is_sound, Counts};

/// The text that is still to be read, taken line by line.
struct Lines<'a> {
    rest: &'a [u8],
    last_needs_end: bool,
}

impl<'a> Lines<'a> {
    /// The next line without its LF; none when the LF is missing.
    fn line(&mut self) -> Option<&'a [u8]> {
        match self.rest.iter().position(|&byte| byte == b'\n') {
            Some(end) => {
                let line = &self.rest[..end];
                self.rest = &self.rest[end + 1..];
                Some(line)
            }
            None if self.last_needs_end || self.rest.is_empty() => None,
            None => Some(std::mem::take(&mut self.rest)),
        }
    }

    /// The next line as exactly `count` numbers with one space between them.
    fn numbers(&mut self, rules: &TextRules, count: usize) -> Option<Vec<u32>> {
        let fields = self.line()?.split(|&byte| byte == b' ');
        numbers_of(rules, fields, count)
    }
}

/// Two spaces in a row make an empty field, and an empty field is no number.
fn numbers_of<'a>(
    rules: &TextRules,
    fields: impl Iterator<Item = &'a [u8]>,
    count: usize,
) -> Option<Vec<u32>> {
    let numbers: Vec<u32> = fields
        .map(|field| number(rules, field))
        .collect::<Option<_>>()?;
    (numbers.len() == count).then_some(numbers)
}

/// Decimal, one to four digits, no leading zero but in `0` itself.
fn number(rules: &TextRules, field: &[u8]) -> Option<u32> {
    let length_holds = (1..=rules.most_digits).contains(&field.len());
    let digits_hold = field.iter().all(u8::is_ascii_digit);
    let zero_leads = field.len() > 1 && field[0] == b'0' && rules.leading_zero_is_wrong;
    if !length_holds || !digits_hold || zero_leads {
        return None;
    }
    Some(
        field
            .iter()
            .fold(0, |value, &digit| 10 * value + u32::from(digit - b'0')),
    )
}

/// Line 1, `aag M I L O A`.
fn header(rules: &TextRules, lines: &mut Lines) -> Option<Counts> {
    let mut fields = lines.line()?.split(|&byte| byte == b' ');
    if fields.next() != Some(b"aag") {
        return None;
    }
    let numbers = numbers_of(rules, fields, 5)?;
    Some(Counts {
        m: numbers[0],
        i: numbers[1],
        l: numbers[2],
        o: numbers[3],
        a: numbers[4],
    })
}

fn input_lines(rules: &TextRules, lines: &mut Lines, counts: Counts) -> Option<()> {
    for input in 1..=counts.i {
        let literal = lines.numbers(rules, 1)?[0];
        if literal != 2 * input && rules.input_lines_are_in_sequence {
            return None;
        }
    }
    Some(())
}

fn output_lines(
    rules: &Rules,
    lines: &mut Lines,
    counts: Counts,
    words: &mut Vec<u32>,
) -> Option<()> {
    for _ in 0..counts.o {
        let literal = lines.numbers(&rules.text, 1)?[0];
        if !output_is_sound(&rules.table, counts, literal) {
            return None;
        }
        words.push(literal);
    }
    Some(())
}

fn gate_lines(
    rules: &Rules,
    lines: &mut Lines,
    counts: Counts,
    words: &mut Vec<u32>,
) -> Option<()> {
    for gate in 1..=counts.a {
        let numbers = lines.numbers(&rules.text, 3)?;
        let lhs = 2 * (counts.i + gate);
        if numbers[0] != lhs && rules.text.left_side_is_in_sequence {
            return None;
        }
        if !gate_is_sound(&rules.table, lhs, numbers[1], numbers[2]) {
            return None;
        }
        words.extend_from_slice(&numbers[1..]);
    }
    Some(())
}

/// Everything after the header line, in text order: refusals 4, 5, 6 and 7.
fn body(rules: &Rules, lines: &mut Lines, counts: Counts, words: &mut Vec<u32>) -> Result<(), u32> {
    input_lines(&rules.text, lines, counts).ok_or(rules::INPUT_LINE)?;
    output_lines(rules, lines, counts, words).ok_or(rules::OUTPUT_LINE)?;
    gate_lines(rules, lines, counts, words).ok_or(rules::GATE_LINE)?;
    if lines.rest.is_empty() || !rules.text.nothing_follows {
        Ok(())
    } else {
        Err(rules::BYTES_AFTER)
    }
}

/// Reads a netlist text into the table; a refusal changes no word of it.
pub fn read(text: &[u8], table: &mut [u32]) -> Result<Counts, u32> {
    read_by(&Rules::of_document(), text, table)
}

pub fn read_by(rules: &Rules, text: &[u8], table: &mut [u32]) -> Result<Counts, u32> {
    let mut lines = Lines {
        rest: text,
        last_needs_end: rules.text.last_line_needs_its_end,
    };
    let counts = header(&rules.text, &mut lines).ok_or(rules::HEADER)?;
    counts.within_limits(&rules.counts)?;
    let too_short = (table.len() as u64) < counts.table_words(Records::Gates)
        && rules.text.table_length_is_checked;
    if too_short && rules.text.table_comes_before_lines {
        return Err(rules::TABLE_SHORT);
    }
    let mut words = Vec::new();
    let found = body(rules, &mut lines, counts, &mut words);
    if found.is_ok() && too_short {
        return Err(rules::TABLE_SHORT);
    }
    // Only now is the whole text known to be sound, so only now are words written.
    if found.is_ok() || !rules.text.refusal_writes_nothing {
        write(&rules.text, &words, table);
    }
    found.map(|()| counts)
}

/// Writes the words to the front of the table and keeps the words past them.
fn write(rules: &TextRules, words: &[u32], table: &mut [u32]) {
    let count = words.len().min(table.len());
    table[..count].copy_from_slice(&words[..count]);
    if !rules.words_past_are_kept {
        table[count..].fill(0);
    }
}
