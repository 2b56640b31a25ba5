//! Cases for reading.

use super::marked_numbers;
use crate::netlists::{random_sound, Made};
use crate::random::Random;
use crate::rules::Rules;
use crate::table::Counts;
use crate::text::read_by;

#[derive(Clone, Debug, PartialEq, Eq)]
pub struct TextCase {
    pub text: Vec<u8>,
    pub table_words: usize,
}

#[derive(Clone, Debug, PartialEq, Eq)]
pub struct TextSeen {
    pub answer: Result<Counts, u32>,
    pub table: Vec<u32>,
}

impl TextCase {
    pub fn seen(&self, rules: &Rules) -> TextSeen {
        let mut table = marked_numbers(self.table_words);
        let answer = read_by(rules, &self.text, &mut table);
        TextSeen { answer, table }
    }
}

/// The AND netlist of the bench sheet.
pub const AND_TEXT: &str = "aag 3 2 0 2 1\n2\n4\n6\n0\n6 4 2\n";

/// A part of the AND text and what to put in its place.
const EDITS: &[(&str, &str)] = &[
    ("", ""),
    ("aag", "aig"),
    ("aag", " aag"),
    ("aag ", "aag  "),
    ("aag ", "aag\t"),
    ("aag 3 2 0 2 1", "aag 3 2 0 2"),
    ("aag 3 2 0 2 1", "aag 3 2 0 2 1 0"),
    ("aag 3 2 0 2 1", "aag 3 2 0 2 1 "),
    ("aag 3 2 0 2 1", "aag 03 2 0 2 1"),
    ("aag 3 2 0 2 1", "aag 3 2 00 2 1"),
    ("aag 3 2 0 2 1", "aag 10003 2 0 2 1"),
    ("aag 3 2 0 2 1", "aag 3 2 0 99999 1"),
    ("aag 3 2 0 2 1", "aag 9999 2 0 2 9997"),
    ("aag 3 2 0 2 1", "aag 3 2 1 2 1"),
    ("aag 3 2 0 2 1", "aag 4 2 0 2 1"),
    ("aag 3 2 0 2 1", "aag 2 2 0 2 1"),
    ("aag 3 2 0 2 1", "aag 3 2 0 0 1"),
    ("aag 3 2 0 2 1", "aag 3 2 0 65 1"),
    ("aag 3 2 0 2 1", "aag 3 2 0 +2 1"),
    ("aag 3 2 0 2 1\n", "aag 3 2 0 2 1"),
    ("aag 3 2 0 2 1\n", "aag 3 2 0 2 1\r\n"),
    ("aag 3 2 0 2 1\n", "aag 3 2 0 2 1\n\n"),
    ("\n2\n4\n", "\n4\n2\n"),
    ("\n2\n4\n", "\n2\n5\n"),
    ("\n2\n4\n", "\n02\n4\n"),
    ("\n2\n4\n", "\n2 \n4\n"),
    ("\n2\n4\n", "\n2\n"),
    ("\n2\n4\n6\n0\n6 4 2\n", "\n2\n"),
    ("\n2\n4\n6\n0\n6 4 2\n", "\n2\n4"),
    ("\n6\n0\n", "\n7\n0\n"),
    ("\n6\n0\n", "\n8\n0\n"),
    ("\n6\n0\n", "\n6\n00\n"),
    ("\n6\n0\n", "\n6\n"),
    ("\n6\n0\n", "\n6\n\n"),
    ("\n6\n0\n", "\n6\n-0\n"),
    ("\n6\n0\n6 4 2\n", "\n6\n"),
    ("\n6\n0\n6 4 2\n", "\n6\n0"),
    ("6 4 2\n", ""),
    ("6 4 2\n", "6 4 2"),
    ("6 4 2\n", "6 4\n"),
    ("6 4 2\n", "6 4 2 0\n"),
    ("6 4 2\n", "6  4 2\n"),
    ("6 4 2\n", "6 4 02\n"),
    ("6 4 2\n", "8 4 2\n"),
    ("6 4 2\n", "7 4 2\n"),
    ("6 4 2\n", "6 2 4\n"),
    ("6 4 2\n", "6 4 4\n"),
    ("6 4 2\n", "6 4 5\n"),
    ("6 4 2\n", "6 6 2\n"),
    ("6 4 2\n", "6 7 2\n"),
    ("6 4 2\n", "6 5 5\n"),
    ("6 4 2\n", "6 1 0\n"),
    ("6 4 2\n", "6 4 2\n\n"),
    ("6 4 2\n", "6 4 2\nc\n"),
    ("6 4 2\n", "6 4 2\n8 4 2\n"),
    ("6 4 2\n", "6 4 2\n\0"),
];

/// The AND text with the first place of a part replaced.
pub fn edited(part: &str, put: &str) -> Vec<u8> {
    AND_TEXT.replacen(part, put, 1).into_bytes()
}

/// Every edit with a table that is exact, one short, longer and empty; limits of the counts; no text at all.
pub fn edges() -> Vec<TextCase> {
    let mut cases = Vec::new();
    for &(part, put) in EDITS {
        for table_words in [4, 3, 9, 0] {
            let text = edited(part, put);
            cases.push(TextCase { text, table_words });
        }
    }
    for made in made_at_limits() {
        let table_words = made.table.len();
        let text = made.text();
        cases.push(TextCase { text, table_words });
    }
    for text in [&b""[..], b"\n", b"aag"] {
        let text = text.to_vec();
        cases.push(TextCase {
            text,
            table_words: 4,
        });
    }
    cases
}

/// Netlists at and just past the limits of the counts.
pub fn made_at_limits() -> Vec<Made> {
    let mut random = Random::new(1);
    SIZES_AT_LIMITS
        .into_iter()
        .map(|(inputs, outputs, gates)| random_sound(&mut random, inputs, outputs, gates))
        .collect()
}

/// Inputs, outputs and gates at and just past their limits.
pub const SIZES_AT_LIMITS: [(u32, u32, u32); 15] = [
    (2, 1, 1_021),
    (2, 64, 1_021),
    (2, 1, 1_022),
    (64, 64, 959),
    (64, 32, 0),
    (66, 33, 2),
    (66, 64, 0),
    (0, 1, 0),
    (0, 1, 2),
    (1, 1, 1),
    (3, 2, 1),
    (2, 63, 1),
    (2, 64, 1),
    (2, 65, 1),
    (2, 0, 1),
];

/// A small netlist's text with none to two changes, and a table that mostly fits.
pub fn random(random: &mut Random) -> TextCase {
    let inputs = 2 * (1 + random.below(3)) as u32;
    let outputs = 1 + random.below(6) as u32;
    let gates = random.below(8) as u32;
    let made = random_sound(random, inputs, outputs, gates);
    let mut text = made.text();
    for _ in 0..random.below(3) {
        change(random, &mut text);
    }
    let table_words = match random.below(8) {
        0 => made.table.len() - 1,
        1 | 2 => made.table.len(),
        _ => made.table.len() + random.below(6),
    };
    TextCase { text, table_words }
}

/// One change such as a slip of the hand makes.
pub fn change(random: &mut Random, text: &mut Vec<u8>) {
    let at = random.below(text.len().max(1)).min(text.len());
    let byte = random.pick(b"0123456789 \n\rax-");
    match random.below(7) {
        0 => text.insert(at, byte),
        1 => text.truncate(at),
        2 => text.push(byte),
        3 if at < text.len() => drop(text.remove(at)),
        4 => swap_lines(random, text),
        _ if at < text.len() => text[at] = byte,
        _ => text.push(byte),
    }
}

/// Two lines in each other's place.
pub fn swap_lines(random: &mut Random, text: &mut Vec<u8>) {
    let mut lines: Vec<Vec<u8>> = text
        .split_inclusive(|&byte| byte == b'\n')
        .map(<[u8]>::to_vec)
        .collect();
    if !lines.is_empty() {
        let (one, other) = (random.below(lines.len()), random.below(lines.len()));
        lines.swap(one, other);
    }
    *text = lines.concat();
}
