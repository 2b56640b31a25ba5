//! Orders as text: gate variables in decimal with white space between them.
//!
//! Whether a variable is a gate of the block is for the library to say, which refuses an order that names another (11).

use crate::files::{self, shown};
use crate::options::is_decimal;
use std::ffi::OsStr;
use std::os::unix::ffi::OsStrExt;

/// No longer order is judged.
pub const STEPS_MOST: usize = 4096;

/// A word that no order can have, and where it stands.
#[derive(Clone, Debug, PartialEq, Eq)]
pub struct Fault {
    /// From 1 on.
    pub line: usize,
    /// The word as it is shown: cut where it is long.
    pub word: String,
    pub why: Why,
}

/// What is wrong with a word.
#[derive(Clone, Copy, Debug, PartialEq, Eq)]
pub enum Why {
    NoNumber,
    TooBig,
    TooMany,
}

/// The order in a file. The message of an error has the file, the line and the word.
pub fn read(name: &OsStr) -> Result<Vec<u32>, String> {
    let wanted = "--order wants a file with gate variables in decimal and white space between them, or the word falling";
    let content = files::read(name).map_err(|message| format!("{message}; {wanted}"))?;
    let order = order_of_text(&content.bytes).map_err(|fault| {
        let Fault { line, word, why } = fault;
        let name = shown(name);
        let why = why.words();
        format!("order file '{name}', line {line}, word '{word}': {why}; {wanted}")
    })?;
    if !content.is_whole {
        let name = shown(name);
        return Err(format!("order file '{name}' is too long; {wanted}"));
    }
    Ok(order)
}

/// The order in a text.
pub fn order_of_text(text: &[u8]) -> Result<Vec<u32>, Fault> {
    let mut order = Vec::new();
    for (at, line) in text.split(|&byte| byte == b'\n').enumerate() {
        let words = line.split(u8::is_ascii_whitespace);
        for word in words.filter(|word| !word.is_empty()) {
            let fault = |why| Fault {
                line: at + 1,
                word: cut(word),
                why,
            };
            let variable = variable_of(word).map_err(fault)?;
            if order.len() == STEPS_MOST {
                return Err(fault(Why::TooMany));
            }
            order.push(variable);
        }
    }
    Ok(order)
}

/// The text of an order: a variable to a line.
pub fn text_of_order(order: &[u32]) -> String {
    order.iter().map(|v| format!("{v}\n")).collect()
}

fn variable_of(word: &[u8]) -> Result<u32, Why> {
    let digits = std::str::from_utf8(word).map_err(|_| Why::NoNumber)?;
    if !is_decimal(digits) {
        return Err(Why::NoNumber);
    }
    digits.parse().map_err(|_| Why::TooBig)
}

/// A word of a message: its first characters are enough to find it.
fn cut(word: &[u8]) -> String {
    const LONGEST: usize = 40;
    let whole = shown(OsStr::from_bytes(word));
    let mut short: String = whole.chars().take(LONGEST).collect();
    if short.len() < whole.len() {
        short.push_str("..");
    }
    short
}

impl Why {
    fn words(self) -> &'static str {
        match self {
            Why::NoNumber => "this is no decimal number",
            Why::TooBig => "this number has more than 32 bits",
            Why::TooMany => "an order has at most 4,096 steps, and this is one more",
        }
    }
}
