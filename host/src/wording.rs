//! Numbers, lists and names as the sentence, the plot and the report write them.

use crate::escaping::visible;
use crate::reading::Reading;
use crate::told::{Outcome, Rule, Told};
use hraskell::Answer;

/// So many numbers of a list are written out.
const LISTED_MOST: usize = 5;

/// A number with a comma between its thousands.
pub fn grouped(number: u64) -> String {
    let mut written = String::new();
    let digits = number.to_string();
    for (left, digit) in (1..=digits.len()).rev().zip(digits.chars()) {
        // A comma stands before three, six and so on.
        if left % 3 == 0 && left < digits.len() {
            written.push(',');
        }
        written.push(digit);
    }
    written
}

/// `7`, `7 and 9`, `7, 9 and 11`, `7, 9, 11, 12, 13 and 4 more`.
pub fn listed(numbers: &[u32]) -> String {
    let mut words: Vec<String> = numbers.iter().map(u32::to_string).collect();
    if words.len() > LISTED_MOST {
        words.truncate(LISTED_MOST);
        words.push(format!("{} more", numbers.len() - LISTED_MOST));
    }
    match words.pop() {
        None => String::new(),
        Some(last) if words.is_empty() => last,
        Some(last) => format!("{} and {last}", words.join(", ")),
    }
}

/// `1 term`, `2 terms`, `0 terms`.
pub fn counted(number: u64, thing: &str) -> String {
    let ending = if number == 1 { "" } else { "s" };
    format!("{} {thing}{ending}", grouped(number))
}

/// The file's name as it is shown to people.
pub fn shown_name(told: &Told) -> String {
    match &*told.name {
        "-" => "standard input".to_string(),
        name => visible(name),
    }
}

/// A text shortened in its middle, where a name says least, to so many characters.
pub fn shortened(text: &str, most: usize) -> String {
    let characters: Vec<char> = text.chars().collect();
    if characters.len() <= most {
        return text.to_string();
    }
    let half = most.saturating_sub(1) / 2;
    let front: String = characters[..half].iter().collect();
    let back: String = characters[characters.len() - half..].iter().collect();
    format!("{front}…{back}")
}

/// `u (plain)`.
pub fn reading_words(reading: Reading) -> String {
    format!("{} ({})", reading.letters(), reading.name())
}

/// The letter that the desk's line begins with.
pub fn answer_letter(told: &Told) -> char {
    match &told.outcome {
        Outcome::Refused { .. } => 'X',
        Outcome::Judged { judgement, .. } => match judgement.answer {
            Answer::Equal { .. } => 'E',
            Answer::Differs { .. } => 'D',
            Answer::OutOfRoom { .. } => 'R',
            Answer::Unfinished { .. } => 'U',
        },
    }
}

/// The word for the answer.
pub fn answer_word(told: &Told) -> &'static str {
    match answer_letter(told) {
        'E' => "equal",
        'D' => "differs",
        'R' => "out of room",
        'U' => "unfinished",
        _ => "refused",
    }
}

/// Where an order comes from, in one word or two.
pub fn rule_name(rule: &Rule) -> String {
    match rule {
        Rule::Falling => "falling".to_string(),
        Rule::LeastGrowth => "least growth".to_string(),
        Rule::LookAhead => "look-ahead".to_string(),
        Rule::File(name) => format!("file {}", visible(name)),
        Rule::Desk => "desk".to_string(),
    }
}

/// An order within a sentence.
pub fn order_words(rule: &Rule) -> String {
    match rule {
        Rule::Falling => "the falling order (M down to I + 1)".to_string(),
        Rule::LeastGrowth => "the order of least growth".to_string(),
        Rule::LookAhead => "the order of least growth with look-ahead".to_string(),
        Rule::File(name) => format!("the order of the file {}", visible(name)),
        Rule::Desk => "the desk's order (M down to I + 1)".to_string(),
    }
}
