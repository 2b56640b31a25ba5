//! Lent buffers with guard words, what a call leaves in them, and the search for a case that tells two answerers apart.

use crate::types::step_for_library;
use hraskell::Step;
use second::cases::{marked_numbers, marked_steps, marked_words};
use std::fmt::Debug;

/// Words past each buffer, or records past the log, that no call may touch.
pub const GUARDS: usize = 8;

/// A buffer with guard words past the part that is lent.
pub struct Guarded<T> {
    words: Vec<T>,
}

impl<T> Guarded<T> {
    pub fn lent(&self) -> &[T] {
        &self.words[..self.words.len() - GUARDS]
    }

    pub fn lent_mut(&mut self) -> &mut [T] {
        let count = self.words.len() - GUARDS;
        &mut self.words[..count]
    }
}

impl<T: Copy + Into<u64>> Guarded<T> {
    /// Every word, the guard words too, under the buffer's name.
    pub fn named(&self, name: &'static str) -> Buffer {
        let words = self.words.iter().map(|&word| word.into()).collect();
        Buffer { name, words }
    }
}

impl Guarded<u8> {
    /// A text. An LF past its end would serve a reader that runs over it.
    pub fn text(bytes: &[u8]) -> Guarded<u8> {
        let words = [bytes, &[b'\n'; GUARDS]].concat();
        Guarded { words }
    }
}

impl Guarded<u32> {
    /// A buffer to be written, with known contents.
    pub fn marked(count: usize) -> Guarded<u32> {
        let words = marked_numbers(count + GUARDS);
        Guarded { words }
    }

    /// A buffer to be read.
    pub fn holding(numbers: &[u32]) -> Guarded<u32> {
        let words = [numbers, &marked_numbers(GUARDS)].concat();
        Guarded { words }
    }
}

impl Guarded<u64> {
    pub fn marked(count: usize) -> Guarded<u64> {
        let words = marked_words(count + GUARDS);
        Guarded { words }
    }
}

impl Guarded<Step> {
    pub fn marked(count: usize) -> Guarded<Step> {
        let marks = marked_steps(count + GUARDS).into_iter();
        let words = marks.map(step_for_library).collect();
        Guarded { words }
    }

    /// The three numbers of every record in turn, the guard records too, under the log's name.
    pub fn records_named(&self, name: &'static str) -> Buffer {
        let three = |step: &Step| [step.gate, step.terms, step.made];
        let words = self.words.iter().flat_map(three).map(u64::from).collect();
        Buffer { name, words }
    }
}

#[derive(Clone, Debug, PartialEq, Eq)]
pub struct Buffer {
    name: &'static str,
    words: Vec<u64>,
}

/// What a call leaves: the number it gives, and every lent word with the guard words.
#[derive(Clone, Debug, PartialEq, Eq)]
pub struct Outcome {
    pub number: u32,
    pub buffers: Vec<Buffer>,
}

impl Outcome {
    /// The words of the buffer of this name.
    pub fn words(&self, name: &str) -> &[u64] {
        let named = self.buffers.iter().find(|buffer| buffer.name == name);
        &named.expect("a buffer of this name").words
    }

    /// The first place, in words, where this is not what was expected.
    fn difference(&self, expected: &Outcome) -> Option<String> {
        let (is, was) = (self.number, expected.number);
        if is != was {
            return Some(format!("gives {is}, expected {was}"));
        }
        let pairs = self.buffers.iter().zip(&expected.buffers);
        for (buffer, expected) in pairs {
            let mut words = buffer.words.iter().zip(&expected.words);
            if let Some(at) = words.position(|(is, was)| is != was) {
                let (is, was) = (buffer.words[at], expected.words[at]);
                let name = buffer.name;
                return Some(format!("{name}[{at}] is {is:#x}, expected {was:#x}"));
            }
        }
        (self != expected).then(|| "other buffers than expected".to_string())
    }
}

/// The first case whose outcome is not the expected one, told in words; none when all are.
pub fn first_difference<C: Debug>(
    cases: &[C],
    outcome: impl Fn(&C) -> Outcome,
    expected: impl Fn(&C) -> Outcome,
) -> Option<String> {
    cases.iter().enumerate().find_map(|(place, case)| {
        let difference = outcome(case).difference(&expected(case))?;
        let case: String = format!("{case:?}").chars().take(4_000).collect();
        Some(format!("case {place}: {difference}\n{case}"))
    })
}

/// The numbers that the outcomes of these cases give, each once, rising.
pub fn numbers_given<C>(cases: &[C], outcome: impl Fn(&C) -> Outcome) -> Vec<u32> {
    let mut numbers: Vec<u32> = cases.iter().map(|case| outcome(case).number).collect();
    numbers.sort_unstable();
    numbers.dedup();
    numbers
}
