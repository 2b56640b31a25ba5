//! Reading: the library against the second program.

use compare::mirror::Mirror;
use compare::outcome::{first_difference, numbers_given, Guarded, Outcome};
use hraskell::raw;
use second::cases::damages::{cuts, Damage};
use second::cases::judgements::two_bits;
use second::cases::texts::{self, TextCase, AND_TEXT};
use second::netlists::{random_size, Made};
use second::random::Random;
use second::Records;
use std::fmt;
use std::sync::LazyLock;

/// Texts of sound netlists.
const SOUND: u64 = 5_000;
/// Texts with each single damage.
const OF_EACH_DAMAGE: u64 = 2_000;
/// Small texts with none to two changes.
const CHANGED: u64 = 4_000;

struct ReadCase {
    text: Vec<u8>,
    table_words: usize,
    count_words: usize,
}

impl fmt::Debug for ReadCase {
    fn fmt(&self, out: &mut fmt::Formatter) -> fmt::Result {
        let text = String::from_utf8_lossy(&self.text);
        let (table, counts) = (self.table_words, self.count_words);
        write!(out, "table {table} words, counts {counts} words, {text:?}")
    }
}

impl ReadCase {
    /// What a call on fresh buffers leaves, whoever answers it.
    fn outcome(&self, reader: impl Fn(&[u8], &mut [u32], &mut [u32]) -> u32) -> Outcome {
        let text = Guarded::text(&self.text);
        let mut table = Guarded::<u32>::marked(self.table_words);
        let mut counts = Guarded::<u32>::marked(self.count_words);
        let number = reader(text.lent(), table.lent_mut(), counts.lent_mut());
        Outcome {
            number,
            buffers: vec![
                text.named("text"),
                table.named("table"),
                counts.named("counts"),
            ],
        }
    }

    fn by(&self, mirror: &Mirror) -> Outcome {
        self.outcome(|text, table, counts| mirror.read(text, table, counts))
    }
}

/// Made once for all tests of this file.
static CASES: LazyLock<Vec<ReadCase>> = LazyLock::new(cases);

fn cases() -> Vec<ReadCase> {
    let mut cases = edge_cases();
    cases.extend(cut_cases());
    let mut random = Random::new(1);
    for _ in 0..SOUND {
        let made = random_size(&mut random, Records::Gates);
        cases.push(random_buffers(&mut random, made.text(), &made));
    }
    for damage in Damage::ALL {
        for _ in 0..OF_EACH_DAMAGE {
            let made = random_size(&mut random, Records::Gates);
            let text = damage.text_of(&mut random, &made);
            cases.push(random_buffers(&mut random, text, &made));
        }
    }
    for _ in 0..CHANGED {
        let TextCase { text, table_words } = texts::random(&mut random);
        cases.push(ReadCase {
            text,
            table_words,
            count_words: 5,
        });
    }
    cases
}

/// The edges of reading, with counts just long enough, longer, just too short and empty.
fn edge_cases() -> Vec<ReadCase> {
    let mut cases = Vec::new();
    for TextCase { text, table_words } in texts::edges() {
        for count_words in [5, 9, 4, 0] {
            cases.push(ReadCase {
                text: text.clone(),
                table_words,
                count_words,
            });
        }
    }
    cases
}

/// Two small texts cut at every place, with tables one too short, exact and longer.
fn cut_cases() -> Vec<ReadCase> {
    let two_bits = two_bits();
    let whole = [
        (AND_TEXT.as_bytes().to_vec(), 4),
        (two_bits.text(), two_bits.table.len()),
    ];
    let mut cases = Vec::new();
    for (text, needed) in whole {
        for cut in cuts(&text) {
            for table_words in [needed - 1, needed, needed + 3] {
                cases.push(ReadCase {
                    text: cut.clone(),
                    table_words,
                    count_words: 5,
                });
            }
        }
    }
    cases
}

/// A table shorter, exact or longer than the netlist needs, and counts shorter, exact or longer than five words.
fn random_buffers(random: &mut Random, text: Vec<u8>, made: &Made) -> ReadCase {
    let needed = made.table.len();
    let table_words = match random.below(12) {
        0 => needed - 1,
        1 => random.below(needed),
        2..=6 => needed,
        _ => needed + 1 + random.below(9),
    };
    let count_words = match random.below(12) {
        0 => 4,
        1 => random.below(5),
        2..=4 => 6 + random.below(6),
        _ => 5,
    };
    ReadCase {
        text,
        table_words,
        count_words,
    }
}

#[test]
fn reading_gives_the_same_numbers_and_words() {
    assert!(CASES.len() >= 20_000);
    println!("{} cases of reading", CASES.len());
    let document = Mirror::of_document();
    let library = |case: &ReadCase| case.outcome(raw::read);
    let difference = first_difference(&CASES, library, |case| case.by(&document));
    assert!(difference.is_none(), "{}", difference.unwrap());
}

#[test]
fn the_cases_of_reading_meet_every_number() {
    let document = Mirror::of_document();
    let numbers = numbers_given(&CASES, |case| case.by(&document));
    assert_eq!(numbers, [0, 101, 102, 103, 104, 105, 106, 107, 112]);
}

#[test]
fn the_cases_of_reading_tell_every_mutant() {
    let document = Mirror::of_document();
    let mutants = Mirror::mutants_of("read");
    assert!(mutants.len() >= 5);
    for (name, mutant) in &mutants {
        let told = first_difference(&CASES, |case| case.by(mutant), |case| case.by(&document));
        assert!(told.is_some(), "{name}: no case of reading tells it");
    }
    println!("{} mutants of reading told", mutants.len());
}
