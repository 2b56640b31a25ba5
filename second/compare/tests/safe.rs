//! The library's functions with typed answers in place of numbers, against the second program.

use compare::types::{
    answer_for_library, counts_for_library, kind_for_library, records_for_library, step_for_library,
};
use hraskell::{Answer, Lent, Question, Refused, Step};
use second::cases::judgements::{self, JudgeCase};
use second::cases::{marked_numbers, marked_steps, marked_words, pairs, runs, texts};
use second::random::Random;
use second::reading::Reading;
use second::{Records, Rules};
use std::collections::BTreeSet;

/// The second program goes by the rules of the document.
const DOCUMENT: Rules = Rules::of_document();

/// The number of a refusal, and 0 where there is none.
fn refusal<R>(result: &Result<R, Refused>) -> u32 {
    match result {
        Ok(_) => 0,
        Err(Refused(number)) => *number,
    }
}

#[test]
fn reading_gives_the_counts_and_the_table() {
    let mut refusals = BTreeSet::new();
    for case in texts::edges() {
        let mut table = marked_numbers(case.table_words);
        let counts = hraskell::read(&case.text, &mut table);
        let expected = case.seen(&DOCUMENT);
        let wanted = expected.answer.map(counts_for_library).map_err(Refused);
        assert_eq!((counts, table), (wanted, expected.table), "{case:?}");
        refusals.insert(refusal(&counts));
    }
    assert_eq!(refusals, BTreeSet::from([0, 1, 2, 3, 4, 5, 6, 7]));
}

#[test]
fn evaluating_gives_the_word() {
    let mut refusals = BTreeSet::new();
    for case in pairs::edges() {
        let counts = counts_for_library(case.counts);
        let records = records_for_library(case.records);
        let word = hraskell::evaluate(counts, &case.table, records, case.x, case.y);
        assert_eq!(word, case.seen(&DOCUMENT).map_err(Refused), "{case:?}");
        refusals.insert(refusal(&word));
    }
    assert_eq!(refusals, BTreeSet::from([0, 2, 3, 8]));
}

/// The case as the library is asked; none where the kind is no reading, which these types cannot say.
fn question(case: &JudgeCase) -> Option<Question<'_>> {
    let reading = Reading::of_kind(&DOCUMENT, case.kind)?;
    Some(Question {
        counts: counts_for_library(case.counts),
        table: &case.table,
        records: records_for_library(case.records),
        kind: kind_for_library(reading),
        limit: case.limit,
        order: &case.order,
    })
}

/// An answer, then store, scratch, log and occurrences as it leaves them.
type Left = (
    Result<Answer, Refused>,
    Vec<u64>,
    Vec<u64>,
    Vec<Step>,
    Vec<u32>,
);

fn by_library(question: &Question, case: &JudgeCase) -> Left {
    let mut store = marked_words(case.store_words);
    let mut scratch = marked_words(case.scratch_words);
    let mut log = for_library(marked_steps(case.log_records));
    let mut occurrences = marked_numbers(case.occurrence_words);
    let lent = Lent {
        store: &mut store,
        scratch: &mut scratch,
        log: &mut log,
        occurrences: &mut occurrences,
    };
    let answer = hraskell::judge(question, lent);
    (answer, store, scratch, log, occurrences)
}

fn by_second(case: &JudgeCase) -> Left {
    let seen = case.seen(&DOCUMENT);
    let answer = answer_for_library(seen.answer);
    let log = for_library(seen.log);
    (answer, seen.store, seen.scratch, log, seen.occurrences)
}

fn for_library(log: Vec<second::Step>) -> Vec<Step> {
    log.into_iter().map(step_for_library).collect()
}

#[test]
fn judging_gives_the_answer_and_the_lent_words() {
    let mut random = Random::new(6);
    let mut cases = judgements::edges();
    cases.extend(runs::real_blocks());
    for records in Records::ALL {
        cases.extend(runs::refusals(&mut random, records));
    }
    let (mut letters, mut refusals) = (BTreeSet::new(), BTreeSet::new());
    for case in cases {
        let Some(question) = question(&case) else {
            continue;
        };
        let left = by_library(&question, &case);
        assert!(left == by_second(&case), "{:?}: {case:?}", left.0);
        refusals.insert(refusal(&left.0));
        letters.extend(left.0.ok().map(letter));
    }
    assert_eq!(letters, BTreeSet::from(['D', 'E', 'R', 'U']));
    assert_eq!(refusals, BTreeSet::from([0, 2, 3, 8, 9, 10, 11, 12]));
}

fn letter(answer: Answer) -> char {
    match answer {
        Answer::Equal { .. } => 'E',
        Answer::Differs { .. } => 'D',
        Answer::OutOfRoom { .. } => 'R',
        Answer::Unfinished { .. } => 'U',
    }
}

/// The words that a question tells to lend are what the document asks for: with one less it is refused.
#[test]
fn the_words_that_a_question_tells_are_enough_and_one_less_is_not() {
    let mut of_records = BTreeSet::new();
    let mut cases = runs::real_blocks();
    cases.retain(|case| refusal(&by_second(case).0) == 0);
    for case in cases {
        let question = question(&case).expect("a kind that was taken");
        let told = JudgeCase {
            store_words: question.store_words(),
            scratch_words: question.scratch_words(),
            occurrence_words: question.occurrence_words(),
            ..case.clone()
        };
        assert_eq!(refusal(&by_library(&question, &told).0), 0, "{case:?}");
        let less: [fn(&mut JudgeCase); 3] = [
            |case| case.store_words -= 1,
            |case| case.scratch_words -= 1,
            |case| case.occurrence_words -= 1,
        ];
        for take_one in less {
            let mut short = told.clone();
            take_one(&mut short);
            assert_eq!(refusal(&by_library(&question, &short).0), 12, "{case:?}");
        }
        of_records.insert(question.records.number());
    }
    assert_eq!(of_records, BTreeSet::from([0, 1]));
}
