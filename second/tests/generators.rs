//! The generators of cases make what their names say.

mod common;

use common::DOCUMENT;
use second::cases::damages::{cuts, Damage};
use second::cases::texts::AND_TEXT;
use second::cases::{judgements, pairs, runs};
use second::netlists::random_size;
use second::random::Random;
use second::{read, Answer, Records};

#[test]
fn pairs_are_refused_for_what_is_wrong_with_them() {
    let mut random = Random::new(1);
    for turn in 0..2_000 {
        let records = Records::ALL[turn % 2];
        let sound = pairs::sound(&mut random, records);
        assert!(sound.seen(&DOCUMENT).is_ok());
        let sum = pairs::of_sums(&mut random, records);
        assert!(sum.seen(&DOCUMENT).is_ok());
        let wrong = pairs::of_wrong_counts(&mut random, records);
        assert_eq!(wrong.seen(&DOCUMENT), Err(2));
        let short = pairs::of_short_table(&mut random, records);
        assert_eq!(short.seen(&DOCUMENT), Err(3));
        let unsound = pairs::of_unsound_table(&mut random, records);
        assert_eq!(unsound.seen(&DOCUMENT), Err(8));
    }
}

#[test]
fn most_damages_are_refused() {
    for damage in Damage::ALL {
        let mut random = Random::new(2);
        let mut refused = 0;
        for _ in 0..200 {
            let made = random_size(&mut random, Records::Gates);
            let text = damage.text_of(&mut random, &made);
            let mut table = vec![0; 2_106];
            refused += u32::from(read(&text, &mut table).is_err());
        }
        assert!(refused > 100, "{damage:?}: {refused} of 200 refused");
    }
}

#[test]
fn every_cut_but_the_whole_is_refused() {
    let cuts = cuts(AND_TEXT.as_bytes());
    assert_eq!(cuts.len(), AND_TEXT.len() + 1);
    for cut in cuts {
        let whole = cut.len() == AND_TEXT.len();
        assert_eq!(read(&cut, &mut [0; 4]).is_ok(), whole);
    }
}

#[test]
fn room_ends_between_the_limits_around_the_terms() {
    let mut random = Random::new(3);
    for turn in 0..20 {
        let records = Records::ALL[turn % 2];
        let at_start: Vec<bool> = runs::around_start(&mut random, records)
            .iter()
            .map(|case| {
                let answer = case.seen(&DOCUMENT).answer;
                matches!(answer, Answer::OutOfRoom { step: 0, .. })
            })
            .collect();
        assert_eq!(at_start, [true, false, false]);
        let first = &runs::around_terms(&mut random, records)[0];
        let answer = first.seen(&DOCUMENT).answer;
        assert!(matches!(answer, Answer::OutOfRoom { .. }));
    }
}

#[test]
fn the_largest_limit_is_met_and_passed() {
    let (full, fits) = (true, false);
    let expected = [full, fits, fits, full, full, fits, full, full, full];
    for records in Records::ALL {
        let answers: Vec<bool> = runs::around_largest_limit(records)
            .iter()
            .map(|case| matches!(case.seen(&DOCUMENT).answer, Answer::OutOfRoom { .. }))
            .collect();
        assert_eq!(answers, expected);
    }
}

#[test]
fn cases_are_refused_only_when_something_is_wrong() {
    let mut random = Random::new(4);
    let is_refused = |case: &judgements::JudgeCase| {
        let answer = case.seen(&DOCUMENT).answer;
        matches!(answer, Answer::Refused(_))
    };
    for turn in 0..100 {
        let records = Records::ALL[turn % 2];
        let mut case = runs::at_word_borders(&mut random, records);
        runs::lend_more(&mut random, &mut case);
        assert!(!is_refused(&case));
    }
    for records in Records::ALL {
        let refusals = runs::refusals(&mut random, records);
        let refused = refusals.iter().filter(|case| is_refused(case)).count();
        // A log cannot be too short for an order without steps.
        assert!(refused + 1 >= refusals.len(), "{refused}");
    }
}
