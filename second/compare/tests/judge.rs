//! Judging: the library against the second program.

use compare::mirror::{number_of, Mirror};
use compare::outcome::{first_difference, numbers_given, Guarded, Outcome, GUARDS};
use compare::types::counts_for_library;
use hraskell::raw::{self, Question};
use hraskell::Lent;
use second::cases::adding::{one_bit, only_c};
use second::cases::cells::{and_cell, cell, eight_of_one};
use second::cases::judgements::{self, all_false, and_netlist, two_bits, JudgeCase};
use second::cases::peak::{most_made, read_twice};
use second::cases::{marked_numbers, marked_steps, marked_words, occurrences, runs};
use second::cell_netlists::gates_as_cells;
use second::netlists::{random_for, random_sound, Made};
use second::orders;
use second::random::Random;
use second::reading::Reading;
use second::{Records, Step};
use std::collections::BTreeSet;
use std::sync::LazyLock;

#[derive(Clone, Debug)]
struct Call {
    case: JudgeCase,
    cells: u32,
    answer_words: usize,
}

impl Call {
    /// A call with just the words that an answer needs.
    fn new(case: JudgeCase) -> Call {
        Call::lending(case, 7)
    }

    fn lending(case: JudgeCase, answer_words: usize) -> Call {
        Call {
            // Cases differ in the words they lend, so all numbers that name cells come up.
            cells: number_of(case.records, case.table.len() + case.order.len()),
            case,
            answer_words,
        }
    }

    /// What a call on fresh buffers leaves, whoever answers it.
    fn outcome(&self, judge: impl Fn(Question, Lent, &mut [u64]) -> u32) -> Outcome {
        let case = &self.case;
        let table = Guarded::holding(&case.table);
        let order = Guarded::holding(&case.order);
        let mut store = Guarded::<u64>::marked(case.store_words);
        let mut scratch = Guarded::<u64>::marked(case.scratch_words);
        let mut log = Guarded::<hraskell::Step>::marked(case.log_records);
        let mut occurrences = Guarded::<u32>::marked(case.occurrence_words);
        let mut answer = Guarded::<u64>::marked(self.answer_words);
        let question = Question {
            counts: counts_for_library(case.counts),
            table: table.lent(),
            cells: self.cells,
            kind: case.kind,
            limit: case.limit,
            order: order.lent(),
        };
        let lent = Lent {
            store: store.lent_mut(),
            scratch: scratch.lent_mut(),
            log: log.lent_mut(),
            occurrences: occurrences.lent_mut(),
        };
        let number = judge(question, lent, answer.lent_mut());
        Outcome {
            number,
            buffers: vec![
                answer.named("answer"),
                store.named("store"),
                log.records_named("log"),
                occurrences.named("occurrences"),
                scratch.named("scratch"),
                table.named("table"),
                order.named("order"),
            ],
        }
    }

    fn by_library(&self) -> Outcome {
        self.outcome(raw::judge)
    }

    fn by(&self, mirror: &Mirror) -> Outcome {
        self.outcome(|question, lent, answer| mirror.judge(question, lent, answer))
    }
}

/// Made once for all tests of this file.
static CALLS: LazyLock<Vec<Call>> = LazyLock::new(calls);

fn calls() -> Vec<Call> {
    let named = named().into_iter();
    let mut calls: Vec<Call> = named.map(|(_, case, _)| Call::new(case)).collect();
    calls.extend(edge_calls());
    let mut random = Random::new(3);
    for records in Records::ALL {
        calls.extend(room_calls(&mut random, records));
        calls.extend(size_calls(&mut random, records));
        calls.extend(refusal_calls(&mut random, records));
    }
    calls.extend(runs::real_blocks().into_iter().map(Call::new));
    for turn in 0..8_000 {
        let mut case = judgements::random(&mut random, Records::ALL[turn % 2]);
        if random.one_in(2) {
            runs::lend_more(&mut random, &mut case);
        }
        let answer_words = random.pick(&[7, 7, 7, 7, 7, 7, 8, 11, 6]);
        calls.push(Call::lending(case, answer_words));
    }
    for turn in 0..1_000 {
        let case = occurrences::random(&mut random, Records::ALL[turn % 2]);
        calls.push(Call::new(case));
    }
    calls
}

/// The edges of judging, with words for the answer that are just enough, more, one too few and none.
fn edge_calls() -> Vec<Call> {
    let mut calls = Vec::new();
    for case in judgements::edges() {
        for answer_words in [7, 9] {
            calls.push(Call::lending(case.clone(), answer_words));
        }
    }
    for (place, case) in judgements::edges().into_iter().enumerate() {
        calls.push(Call::lending(case, [6, 0][place % 2]));
    }
    calls
}

/// T at and around the number of terms, at the start and later, and at its largest.
fn room_calls(random: &mut Random, records: Records) -> Vec<Call> {
    let mut cases = runs::around_largest_limit(records);
    for _ in 0..100 {
        cases.extend(runs::around_terms(random, records));
        cases.extend(runs::around_start(random, records));
    }
    for limit in [128, 144, 160, 168, 169, 170] {
        cases.extend((0..8).map(|_| runs::twelve_bits(random, records, limit)));
    }
    for case in cases.iter_mut().step_by(2) {
        runs::lend_more(random, case);
    }
    cases.into_iter().map(Call::new).collect()
}

/// M at the borders of words and at its most, I 64, and the longest orders.
fn size_calls(random: &mut Random, records: Records) -> Vec<Call> {
    let mut cases: Vec<JudgeCase> = (0..150)
        .map(|_| runs::at_word_borders(random, records))
        .collect();
    for steps in [4_095, 4_096, 4_097] {
        cases.extend((0..4).map(|_| runs::long_order(random, records, steps)));
    }
    for reading in Reading::ALL {
        let largest = random_for(random, records, reading, reading.most_bits(), 959);
        let order = orders::falling(largest.counts)[..20].to_vec();
        cases.push(JudgeCase::new(&largest, reading.kind(), 16_384, order));
    }
    cases.into_iter().map(Call::new).collect()
}

/// Every refusal and every two at once, each with enough words for the answer and with too few.
fn refusal_calls(random: &mut Random, records: Records) -> Vec<Call> {
    let mut calls = Vec::new();
    for _ in 0..8 {
        for case in runs::refusals(random, records) {
            for answer_words in [random.pick(&[7, 8]), random.pick(&[0, 6])] {
                calls.push(Call::lending(case.clone(), answer_words));
            }
        }
    }
    calls
}

/// What the document says of a call; a refusal is 100 more than its number.
#[derive(Clone, Copy, Debug)]
enum Said {
    /// The number, and the first words of the answer.
    Answers(u32, &'static [u64]),
    Refused(u32),
    /// Taken: E, D, R or U.
    Taken,
    /// Taken, and R at step 0 or certainly not.
    FullAtStart(bool),
}

impl Said {
    fn holds(self, outcome: &Outcome) -> bool {
        let number = outcome.number;
        let answer = outcome.words("answer");
        let is_full = number == 2 && answer[0] == 0;
        match self {
            Said::Answers(said, words) => number == said && answer.starts_with(words),
            Said::Refused(said) => number == 100 + said,
            Said::Taken => number <= 3,
            Said::FullAtStart(said) => number <= 3 && is_full == said,
        }
    }
}

type Named = (&'static str, JudgeCase, Said);

/// The bench sheet, and what the document names under "Run and compared".
fn named() -> Vec<Named> {
    let mut named = bench_sheet();
    named.extend(at_the_limits());
    named.extend(cells_by_hand());
    named.extend(sums_by_hand());
    let mut random = Random::new(4);
    for turn in 0..12 {
        let records = Records::ALL[turn % 2];
        let tight = runs::twelve_bits(&mut random, records, 128);
        named.push(("n = 12, u, T = 128", tight, Said::FullAtStart(true)));
        let roomy = runs::twelve_bits(&mut random, records, 169);
        named.push(("n = 12, u, T = 169", roomy, Said::FullAtStart(false)));
    }
    named
}

/// P1 to P11.
#[rustfmt::skip]
fn bench_sheet() -> Vec<Named> {
    let judged = |made: &Made, kind, order: &[u32]| JudgeCase::new(made, kind, 128, order.to_vec());
    let and = |outputs: &[u32], kind, order: &[u32]| judged(&and_netlist(outputs), kind, order);
    let example = Made::new(2, &[7, 0], &[(5, 3)]);
    let falling = orders::falling(two_bits().counts);
    vec![
        ("P1", and(&[6, 0], 0, &[3]), Said::Answers(0, &[1, 0])),
        ("P2", and(&[6, 0], 1, &[3]), Said::Answers(0, &[1, 0])),
        ("P3", and(&[6, 6], 0, &[3]), Said::Answers(1, &[1, 1, 1, 1, 0, 3, 1])),
        ("P4", and(&[6, 6], 1, &[3]), Said::Answers(1, &[1, 1, 1, 1, 0, 3, 1])),
        ("P5", and(&[7, 0], 0, &[3]), Said::Answers(1, &[1, 2, 0, 0, 0, 1, 0])),
        ("P6", and(&[6, 0], 0, &[]), Said::Answers(3, &[0, 2])),
        ("P7", and(&[6, 0], 0, &[3, 3]), Said::Answers(0, &[2, 0])),
        ("P8", and(&[6], 2, &[3]), Said::Answers(0, &[1, 0])),
        ("P9", judged(&example, 0, &[3]), Said::Answers(1, &[1, 3, 1, 0, 0, 1, 0])),
        ("P10", judged(&two_bits(), 0, &falling), Said::Answers(0, &[10, 0])),
        ("P10 at the start", judged(&two_bits(), 0, &[]), Said::Answers(3, &[0, 8])),
        ("P11", judged(&two_bits(), 1, &falling), Said::Answers(1, &[10, 2, 2, 1, 0, 2, 14])),
    ]
}

/// Just inside and just outside the limits; what is outside breaks nothing else.
fn at_the_limits() -> Vec<Named> {
    let and = and_netlist(&[6, 0]);
    let steps = |count| JudgeCase::new(&and, 0, 128, vec![3; count]);
    let limit = |limit| JudgeCase::new(&and, 0, limit, vec![3]);
    let mut random = Random::new(5);
    let mut sized = |kind, inputs, outputs, gates| {
        let made = random_sound(&mut random, inputs, outputs, gates);
        JudgeCase::new(&made, kind, 128, vec![])
    };
    vec![
        (
            "P1 under t",
            JudgeCase::new(&and, 2, 128, vec![3]),
            Said::Refused(9),
        ),
        ("T 127", limit(127), Said::Refused(10)),
        ("T 128", limit(128), Said::Answers(0, &[1, 0])),
        ("4,097 steps", steps(4_097), Said::Refused(11)),
        ("4,096 steps", steps(4_096), Said::Answers(0, &[4_096, 0])),
        ("M 1,024", sized(0, 2, 2, 1_022), Said::Refused(2)),
        ("M 1,023", sized(0, 2, 2, 1_021), Said::Taken),
        ("I 66", sized(2, 66, 33, 1), Said::Refused(2)),
        ("I 0", sized(2, 0, 1, 1), Said::Refused(2)),
        ("I 64", sized(0, 64, 64, 1), Said::FullAtStart(true)),
        ("I 64, M 1,023", sized(2, 64, 32, 959), Said::Taken),
    ]
}

/// Tables of cells, worked out by hand from document 02, section 5.
#[rustfmt::skip]
fn cells_by_hand() -> Vec<Named> {
    let and = |outputs: &[u32], kind| JudgeCase::new(&and_cell(outputs), kind, 128, vec![3]);
    let with = |change: fn(&mut JudgeCase)| {
        let mut case = and(&[6, 0], 0);
        change(&mut case);
        case
    };
    // a0 + a1 + b0 - 2 a0 a1 - 2 a0 b0 - 2 a1 b0 + 4 a0 a1 b0, less the four products.
    let parity = Made::of_cells(4, &[10, 0, 0, 0], &[cell(150, 1, 2, 3)]);
    vec![
        ("a cell of P1", and(&[6, 0], 0), Said::Answers(0, &[1, 0])),
        ("a cell of P3", and(&[6, 6], 0), Said::Answers(1, &[1, 1, 1, 1, 0, 3, 1])),
        ("a cell of P5", and(&[7, 0], 0), Said::Answers(1, &[1, 2, 0, 0, 0, 1, 0])),
        ("byte 150", JudgeCase::new(&parity, 0, 128, vec![5]), Said::Answers(1, &[1, 9, 1, 0, 0, 1, 0])),
        ("O + 4A words less one", with(|case| case.table.truncate(5)), Said::Refused(3)),
        ("byte 255", with(|case| case.table[2] = 255), Said::Answers(1, &[1, 2, 0, 0, 0, 1, 0])),
        ("byte 256", with(|case| case.table[2] = 256), Said::Refused(8)),
        ("its own variable", with(|case| case.table[5] = 3), Said::Refused(8)),
        ("8T(W + 1) words of scratch", with(|case| case.scratch_words = 2_048), Said::Answers(0, &[1, 0])),
        ("one less", with(|case| case.scratch_words = 2_047), Said::Refused(12)),
        ("4T(W + 1) words of scratch", with(|case| case.scratch_words = 1_024), Said::Refused(12)),
    ]
}

/// Multiply and add, worked out by hand from document 02, section 12.
#[rustfmt::skip]
fn sums_by_hand() -> Vec<Named> {
    let judged = |made: &Made, kind, limit| {
        let order = orders::falling(made.counts);
        JudgeCase::new(made, kind, limit, order)
    };
    let sized = |inputs, outputs: usize| Made::new(inputs, &vec![1; outputs], &[]);
    let right = one_bit(&[16, 22]);
    let as_cells = gates_as_cells(&right);
    // Every output is 1 at n = 16: 2^32 - 1, 256 products and 32 bits of c.
    let widest: &'static [u64] = &[0, 289, 0, 0, 0, 0xffff_ffff, 0];
    vec![
        ("one bit under m", judged(&right, 3, 128), Said::Answers(0, &[7, 0])),
        ("one bit under ms", judged(&right, 4, 128), Said::Answers(0, &[7, 0])),
        ("one bit of cells under m", judged(&as_cells, 3, 128), Said::Answers(0, &[7, 0])),
        ("one bit under t", judged(&right, 2, 128), Said::Answers(1, &[7, 6, 0, 1, 0, 1, 0])),
        ("one bit under u", judged(&right, 0, 128), Said::Refused(9)),
        ("kind 5", judged(&right, 5, 128), Said::Refused(9)),
        ("kind 256 + 3", judged(&right, 256 + 3, 128), Said::Refused(9)),
        ("c_0 left out", judged(&one_bit(&[10, 8]), 3, 128), Said::Answers(1, &[7, 1, 0, 0, 1, 0, 1])),
        ("c_1 left out", judged(&one_bit(&[16, 0]), 4, 128), Said::Answers(1, &[7, 2, 0, 0, 2, 0, 2])),
        ("the product left out", judged(&only_c(1), 3, 128), Said::Answers(1, &[0, 1, 1, 1, 0, 0, 1])),
        ("b shown for c_0", judged(&Made::new(4, &[4, 8], &[]), 3, 128), Said::Answers(1, &[0, 3, 0, 1, 0, 1, 0])),
        ("ab and c_0 left out", judged(&Made::new(4, &[0, 8], &[]), 3, 128), Said::Answers(1, &[0, 2, 0, 0, 1, 0, 1])),
        ("I 2 under m", judged(&sized(2, 1), 3, 128), Said::Refused(9)),
        ("I 6 under m", judged(&sized(6, 3), 3, 128), Said::Refused(9)),
        ("I 6 under ms, O 2", judged(&sized(6, 2), 4, 128), Said::Refused(9)),
        ("O one less than l", judged(&sized(8, 3), 3, 128), Said::Refused(9)),
        ("O one more than l", judged(&sized(8, 5), 4, 128), Said::Refused(9)),
        ("I 64 under m", judged(&sized(64, 32), 3, 289), Said::Answers(1, widest)),
        ("I 64 under ms", judged(&sized(64, 32), 4, 289), Said::Answers(1, widest)),
        ("one term too many", judged(&sized(64, 32), 3, 288), Said::FullAtStart(true)),
    ]
}

/// What is said of a call that lends fewer words than an answer needs, and of one that lends just enough.
#[test]
fn seven_words_are_enough_for_every_answer_and_six_for_none() {
    let sum = one_bit(&[10, 8]);
    for kind in 0..6 {
        for made in [&and_netlist(&[6, 6]), &sum] {
            let case = JudgeCase::new(made, kind, 128, orders::falling(made.counts));
            let by = |words| Call::lending(case.clone(), words).by_library();
            assert_eq!(by(6).number, 112, "kind {kind}");
            assert_ne!(by(7).number, 112, "kind {kind}");
        }
    }
    let differing = Call::lending(JudgeCase::new(&and_netlist(&[6, 6]), 0, 128, vec![3]), 9);
    let outcome = differing.by_library();
    assert_eq!(outcome.words("answer")[..7], [1, 1, 1, 1, 0, 3, 1]);
    assert_eq!(outcome.words("answer")[7..], marked_words(9 + GUARDS)[7..]);
}

/// A name, a case that is taken, and how often each variable occurs in the polynomial held.
type Counted = (&'static str, JudgeCase, &'static [u32]);

/// Entries worked out by hand from document 02, section 6: all terms, then the variables from 1 to M.
#[rustfmt::skip]
fn counted_by_hand() -> Vec<Counted> {
    let judged = |made: &Made, kind, order: &[u32]| JudgeCase::new(made, kind, 128, order.to_vec());
    let and = |outputs: &[u32], order: &[u32]| judged(&and_netlist(outputs), 0, order);
    let falling = orders::falling(two_bits().counts);
    let down_to_nine = orders::falling(all_false().counts);
    let parity = Made::of_cells(4, &[10, 0, 0, 0], &[cell(150, 1, 2, 3)]);
    let only_products = Made::new(24, &[0; 24], &[]);
    vec![
        ("P1: 0", and(&[6, 0], &[3]), &[0, 0, 0, 0]),
        ("P3: 2ab", and(&[6, 6], &[3]), &[1, 1, 1, 0]),
        ("P5: 1 - 2ab", and(&[7, 0], &[3]), &[2, 1, 1, 0]),
        ("P6: x3 - ab", and(&[6, 0], &[]), &[2, 1, 1, 1]),
        // x5, x11, x12 and x14, and four products.
        ("P10 at the start", judged(&two_bits(), 0, &[]), &[8, 2, 2, 2, 2, 1, 0, 0, 0, 0, 0, 1, 1, 0, 1]),
        // x14 is 1 - x13 - x12 + x12 x13.
        ("P10, one step", judged(&two_bits(), 0, &falling[..1]), &[10, 2, 2, 2, 2, 1, 0, 0, 0, 0, 0, 1, 2, 2, 0]),
        ("P11: 4 a0 b1 + 4 a1 b0", judged(&two_bits(), 1, &falling), &[2, 1, 1, 1, 1, 0, 0, 0, 0, 0, 0, 0, 0, 0, 0]),
        // The products below 2^4, and x9 (1 - x3)···(1 - x8).
        ("R at step 7", judged(&all_false(), 2, &down_to_nine), &[74, 4, 3, 34, 33, 36, 35, 34, 33, 64, 0, 0, 0, 0, 0, 0]),
        ("R at step 0", judged(&only_products, 0, &[]), &[0; 25]),
        // a0 + a1 + b0 - 2 a0 a1 - 3 a0 b0 - 4 a1 b0 + 4 a0 a1 b0 - 2 a0 b1 - 4 a1 b1.
        ("byte 150", judged(&parity, 0, &[5]), &[9, 5, 5, 4, 2, 0]),
        // 2 x11 + x8 - 2 c1 - c0 - ab.
        ("a sum at the start", judged(&one_bit(&[16, 22]), 3, &[]), &[5, 1, 1, 1, 1, 0, 0, 0, 1, 0, 0, 1]),
    ]
}

#[test]
fn variables_are_counted_as_by_hand_and_words_past_them_kept() {
    for (name, mut case, expected) in counted_by_hand() {
        for more in [0, 1, 6] {
            case.occurrence_words = expected.len() + more;
            let outcome = Call::new(case.clone()).by_library();
            assert!(outcome.number <= 3, "{name}: {}", outcome.number);
            let (counted, past) = outcome.words("occurrences").split_at(expected.len());
            assert!(
                counted.iter().eq(widened(expected).iter()),
                "{name}: {counted:?}"
            );
            let marks = marked_numbers(case.occurrence_words + GUARDS);
            assert_eq!(past, &widened(&marks)[expected.len()..], "{name}");
        }
    }
}

fn widened(numbers: &[u32]) -> Vec<u64> {
    numbers.iter().map(|&number| number.into()).collect()
}

#[test]
fn one_word_less_than_m_plus_1_is_refused_and_changes_nothing() {
    for (name, mut case, expected) in counted_by_hand() {
        case.occurrence_words = expected.len() - 1;
        let outcome = Call::new(case.clone()).by_library();
        assert_eq!(outcome.number, 112, "{name}");
        let nobody = Call::new(case).outcome(|_, _, _| 112);
        assert!(outcome == nobody, "{name}: a word was changed");
    }
}

/// A name, a case that is taken, and the terms after each step completed and before its gathering.
type Logged = (&'static str, JudgeCase, &'static [(u32, u32)]);

/// Numbers worked out by hand from documents 01 and 02, section 9.
#[rustfmt::skip]
fn logged_by_hand() -> Vec<Logged> {
    let judged = |made: &Made, kind, order: &[u32]| JudgeCase::new(made, kind, 128, order.to_vec());
    let and = |outputs: &[u32], kind, order: &[u32]| judged(&and_netlist(outputs), kind, order);
    let gate = |rhs0, rhs1| judged(&Made::new(2, &[6, 0], &[(rhs0, rhs1)]), 0, &[3]);
    let shown = |outputs: &[u32], cell| judged(&Made::of_cells(4, outputs, &[cell]), 0, &[5]);
    let falling = |made: &Made, kind| judged(made, kind, &orders::falling(made.counts));
    let [four, eight] = most_made();
    vec![
        ("P1", and(&[6, 0], 0, &[3]), &[(0, 2)]),
        ("P2", and(&[6, 0], 1, &[3]), &[(0, 2)]),
        ("P3", and(&[6, 6], 0, &[3]), &[(1, 2)]),
        ("P4", and(&[6, 6], 1, &[3]), &[(1, 2)]),
        ("P5", and(&[7, 0], 0, &[3]), &[(2, 3)]),
        ("P6", and(&[6, 0], 0, &[]), &[]),
        ("P7", and(&[6, 0], 0, &[3, 3]), &[(0, 2), (0, 0)]),
        ("P8", and(&[6], 2, &[3]), &[(0, 2)]),
        ("P9", judged(&Made::new(2, &[7, 0], &[(5, 3)]), 0, &[3]), &[(3, 6)]),
        ("P5 with order 3, 3", and(&[7, 0], 0, &[3, 3]), &[(2, 3), (2, 2)]),
        ("P10", falling(&two_bits(), 0),
            &[(10, 11), (13, 16), (8, 13), (10, 11), (13, 16), (8, 13), (6, 8), (4, 6), (2, 4), (0, 2)]),
        ("P11", falling(&two_bits(), 1),
            &[(10, 11), (13, 16), (8, 13), (10, 11), (13, 16), (8, 13), (6, 8), (5, 6), (4, 5), (2, 4)]),
        ("literal 0", gate(5, 0), &[(1, 1)]),
        ("literal 1", gate(1, 1), &[(2, 2)]),
        ("an inverted literal", gate(3, 1), &[(3, 3)]),
        ("one inverted literal twice", gate(3, 3), &[(3, 5)]),
        ("a literal and its inverse", gate(3, 2), &[(1, 3)]),
        // Two terms with the gate, and four products.
        ("four of each", judged(&read_twice((3, 3)), 0, &[7, 6, 5]), &[(6, 6), (6, 6), (7, 12)]),
        ("four of all", judged(&four, 0, &[3, 4]), &[(1, 3), (4, 4)]),
        ("eight of all", judged(&eight, 0, &[3, 4]), &[(1, 3), (8, 8)]),
        // Four products, and seven coefficients that are not 0; modulo 16 four of them vanish at output 3.
        ("byte 150", shown(&[10, 0, 0, 0], cell(150, 1, 2, 3)), &[(9, 11)]),
        ("byte 150 at output 3", shown(&[0, 0, 0, 10], cell(150, 1, 2, 3)), &[(7, 11)]),
        ("byte 150 with a constant", shown(&[10, 0, 0, 0], cell(150, 1, 0, 3)), &[(6, 7)]),
        ("byte 150 on one variable", shown(&[10, 0, 0, 0], cell(150, 1, 1, 1)), &[(5, 11)]),
        ("byte 254 on constants", shown(&[10, 0, 0, 0], cell(254, 0, 0, 0)), &[(4, 4)]),
        // Ten products below 2^4 throughout; the steps of R have no record.
        ("R at step 7", falling(&all_false(), 2), &[(12, 12), (14, 14), (18, 18), (26, 26), (42, 42), (74, 74)]),
        ("R at step 4, of cells", falling(&eight_of_one(), 2), &[(11, 11), (14, 14), (42, 42)]),
        ("a sum", falling(&one_bit(&[16, 22]), 3), &[(8, 8), (8, 14), (4, 8), (6, 7), (7, 12), (2, 7), (0, 2)]),
    ]
}

#[test]
fn steps_are_logged_as_by_hand_and_records_past_them_kept() {
    for (name, mut case, expected) in logged_by_hand() {
        case.log_records += 2;
        let outcome = Call::new(case.clone()).by_library();
        assert!(outcome.number <= 3, "{name}: {}", outcome.number);
        let mut records = marked_steps(case.log_records + GUARDS);
        for (place, &(terms, made)) in expected.iter().enumerate() {
            let gate = case.order[place];
            records[place] = Step { gate, terms, made };
        }
        let logged: Vec<Step> = outcome
            .words("log")
            .chunks(3)
            .map(|numbers| Step {
                gate: numbers[0] as u32,
                terms: numbers[1] as u32,
                made: numbers[2] as u32,
            })
            .collect();
        assert_eq!(logged, records, "{name}");
    }
}

#[test]
fn judging_gives_the_same_numbers_and_words() {
    assert!(CALLS.len() >= 10_000);
    println!("{} cases of judging", CALLS.len());
    let document = Mirror::of_document();
    let difference = first_difference(&CALLS, Call::by_library, |call| call.by(&document));
    assert!(difference.is_none(), "{}", difference.unwrap());
}

#[test]
fn the_cases_that_the_document_names_are_answered_as_it_says() {
    for (name, case, said) in named() {
        let call = Call::new(case);
        let outcome = call.by_library();
        assert!(
            said.holds(&outcome),
            "{name}: {said:?}, not {}",
            outcome.number
        );
        let expected = call.by(&Mirror::of_document());
        assert!(outcome == expected, "{name}: other words");
    }
}

/// Every answer under each kind, and every refusal under some.
#[test]
fn the_cases_of_judging_meet_every_number() {
    let document = Mirror::of_document();
    // Stands for all numbers that are no kinds.
    let no_kind = 5;
    for records in Records::ALL {
        let mut met = BTreeSet::new();
        for kind in 0..=no_kind {
            let mut calls: Vec<&Call> = CALLS.iter().collect();
            calls.retain(|call| call.case.records == records);
            calls.retain(|call| call.case.kind.min(no_kind) == kind);
            let numbers = numbers_given(&calls, |call| call.by(&document));
            let has_answers = numbers.starts_with(&[0, 1, 2, 3]);
            assert!(has_answers || kind == no_kind, "kind {kind}: {numbers:?}");
            met.extend(numbers);
        }
        let expected = [0, 1, 2, 3, 102, 103, 108, 109, 110, 111, 112];
        assert_eq!(met, BTreeSet::from(expected));
    }
}

#[test]
fn the_cases_of_judging_tell_every_mutant() {
    let document = Mirror::of_document();
    let mutants = Mirror::mutants_of("judge");
    assert!(mutants.len() >= 5);
    for (name, mutant) in &mutants {
        let told = first_difference(&CALLS, |call| call.by(mutant), |call| call.by(&document));
        assert!(told.is_some(), "{name}: no case of judging tells it");
    }
    println!("{} mutants of judging told", mutants.len());
}
