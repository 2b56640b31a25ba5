//! The third number of a record: the terms of a step before gathering. Expected numbers were worked out by hand from
//! section 9 of document 02.

mod common;

use common::{judged, records, DOCUMENT};
use second::blocks::{all, orders_for, Block};
use second::cases::cells::{cell, eight_of_one};
use second::cases::judgements::{self, all_false, and_netlist, random_netlist, random_order};
use second::cases::judgements::{JudgeCase, JudgeSeen};
use second::cases::marked_steps;
use second::cases::peak::{self, most_made, read_twice};
use second::cells::Cell;
use second::netlists::Made;
use second::orders::falling;
use second::polynomial::Polynomial;
use second::random::Random;
use second::reading::Reading;
use second::records::Record;
use second::Answer::{OutOfRoom, Unfinished};
use second::{Records, Rules, Step};

const U: u32 = 0;
const T: u32 = 2;

/// The log of a netlist with T = 128.
fn log(made: &Made, order: &[u32]) -> Vec<Step> {
    judged(made, U, 128, order).log
}

/// Terms after, and terms before gathering, of the step of x3 in x3 - ab, x3 being the AND of these literals.
fn of_gate(rhs0: u32, rhs1: u32) -> (u32, u32) {
    let step = log(&Made::new(2, &[6, 0], &[(rhs0, rhs1)]), &[3])[0];
    (step.terms, step.made)
}

#[test]
fn literal_0_makes_none() {
    for other in 0..6 {
        // Only -ab is left, and only that was there.
        assert_eq!(of_gate(other, 0), (1, 1), "literal {other}");
    }
}

#[test]
fn literal_1_and_a_plain_literal_make_one() {
    assert_eq!(of_gate(1, 1), (2, 2));
    assert_eq!(of_gate(2, 1), (2, 2));
    // ab meets -ab and goes.
    assert_eq!(of_gate(4, 2), (0, 2));
    assert_eq!(of_gate(2, 2), (2, 2));
}

#[test]
fn an_inverted_literal_makes_two() {
    // 1 - a, less ab.
    assert_eq!(of_gate(3, 1), (3, 3));
    // b - ab, less ab.
    assert_eq!(of_gate(4, 3), (2, 3));
    // 1 - a - b + ab, less ab.
    assert_eq!(of_gate(5, 3), (3, 5));
}

#[test]
fn a_gate_that_reads_one_inverted_literal_twice_makes_four_of_each() {
    // 1 - a - a + a, less ab.
    assert_eq!(of_gate(3, 3), (3, 5));
    // a - a, less ab.
    assert_eq!(of_gate(3, 2), (1, 3));
    // x6 + 2 x7 - P, then a1 x5 + 2 b0 x5 - P: four products stay, and two terms make four each. What is left is
    // a1 - a0 a1 + 2 b0 - 3 a0 b0 - 2 a1 b0 - 2 a0 b1 - 4 a1 b1.
    let expected = records(&[7, 6, 5], &[6, 6, 7], &[6, 6, 12]);
    assert_eq!(log(&read_twice((3, 3)), &[7, 6, 5]), expected);
    // a1 and 2 b0 with a0 - a0.
    let expected = records(&[7, 6, 5], &[6, 6, 4], &[6, 6, 8]);
    assert_eq!(log(&read_twice((3, 2)), &[7, 6, 5]), expected);
}

#[test]
fn a_variable_that_the_term_holds_already_makes_no_fewer() {
    // x4 is x3 (1 - a): x3 - a x3 - ab, then ab - ab - ab.
    let made = Made::new(2, &[8, 0], &[(4, 2), (6, 3)]);
    let expected = records(&[4, 3], &[3, 1], &[3, 3]);
    assert_eq!(log(&made, &[4, 3]), expected);
}

/// Terms after, and terms before gathering, of the step of a cell that output 0 of two bits shows.
fn of_cell(byte: u32, x1: u32, x2: u32, x3: u32) -> (u32, u32) {
    let made = Made::of_cells(4, &[10, 0, 0, 0], &[cell(byte, x1, x2, x3)]);
    let step = log(&made, &[5])[0];
    (step.terms, step.made)
}

#[test]
fn a_cell_makes_one_for_each_coefficient_that_is_not_0() {
    // Four products stay. Bytes 0 and 255 are constants, and byte 128 is a0 a1 b0.
    assert_eq!(of_cell(0, 1, 2, 3), (4, 4));
    assert_eq!(of_cell(255, 1, 2, 3), (5, 5));
    assert_eq!(of_cell(128, 1, 2, 3), (5, 5));
    // (1 - a0)(1 - a1)(1 - b0): a0 b0 meets its product and both go, a1 b0 meets its own and one stays.
    assert_eq!(of_cell(1, 1, 2, 3), (9, 12));
    // The majority: a0 a1 + a0 b0 + a1 b0 - 2 a0 a1 b0, and a0 b0 goes.
    assert_eq!(of_cell(232, 1, 2, 3), (5, 8));
}

#[test]
fn a_subset_with_the_constant_false_makes_none() {
    // The parity of a0 and b0: a0 + b0 - 2 a0 b0.
    assert_eq!(of_cell(150, 1, 0, 3), (6, 7));
    // Of byte 1 the subsets of a0 and a1 are left, then that of nothing.
    assert_eq!(of_cell(1, 1, 2, 0), (8, 8));
    assert_eq!(of_cell(1, 0, 0, 0), (5, 5));
    // Of byte 254 nothing is left: the coefficient of no variables is 0.
    assert_eq!(of_cell(254, 0, 0, 0), (4, 4));
}

#[test]
fn equal_variables_of_a_cell_join_after_counting() {
    // (1 - a0)^3 is 1 - a0.
    assert_eq!(of_cell(1, 1, 1, 1), (6, 12));
    // a0 + a0 + a0 - 2 a0 - 2 a0 - 2 a0 + 4 a0 is a0; without x3 a0 + a0 - 2 a0 is 0.
    assert_eq!(of_cell(150, 1, 1, 1), (5, 11));
    assert_eq!(of_cell(150, 1, 1, 0), (4, 7));
}

#[test]
fn a_coefficient_counts_where_the_new_one_vanishes() {
    // At output 3, modulo 16: 8 a0 + 8 a1 + 8 b0, and four that vanish.
    let parity = Made::of_cells(4, &[0, 0, 0, 10], &[cell(150, 1, 2, 3)]);
    assert_eq!(log(&parity, &[5]), records(&[5], &[7], &[11]));
    // At output 2: the last, 16 a0 a1 b0, vanishes, and -8 a1 b0 meets -2 a1 b0.
    let parity = Made::of_cells(4, &[0, 0, 10, 0], &[cell(150, 1, 2, 3)]);
    assert_eq!(log(&parity, &[5]), records(&[5], &[8], &[11]));
    // One bit under t is modulo 2: a + b, less ab, and -2ab vanishes.
    let one_bit = Made::of_cells(2, &[6], &[cell(150, 1, 2, 0)]);
    let seen = judged(&one_bit, T, 128, &[3]);
    assert_eq!(seen.log, records(&[3], &[3], &[4]));
}

#[test]
fn a_gate_that_does_not_occur_has_the_terms_before_it() {
    // 1 - x3 - ab, then 1 - 2ab twice.
    let expected = records(&[3, 3, 3], &[2, 2, 2], &[3, 2, 2]);
    assert_eq!(log(&and_netlist(&[7, 0]), &[3, 3, 3]), expected);
    // x4 - ab: x3 comes too early, then x4 is its inverse, then it is there.
    let inverse = Made::new(2, &[8, 0], &[(4, 2), (7, 1)]);
    let expected = records(&[3, 4, 3], &[2, 3, 2], &[2, 3, 3]);
    assert_eq!(log(&inverse, &[3, 4, 3]), expected);
    let unread = Made::of_cells(2, &[0, 0], &[cell(1, 1, 2, 0)]);
    assert_eq!(log(&unread, &[3]), records(&[3], &[1], &[1]));
}

#[test]
fn the_step_of_r_has_no_record() {
    // With T = 254 the last step would leave 255 terms; the numbers of those before are in `edges` and `cells`.
    for (made, last) in [(all_false(), 7), (eight_of_one(), 4)] {
        let order = falling(made.counts);
        let seen = judged(&made, T, 254, &order);
        assert!(matches!(seen.answer, OutOfRoom { step, .. } if step == last as u32));
        assert_eq!(seen.log[last - 1], marked_steps(last)[last - 1]);
        let with_room = judged(&made, T, 255, &order);
        assert_eq!(with_room.log[last - 1].made, 266);
        assert_eq!(with_room.log[..last - 1], seen.log[..last - 1]);
    }
}

#[test]
fn room_is_told_by_the_terms_gathered_and_not_by_those_made() {
    // 266 terms made are more than T, and 255 gathered are not.
    let order = falling(all_false().counts);
    let seen = judged(&all_false(), T, 255, &order);
    assert!(!matches!(seen.answer, OutOfRoom { .. }));
    assert!(u64::from(seen.log[6].made) > 255);
}

#[test]
fn a_gate_can_make_four_of_all_terms_and_a_cell_eight() {
    // x3 + 2 x4 - ab, then 2 x4 alone.
    let [gates, cells] = most_made();
    let expected = records(&[3, 4], &[1, 4], &[3, 4]);
    assert_eq!(log(&gates, &[3, 4]), expected);
    // 2(1 - a)(1 - b)(1 - x3).
    let seen = judged(&cells, U, 128, &[3, 4]);
    assert_eq!(seen.answer, Unfinished { steps: 2, terms: 8 });
    assert_eq!(seen.log, records(&[3, 4], &[1, 8], &[3, 8]));
}

/// How many terms a record makes of one, by the words of the request.
fn of_one(record: Record) -> u32 {
    match record {
        Record::Gate(rhs0, rhs1) => of_literal(rhs0) * of_literal(rhs1),
        Record::Cell(cell) => (0..8).filter(|&subset| is_made(&cell, subset)).count() as u32,
    }
}

fn of_literal(literal: u32) -> u32 {
    match literal {
        0 => 0,
        1 => 1,
        _ if literal.is_multiple_of(2) => 1,
        _ => 2,
    }
}

/// Whether the subset has no constant false and a coefficient that is not 0: the bits at the subsets inside of it, those
/// with an odd number of variables less taken away.
fn is_made(cell: &Cell, subset: u32) -> bool {
    let has_false = (0..3).any(|place| subset >> place & 1 == 1 && cell.variables[place] == 0);
    let inside = (0..8).filter(|&part: &u32| part & !subset == 0);
    let coefficient: i32 = inside
        .map(|part| {
            let bit = (cell.byte >> part & 1) as i32;
            if (subset ^ part).count_ones() % 2 == 0 {
                bit
            } else {
                -bit
            }
        })
        .sum();
    coefficient != 0 && !has_false
}

/// Follows a run with the polynomials themselves and holds every record to them. Gives the steps that were looked at.
fn hold_to_polynomials(made: &Made, reading: Reading, limit: u64, order: &[u32]) -> usize {
    let question = made.question(reading.kind(), limit, order);
    let run = question.expect("a case that is taken").run(&DOCUMENT);
    let netlist = made.netlist();
    let mut held = Polynomial::start(&DOCUMENT, &netlist, reading);
    for (step, &gate) in run.log.iter().zip(order) {
        let before = held.count() as u32;
        let record = netlist.record(gate);
        let with_gate = held.sets().filter(|set| set.contains(&(gate as u16)));
        let occurring = with_gate.count() as u32;
        held = held.step(&DOCUMENT, gate, record);
        let peak = before - occurring + of_one(record) * occurring;
        assert_eq!((step.gate, step.made), (gate, peak), "{made:?}");
        assert!(step.made <= made.records.most_made() as u32 * before);
        assert!(step.made >= held.count() as u32);
    }
    run.log.len()
}

#[test]
fn random_netlists_make_what_their_records_make_of_each_term() {
    let mut random = Random::new(9);
    for records in Records::ALL {
        let mut steps = 0;
        for _ in 0..1_500 {
            let reading = random.pick(&Reading::ALL);
            let made = random_netlist(&mut random, records, reading);
            let order = random_order(&mut random, &made);
            steps += hold_to_polynomials(&made, reading, 300, &order);
        }
        assert!(steps > 10_000, "{steps}");
    }
}

#[test]
fn real_blocks_make_what_their_records_make_of_each_term() {
    let is_small = |block: &Block| block.n <= 4;
    for block in all().into_iter().filter(is_small) {
        for order in orders_for(&block, 2) {
            let steps = hold_to_polynomials(&block.made, block.reading, 512, &order.steps);
            assert!(steps > 0, "{}", block.name);
        }
    }
}

/// All that is left but the third number of each record.
fn without_made(case: &JudgeCase, rules: &Rules) -> JudgeSeen {
    let mut seen = case.seen(rules);
    seen.log.iter_mut().for_each(|step| step.made = 0);
    seen
}

/// The bent rules of this number.
fn mutants() -> Vec<(&'static str, Rules)> {
    let mut mutants = Rules::mutants_of("judge");
    mutants.retain(|(_, bent)| bent.peak != DOCUMENT.peak);
    mutants
}

/// How many bent rules the edge cases with these records tell from the document's.
fn told_by(records: Records) -> usize {
    let mut cases = peak::judgements();
    cases.retain(|case| case.records == records);
    let is_told = |bent: &Rules| {
        let tells = |case: &JudgeCase| case.seen(bent).log != case.seen(&DOCUMENT).log;
        cases.iter().any(tells)
    };
    mutants().iter().filter(|(_, bent)| is_told(bent)).count()
}

#[test]
fn gates_tell_all_but_what_only_cells_can_and_so_do_cells() {
    assert_eq!(mutants().len(), 6);
    // Gates have no subsets, and no coefficient of theirs vanishes; cells have no literals.
    assert_eq!(told_by(Records::Gates), 4);
    assert_eq!(told_by(Records::Cells), 5);
}

#[test]
fn bent_rules_of_the_peak_change_the_third_number_alone() {
    let mut random = Random::new(10);
    let mut cases = peak::judgements();
    for turn in 0..200 {
        let records = Records::ALL[turn % 2];
        cases.push(judgements::random(&mut random, records));
    }
    for case in cases {
        let right = without_made(&case, &DOCUMENT);
        for (name, bent) in mutants() {
            assert!(without_made(&case, &bent) == right, "{name}");
        }
    }
}
