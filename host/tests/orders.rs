//! Orders found for the real blocks and for random netlists. What is expected comes from the rules, from the README of the
//! blocks, or from the second program.

#[path = "orders/watches.rs"]
mod watches;

use host::block::Block;
use host::judging::Judgement;
use host::orders::{found, handed_in, proposed};
use host::reading::{Reading, ALL};
use host::told::{Rule, Taken};
use hraskell::{Answer, Refused};
use second::netlists::{random_for, Made};
use second::orders::is_honest;
use second::polynomial::Polynomial;
use second::random::Random;
use second::{Records, Rules};
use watches::{Event, Quiet, Recorder, StopsAfter};

const ALL_THE_ROOM: u64 = 16_384;
const RULES: [Rule; 3] = [Rule::Falling, Rule::LeastGrowth, Rule::LookAhead];

/// A block with what the second program knows of it.
struct Case {
    name: String,
    reading: Reading,
    made: Made,
    block: Block,
}

impl Case {
    fn new(name: String, reading: second::reading::Reading, made: Made) -> Case {
        Case {
            name,
            reading: Reading::of_letters(reading.name()).unwrap(),
            block: Block::of_text(&made.text()).unwrap(),
            made,
        }
    }

    fn second_reading(&self) -> second::reading::Reading {
        second::reading::Reading::of_name(self.reading.letters().as_bytes()).unwrap()
    }

    fn is_honest(&self, order: &[u32]) -> bool {
        is_honest(&self.made.netlist(), order)
    }

    /// The step at which the second program has no room in this order, if there is one.
    fn step_without_room(&self, limit: u64, order: &[u32]) -> Option<u32> {
        let kind = self.second_reading().kind();
        let run = self.made.question(kind, limit, order).unwrap();
        match run.run(&Rules::of_document()).answer {
            second::Answer::OutOfRoom { step, .. } => Some(step),
            _ => None,
        }
    }
}

/// The real blocks under their own readings. All of them are right.
fn real_blocks() -> Vec<Case> {
    let blocks = second::blocks::of_gates().into_iter();
    let cases: Vec<Case> = blocks
        .map(|block| Case::new(block.name, block.reading, block.made))
        .collect();
    assert_eq!(cases.len(), 33 + 5);
    cases
}

fn real_block(name: &str) -> Case {
    let mut blocks = real_blocks().into_iter();
    blocks.find(|case| case.name == name).unwrap()
}

/// Sound netlists with nothing in mind, some of them as large as can be.
fn random_netlists(count: u64) -> impl Iterator<Item = Case> {
    (0..count).map(|seed| {
        let random = &mut Random::new(seed);
        let reading = random.pick(&second::reading::Reading::ALL);
        let most = reading.most_bits();
        let n = if random.one_in(10) {
            most
        } else {
            1 + random.below(4) as u32
        };
        let gates = match random.below(40) {
            0 => 1_023 - reading.inputs(n),
            _ => random.below(80) as u32,
        };
        let made = random_for(random, Records::Gates, reading, n, gates);
        Case::new(format!("random {seed}"), reading, made)
    })
}

fn most_terms(judgement: &Judgement) -> u32 {
    judgement.log.iter().map(|step| step.terms).max().unwrap()
}

#[test]
fn every_rule_has_an_honest_order_for_every_real_block() {
    for case in real_blocks() {
        for rule in RULES {
            let order = proposed(&case.block, case.reading, ALL_THE_ROOM, &rule, &Quiet);
            let is_honest = order.map(|order| case.is_honest(&order));
            assert_eq!(is_honest, Some(true), "{} {rule:?}", case.name);
        }
    }
}

#[test]
fn every_order_for_a_random_netlist_is_honest() {
    let (mut with_room, mut without) = (0, 0);
    for case in random_netlists(150) {
        for rule in RULES {
            match proposed(&case.block, case.reading, 512, &rule, &Quiet) {
                Some(order) => {
                    assert!(case.is_honest(&order), "{} {rule:?}", case.name);
                    with_room += 1;
                }
                None => without += 1,
            }
        }
        // The order taken is honest too where every rule ends out of room.
        let (taken, judgement) = found(&case.block, case.reading, 512, &Quiet).unwrap();
        assert!(case.is_honest(&taken.order), "{}", case.name);
        let is_unfinished = matches!(judgement.answer, Answer::Unfinished { .. });
        assert!(!is_unfinished, "{}", case.name);
    }
    assert!(with_room > 100 && without > 20, "{with_room} {without}");
}

#[test]
fn every_real_block_is_equal_by_the_order_found() {
    for case in real_blocks() {
        let (taken, judgement) = found(&case.block, case.reading, ALL_THE_ROOM, &Quiet).unwrap();
        assert!(case.is_honest(&taken.order), "{}", case.name);
        let steps = u64::from(case.block.counts.a);
        let equal = Answer::Equal { steps, terms: 0 };
        assert_eq!(judgement.answer, equal, "{}", case.name);
    }
}

#[test]
fn nothing_is_sought_where_the_falling_order_has_room() {
    let case = real_block("abc-blast-u8");
    let recorder = Recorder::default();
    let (taken, judgement) = found(&case.block, case.reading, 128, &recorder).unwrap();
    assert_eq!(recorder.events(), [Event::Tries(Rule::Falling)]);
    let (rule, order) = (Rule::Falling, case.block.falling());
    assert_eq!(taken, Taken { rule, order });
    // The README of the blocks tells it.
    assert_eq!(most_terms(&judgement), 87);
}

/// The variables of the outputs rise with their weight. So the falling order opens the top outputs of the plain block and
/// all the carries that its lookahead adder has for them, and is out of room while outputs 0 to 9, against which those
/// carries cancel, are still single variables. Least growth opens all outputs before any carry.
#[test]
fn least_growth_has_room_where_falling_has_none() {
    for name in ["yosys-techmap-u8", "yosys-techmap-s8"] {
        let case = real_block(name);
        let falling = case.block.falling();
        assert!(case.step_without_room(ALL_THE_ROOM, &falling).is_some());
        let recorder = Recorder::default();
        let (taken, judgement) = found(&case.block, case.reading, ALL_THE_ROOM, &recorder).unwrap();
        assert_eq!(taken.rule, Rule::LeastGrowth, "{name}");
        assert_eq!(recorder.rules(), RULES[..2]);
        assert!(matches!(judgement.answer, Answer::Equal { .. }), "{name}");
        // The README of the blocks promises a better order with fewer.
        assert!(most_terms(&judgement) < 200, "{name}");
    }
}

/// Gate 55 by itself makes many terms, of which gate 54 takes most back. Least growth puts both off to its end, so that the
/// gates that cost most meet them in many products; look-ahead sees the two together.
#[test]
fn look_ahead_has_room_where_least_growth_has_none() {
    let case = real_block("yosys-synth-u4");
    let least = proposed(
        &case.block,
        case.reading,
        ALL_THE_ROOM,
        &Rule::LeastGrowth,
        &Quiet,
    );
    for order in [case.block.falling(), least.unwrap()] {
        assert!(case.step_without_room(500, &order).is_some());
    }
    let recorder = Recorder::default();
    let (taken, judgement) = found(&case.block, case.reading, 500, &recorder).unwrap();
    assert_eq!(recorder.rules(), RULES);
    assert_eq!(taken.rule, Rule::LookAhead);
    assert!(matches!(judgement.answer, Answer::Equal { .. }));
    assert_eq!(case.step_without_room(500, &taken.order), None);
}

#[test]
fn a_block_that_differs_is_found_out_by_a_better_order_too() {
    let case = real_block("yosys-techmap-u8");
    let signed = Reading::of_letters("s").unwrap();
    let (taken, judgement) = found(&case.block, signed, ALL_THE_ROOM, &Quiet).unwrap();
    assert_eq!(taken.rule, Rule::LeastGrowth);
    // Plain minus signed is 2^(8+j) for the top bit of one operand with bit j of the other, j up to 6: 14 terms. Of the
    // operands with a 1 bit each, the top bit of a with the lowest of b comes first; -128 is 65,408 modulo 65,536.
    let differs = Answer::Differs {
        steps: 463,
        terms: 14,
        a: 128,
        b: 1,
        c: 0,
        got: 128,
        wanted: 65_408,
    };
    assert_eq!(judgement.answer, differs);
}

/// Least growth by building every polynomial with the second program; of equals the smallest gate, and one that no term
/// holds at once.
fn least_growth_by_building(case: &Case) -> Vec<u32> {
    let rules = Rules::of_document();
    let netlist = case.made.netlist();
    let mut held = Polynomial::start(&rules, &netlist, case.second_reading());
    let mut left: Vec<u32> = netlist.gates().collect();
    let mut order = Vec::new();
    while !left.is_empty() {
        let reads = |reader: u32, gate: u32| {
            let literals = case.block.literals(reader);
            literals.into_iter().any(|literal| literal / 2 == gate)
        };
        let is_ready = |&gate: &u32| !left.iter().any(|&reader| reads(reader, gate));
        let ready: Vec<u32> = left.iter().copied().filter(is_ready).collect();
        let step = |gate| held.step(&rules, gate, netlist.record(gate));
        let gate = ready.iter().copied().find(|&gate| !held.mentions(gate));
        let gate = gate.or_else(|| ready.into_iter().min_by_key(|&gate| step(gate).count()));
        let gate = gate.expect("some gate is read by none of those left");
        held = step(gate);
        left.retain(|&other| other != gate);
        order.push(gate);
    }
    order
}

#[test]
fn least_growth_is_what_building_every_polynomial_finds() {
    let blocks = real_blocks().into_iter();
    let small = blocks.filter(|case| case.block.counts.m < 160);
    let netlists = random_netlists(100).filter(|case| case.block.counts.m < 50);
    let mut compared = 0;
    for case in small.chain(netlists) {
        let rule = Rule::LeastGrowth;
        if let Some(order) = proposed(&case.block, case.reading, 2_000, &rule, &Quiet) {
            assert_eq!(order, least_growth_by_building(&case), "{}", case.name);
            compared += 1;
        }
    }
    assert!(compared > 50, "{compared}");
}

#[test]
fn the_terms_told_on_the_way_are_those_of_the_library() {
    let mut with_64_outputs = 0;
    for case in real_blocks().into_iter().chain(random_netlists(100)) {
        for rule in [Rule::LeastGrowth, Rule::LookAhead] {
            let recorder = Recorder::default();
            let order = proposed(&case.block, case.reading, 2_048, &rule, &recorder);
            let Some(order) = order else { continue };
            let taken = Taken { rule, order };
            let (_, judgement) = handed_in(&case.block, case.reading, 2_048, taken).unwrap();
            let reached = recorder.reached();
            for &(step, of, terms) in reached.iter().filter(|reached| reached.0 > 0) {
                assert_eq!(of as u32, case.block.counts.a);
                let logged = judgement.log[step - 1].terms;
                assert_eq!(terms as u32, logged, "{} step {step}", case.name);
            }
            let last = reached.last().map(|reached| reached.0);
            assert_eq!(last, Some(case.block.counts.a as usize), "{}", case.name);
            with_64_outputs += u32::from(case.block.counts.o == 64);
        }
    }
    assert!(with_64_outputs > 3, "{with_64_outputs}");
}

/// Judged within a limit that is too small for all three rules: by the one that got furthest, as the second program sees it.
fn is_furthest(name: &str, limit: u64, expected: Rule) {
    let case = real_block(name);
    let recorder = Recorder::default();
    let (taken, judgement) = found(&case.block, case.reading, limit, &recorder).unwrap();
    assert_eq!(recorder.rules(), RULES, "{name}");
    assert_eq!(taken.rule, expected, "{name}");
    let Answer::OutOfRoom { step, .. } = judgement.answer else {
        panic!("{name} {:?}", judgement.answer);
    };
    let own = case.step_without_room(limit, &taken.order);
    assert_eq!(own, Some(step as u32), "{name}");
    let falling = case.step_without_room(limit, &case.block.falling());
    assert!(own >= falling, "{name} {own:?} {falling:?}");
    // The steps told on the way had room as long as the terms did.
    let has_room = |reached: &&(usize, usize, usize)| reached.2 as u64 <= limit;
    let told = recorder.reached();
    let furthest = told.iter().filter(has_room).map(|reached| reached.0).max();
    assert!(Some(step as usize) > furthest, "{name} {furthest:?}");
}

#[test]
fn without_room_the_furthest_rule_is_taken() {
    is_furthest("yosys-techmap-s8", 128, Rule::Falling);
    is_furthest("yosys-synth-u4", 200, Rule::LeastGrowth);
    is_furthest("yosys-synth-u4", 128, Rule::LookAhead);
}

#[test]
fn a_start_without_room_is_not_sought_for() {
    // Document 01: n = 12, u, T = 128 is out of room at step 0 with any gates.
    let plain = second::reading::Reading::Plain;
    let made = random_for(&mut Random::new(1), Records::Gates, plain, 12, 50);
    let case = Case::new("twelve bits".to_string(), plain, made);
    let recorder = Recorder::default();
    let (taken, judgement) = found(&case.block, case.reading, 128, &recorder).unwrap();
    assert_eq!(taken.rule, Rule::Falling);
    let (step, terms) = (0, 0);
    assert_eq!(judgement.answer, Answer::OutOfRoom { step, terms });
    assert_eq!(recorder.events(), [Event::Tries(Rule::Falling)]);
}

#[test]
fn a_watch_that_stops_ends_the_search_soon() {
    let case = real_block("yosys-techmap-u8");
    for rule in [Rule::LeastGrowth, Rule::LookAhead] {
        for asked in [0, 1, 50, 500] {
            let watch = StopsAfter::asked(asked);
            let order = proposed(&case.block, case.reading, ALL_THE_ROOM, &rule, &watch);
            assert_eq!(order, None, "{rule:?} {asked}");
            assert!(watch.is_heeded(), "{rule:?} {asked}");
        }
    }
}

#[test]
fn a_search_that_is_stopped_leaves_the_falling_order_judged() {
    let case = real_block("yosys-techmap-u8");
    for asked in [0, 50] {
        let watch = StopsAfter::asked(asked);
        let (taken, judgement) = found(&case.block, case.reading, ALL_THE_ROOM, &watch).unwrap();
        let (rule, order) = (Rule::Falling, case.block.falling());
        let step = case.step_without_room(ALL_THE_ROOM, &order).unwrap();
        assert_eq!(taken, Taken { rule, order });
        let own = judgement.answer;
        assert!(matches!(own, Answer::OutOfRoom { step: at, .. } if at == u64::from(step)));
        assert!(watch.is_heeded());
    }
}

#[test]
fn a_refusal_is_handed_on_and_nothing_is_sought() {
    let case = real_block("yosys-synth-u4");
    let truncated = Reading::of_letters("t").unwrap();
    let asked = [
        (truncated, 128, 9),
        (case.reading, 127, 10),
        (case.reading, 16_385, 10),
    ];
    for (reading, limit, number) in asked {
        let recorder = Recorder::default();
        let refused = found(&case.block, reading, limit, &recorder).err();
        assert_eq!(refused, Some(Refused(number)));
        assert_eq!(recorder.events(), [Event::Tries(Rule::Falling)]);
    }
}

#[test]
fn no_block_and_reading_is_too_odd_to_be_asked_for_an_order() {
    // The finder is asked before anything is refused: also by readings that do not fit, and with no gate or no operand bit.
    let odd: [&[u8]; 3] = [
        b"aag 2 2 0 1 0\n2\n4\n1\n",
        b"aag 3 2 0 3 1\n2\n4\n6\n7\n0\n6 3 3\n",
        b"aag 8 6 0 1 2\n2\n4\n6\n8\n10\n12\n16\n14 1 0\n16 15 14\n",
    ];
    for text in odd {
        let block = Block::of_text(text).unwrap();
        for reading in ALL {
            for rule in RULES {
                for limit in [128, u64::MAX] {
                    // All of them have their gates in a row, so there is one honest order.
                    let order = proposed(&block, reading, limit, &rule, &Quiet);
                    assert_eq!(order, Some(block.falling()));
                }
            }
        }
    }
}

#[test]
fn an_order_handed_in_is_judged_as_it_is() {
    // P6 and P7 of document 01, and its refusal 11: input 2 is no gate.
    let block = Block::of_text(b"aag 3 2 0 2 1\n2\n4\n6\n0\n6 4 2\n").unwrap();
    let plain = Reading::of_letters("u").unwrap();
    let handed = |order: &[u32]| {
        let rule = Rule::File("mine.txt".to_string());
        let order = order.to_vec();
        let taken = Taken { rule, order };
        let judged = handed_in(&block, plain, 128, taken.clone())?;
        assert_eq!(judged.0, taken);
        Ok(judged.1.answer)
    };
    let (steps, terms) = (0, 2);
    assert_eq!(handed(&[]), Ok(Answer::Unfinished { steps, terms }));
    let (steps, terms) = (2, 0);
    assert_eq!(handed(&[3, 3]), Ok(Answer::Equal { steps, terms }));
    assert_eq!(handed(&[2]), Err(Refused(11)));
    let rule = Rule::File("mine.txt".to_string());
    assert_eq!(proposed(&block, plain, 128, &rule, &Quiet), None);
}
