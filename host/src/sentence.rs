//! A judgement in one plain sentence, for whoever does not know the desk's line by heart.

use crate::course;
use crate::judging::{Judgement, TERMS_MOST};
use crate::line::exit_status;
use crate::reading::signed;
use crate::refusals::meaning;
use crate::told::{Outcome, Rule, Taken, Told};
use crate::wording::{counted, grouped, listed, order_words, reading_words, shown_name};
use hraskell::{Answer, Counts};

const NOTHING_SAID: &str = "the block may be right or wrong";

/// What became of a file under one reading.
pub fn sentence(told: &Told) -> String {
    let name = shown_name(told);
    let reading = reading_words(told.reading);
    let what = match &told.outcome {
        Outcome::Refused { number, line } => refused(told, *number, *line),
        Outcome::Judged { taken, judgement } => judged(told, taken, judgement),
    };
    format!("{name}: {reading}: {what}")
}

/// Under which readings a file is right; where several are, the netlist cannot tell which one was meant.
pub fn any_sentence(all: &[Told]) -> String {
    let Some(first) = all.first() else {
        return "nothing was judged".to_string();
    };
    let with_status = |status: u8| -> Vec<&str> {
        let those = all.iter().filter(|told| exit_status(told) == status);
        those.map(|told| told.reading.letters()).collect()
    };
    let (right, open) = (with_status(0), with_status(2));
    let shown = match right.len() {
        0 => "the block is shown right under no reading".to_string(),
        1 => format!("the block is right under {}", right[0]),
        _ => format!(
            "the block is right under {}; the netlist does not tell which is meant, and none is picked",
            right.join(" and ")
        ),
    };
    let undecided = match open.is_empty() {
        true => String::new(),
        false => format!("; not decided under {}", open.join(" and ")),
    };
    format!("{}: {shown}{undecided}", shown_name(first))
}

fn judged(told: &Told, taken: &Taken, judgement: &Judgement) -> String {
    match judgement.answer {
        Answer::Equal { .. } => format!("{}; {}", equal(told), need(taken, judgement)),
        Answer::Differs { .. } => {
            let wrong = differs(told, &judgement.answer);
            format!("{wrong}; {}", need(taken, judgement))
        }
        Answer::OutOfRoom { step, terms } => out_of_room(told, taken, step, terms),
        Answer::Unfinished { .. } => unfinished(told, taken, judgement),
    }
}

fn equal(told: &Told) -> String {
    let all = match told.reading.adds() {
        true => "the product plus c for all operands",
        false => "the product for every operand pair",
    };
    // The product of u and s always fits into the outputs.
    let modulus = match told.counts {
        Some(counts) if !matches!(told.reading.letters(), "u" | "s") => {
            format!(", modulo 2^{}", told.reading.output_bits(counts))
        }
        _ => String::new(),
    };
    format!("equal, the outputs are {all}{modulus}")
}

/// The wrong operands as the reading reads them, both words, and the lowest output that is wrong.
fn differs(told: &Told, answer: &Answer) -> String {
    let Answer::Differs {
        a,
        b,
        c,
        got,
        wanted,
        ..
    } = *answer
    else {
        return String::new();
    };
    let read_signed = told.counts.filter(|_| told.reading.is_signed());
    let factor = |word: u64| match read_signed {
        Some(counts) => signed(word, told.reading.operand_bits(counts)).to_string(),
        None => word.to_string(),
    };
    let operands = match told.reading.adds() {
        true => format!("a = {}, b = {} and c = {c}", factor(a), factor(b)),
        false => format!("a = {} and b = {}", factor(a), factor(b)),
    };
    let signs = read_signed.map_or(String::new(), |counts| {
        let bits = told.reading.output_bits(counts);
        let (got, wanted) = (signed(got, bits), signed(wanted, bits));
        format!(" (as two's complement {got} and {wanted})")
    });
    let lowest = lowest_wrong(told.counts, got, wanted);
    format!("differs, for {operands} the outputs show {got}, and {wanted} is wanted{signs}{lowest}")
}

/// The lowest output in which two words differ, with its line in the file.
fn lowest_wrong(counts: Option<Counts>, got: u64, wanted: u64) -> String {
    if got == wanted {
        return String::new();
    }
    let output = (got ^ wanted).trailing_zeros();
    let shows = (got >> output) & 1;
    // The header and the inputs stand before the outputs, and lines are counted from 1.
    let place = counts.map_or(String::new(), |counts| {
        format!(", line {} of the file", counts.i + 2 + output)
    });
    format!("; the lowest wrong output is output {output} (weight 2^{output}{place}), which shows {shows}")
}

/// Which order was taken and the most terms that it needed.
fn need(taken: &Taken, judgement: &Judgement) -> String {
    let order = order_words(&taken.rule);
    let Some(most) = course::most_held(judgement) else {
        return order;
    };
    let terms = counted(most.terms, "term");
    let place = match most.step {
        0 => "at the start".to_string(),
        step => format!("after a step (step {})", grouped(step)),
    };
    let gathered = course::most_made(judgement).map_or(String::new(), |made| {
        let (terms, step) = (grouped(made.terms), grouped(made.step));
        format!(" and {terms} before gathering (step {step})")
    });
    format!("{order} needed at most {terms} {place}{gathered}")
}

fn out_of_room(told: &Told, taken: &Taken, step: u64, terms: u64) -> String {
    let limit = counted(told.limit, "term");
    let place = match step {
        0 => "at the start".to_string(),
        _ => {
            let (all, held) = (grouped(taken.order.len() as u64), counted(terms, "term"));
            let gate = gate_of_step(taken, step).map_or(String::new(), |v| format!(" (gate {v})"));
            let order = order_words(&taken.rule);
            let step = grouped(step);
            format!("after step {step} of {all}{gate} in {order}, {held} before it")
        }
    };
    let advice = to_try(told, taken, step);
    format!("out of room, more than {limit} {place}; {NOTHING_SAID}{advice}")
}

/// The gate that step number `step` names, from 1.
fn gate_of_step(taken: &Taken, step: u64) -> Option<u32> {
    let at = usize::try_from(step).ok()?.checked_sub(1)?;
    taken.order.get(at).copied()
}

/// What may decide a block that had no room: no order changes the start, and no limit is above the most.
fn to_try(told: &Told, taken: &Taken, step: u64) -> String {
    let most = grouped(TERMS_MOST);
    let mut ways = Vec::new();
    if taken.rule == Rule::Desk {
        return format!(
            "; try without --desk: up to {most} terms are held then, and an order is looked for"
        );
    }
    if told.limit < TERMS_MOST {
        ways.push(format!("a larger T with --terms (up to {most})"));
    }
    if step > 0 {
        ways.push(match taken.rule {
            Rule::Falling | Rule::File(_) => {
                "another order with --order (without it the program looks for one)".to_string()
            }
            Rule::LeastGrowth | Rule::LookAhead | Rule::Desk => {
                "another order with --order".to_string()
            }
        });
    }
    match ways.is_empty() {
        true => String::new(),
        false => format!("; try {}", ways.join(" or ")),
    }
}

fn unfinished(told: &Told, taken: &Taken, judgement: &Judgement) -> String {
    let left = gates_left(told, judgement);
    let (early, missing): (Vec<u32>, Vec<u32>) =
        left.iter().partition(|gate| taken.order.contains(gate));
    let mut why = Vec::new();
    if !missing.is_empty() {
        why.push(format!("does not name {}", listed(&missing)));
    }
    if !early.is_empty() {
        // A step takes a gate away, and only a later step of one of its readers brings it back.
        let readers = "only before a gate that reads";
        let them = if early.len() == 1 { "it" } else { "them" };
        why.push(format!("names {} {readers} {them}", listed(&early)));
    }
    let gates = match left.len() {
        0 => "a gate is".to_string(),
        1 => "1 gate is".to_string(),
        count => format!("{} gates are", grouped(count as u64)),
    };
    let because = match why.is_empty() {
        true => String::new(),
        false => format!(": {} {}", order_words(&taken.rule), why.join(" and ")),
    };
    format!(
        "unfinished, {gates} left at the end that the order missed{because}; {NOTHING_SAID}, \
         and an order with each gate after all that read it decides it if there is room"
    )
}

/// The gates that occur in the last polynomial, the highest first.
pub fn gates_left(told: &Told, judgement: &Judgement) -> Vec<u32> {
    let Some(counts) = told.counts else {
        return Vec::new();
    };
    let numbered = (0..).zip(&judgement.occurrences);
    let mut left: Vec<u32> = numbered
        .filter(|&(variable, &terms)| variable > counts.i && terms > 0)
        .map(|(variable, _)| variable)
        .collect();
    left.reverse();
    left
}

fn refused(told: &Told, number: u32, line: Option<usize>) -> String {
    let place = match (number, line) {
        (4, Some(line)) => {
            let wanted = 2 * line.saturating_sub(1);
            format!("; the first wrong one is line {line} of the file, which has to be {wanted}")
        }
        (5 | 6, Some(line)) => format!("; the first wrong one is line {line} of the file"),
        (7, Some(line)) => format!("; line {line} of the file is the first too many"),
        (_, Some(line)) => format!("; see line {line} of the file"),
        (9, None) => outputs_wanted(told),
        (10, None) => format!("; it is {} here", grouped(told.limit)),
        (_, None) => String::new(),
    };
    format!("refused with {number}, {}{place}", meaning(number))
}

/// What a reading wants of the counts.
fn outputs_wanted(told: &Told) -> String {
    let Some(counts) = told.counts else {
        return String::new();
    };
    let (inputs, outputs) = (counts.i, counts.o);
    let letters = told.reading.letters();
    if told.reading.adds() && inputs % 4 != 0 {
        return format!("; here I is {inputs}, which is no multiple of 4");
    }
    let wanted = told.reading.output_bits(counts);
    format!("; here I is {inputs}, for which {letters} wants O = {wanted}, and O is {outputs}")
}
