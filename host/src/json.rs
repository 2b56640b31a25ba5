//! A judgement for other programs: one object of JSON on one line.
//!
//! Words (a, b, c, got, wanted) are strings of decimal digits, because many readers of JSON round numbers above 2^53.

use crate::course::{self, Point};
use crate::escaping::json_string;
use crate::judging::Judgement;
use crate::line::{exit_status, line};
use crate::refusals::meaning;
use crate::sentence::{gates_left, sentence};
use crate::told::{Outcome, Rule, Taken, Told};
use crate::wording::{answer_letter, answer_word};
use hraskell::{Answer, Counts};

type Field = (&'static str, String);

/// The object, with no line end.
pub fn json(told: &Told) -> String {
    let mut fields = of_file(told);
    match &told.outcome {
        Outcome::Refused { number, line } => {
            fields.push(("refusal", number.to_string()));
            fields.push(("meaning", json_string(meaning(*number))));
            fields.push(("file_line", or_null(line.map(|line| line.to_string()))));
        }
        Outcome::Judged { taken, judgement } => {
            fields.extend(of_answer(told, judgement));
            fields.push(("order", order(taken)));
            fields.push((
                "most_terms",
                or_null(course::most_held(judgement).map(point)),
            ));
            fields.push((
                "most_made",
                or_null(course::most_made(judgement).map(point)),
            ));
        }
    }
    object(&fields)
}

fn of_file(told: &Told) -> Vec<Field> {
    let sha256 = told.sha256.as_deref().map(json_string);
    vec![
        ("file", json_string(&told.name)),
        ("bytes", told.bytes.to_string()),
        ("sha256", or_null(sha256)),
        ("counts", or_null(told.counts.map(counts))),
        ("reading", json_string(told.reading.letters())),
        ("limit", told.limit.to_string()),
        ("answer", json_string(&answer_letter(told).to_string())),
        ("word", json_string(answer_word(told))),
        ("status", exit_status(told).to_string()),
        ("line", json_string(&line(told))),
        ("sentence", json_string(&sentence(told))),
    ]
}

fn of_answer(told: &Told, judgement: &Judgement) -> Vec<Field> {
    let number = |name, value: u64| (name, value.to_string());
    let word = |name, value: u64| (name, json_string(&value.to_string()));
    match judgement.answer {
        Answer::Equal { steps, terms } => vec![number("steps", steps), number("terms", terms)],
        Answer::OutOfRoom { step, terms } => vec![number("step", step), number("terms", terms)],
        Answer::Unfinished { steps, terms } => {
            let left: Vec<String> = gates_left(told, judgement)
                .iter()
                .map(u32::to_string)
                .collect();
            let left = ("gates_left", format!("[{}]", left.join(",")));
            vec![number("steps", steps), number("terms", terms), left]
        }
        Answer::Differs {
            steps,
            terms,
            a,
            b,
            c,
            got,
            wanted,
        } => {
            let mut fields = vec![number("steps", steps), number("terms", terms)];
            fields.extend([word("a", a), word("b", b)]);
            fields.extend(told.reading.adds().then(|| word("c", c)));
            fields.extend([word("got", got), word("wanted", wanted)]);
            let output = (got ^ wanted).trailing_zeros();
            fields.push(number("lowest_wrong_output", u64::from(output)));
            fields
        }
    }
}

fn order(taken: &Taken) -> String {
    let (rule, file) = match &taken.rule {
        Rule::Falling => ("falling", None),
        Rule::LeastGrowth => ("least growth", None),
        Rule::LookAhead => ("look-ahead", None),
        Rule::File(name) => ("file", Some(json_string(name))),
        Rule::Desk => ("desk", None),
    };
    object(&[
        ("rule", json_string(rule)),
        ("file", or_null(file)),
        ("steps", taken.order.len().to_string()),
    ])
}

fn counts(counts: Counts) -> String {
    object(&[
        ("M", counts.m.to_string()),
        ("I", counts.i.to_string()),
        ("L", counts.l.to_string()),
        ("O", counts.o.to_string()),
        ("A", counts.a.to_string()),
    ])
}

fn point(point: Point) -> String {
    object(&[
        ("terms", point.terms.to_string()),
        ("step", point.step.to_string()),
    ])
}

fn or_null(value: Option<String>) -> String {
    value.unwrap_or_else(|| "null".to_string())
}

/// An object of fields whose values are JSON already. The names need no escaping.
fn object(fields: &[Field]) -> String {
    let fields: Vec<String> = fields
        .iter()
        .map(|(name, value)| format!("\"{name}\":{value}"))
        .collect();
    format!("{{{}}}", fields.join(","))
}
