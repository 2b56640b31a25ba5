//! What is told to programs and on paper: JSON, the plot and the report.

mod calls;
mod told_common;

use host::json::json;
use host::plot::plot;
use host::reading;
use host::report::report;
use host::scale::{round_numbers, Scale};
use host::sentence::sentence;
use host::told::{Outcome, Rule, Told};
use hraskell::Answer;
use told_common::json_value::{value_of, Value};
use told_common::tags::{document_of, Document};
use told_common::*;

/// A judgement of each letter, and a refusal.
fn one_of_each() -> Vec<Told> {
    vec![
        told(TWO_BITS, "u", 128),
        told(TWO_BITS, "s", 16_384),
        told(&ADD.replace("\n16\n22\n", "\n16\n0\n"), "ms", 128),
        told(&all_false(), "t", 512),
        told(&without_gates(24), "u", 128),
        told_in_order(AND, "u", &[]),
        told(AND, "t", 128),
        told("", "u", 128),
    ]
}

/// A right block with these terms after its steps.
fn with_terms(terms: impl IntoIterator<Item = u32>) -> Told {
    let log = records(terms);
    let steps = log.len() as u64;
    made_up("u", 2, &log, Answer::Equal { steps, terms: 0 })
}

fn text(words: &str) -> Value {
    Value::Text(words.to_string())
}

fn number(value: u64) -> Value {
    Value::Number(value.to_string())
}

#[test]
fn json_has_what_the_line_has() {
    let value = value_of(&json(&told(TWO_BITS, "s", 128)));
    let rows = [
        ("file", text("block.aag")),
        ("bytes", number(118)),
        ("sha256", text(&"0123456789abcdef".repeat(4))),
        ("reading", text("s")),
        ("limit", number(128)),
        ("answer", text("D")),
        ("word", text("differs")),
        ("status", number(1)),
        ("line", text("D 10 2 2 1 2 14")),
        ("steps", number(10)),
        ("terms", number(2)),
        ("a", text("2")),
        ("b", text("1")),
        ("got", text("2")),
        ("wanted", text("14")),
        ("lowest_wrong_output", number(2)),
    ];
    for (name, expected) in rows {
        assert_eq!(value.field(name), &expected, "{name}");
    }
    assert!(!value.has("c"), "s adds nothing");
    let counts = value.field("counts");
    let found = ["M", "I", "L", "O", "A"].map(|name| counts.field(name).clone());
    assert_eq!(found, [14, 4, 0, 4, 10].map(number));
    let order = value.field("order");
    assert_eq!(order.field("rule"), &text("falling"));
    assert_eq!(order.field("file"), &Value::Null);
    assert_eq!(order.field("steps"), &number(10));
}

#[test]
fn json_has_what_belongs_to_the_answer() {
    let values: Vec<Value> = one_of_each()
        .iter()
        .map(|told| value_of(&json(told)))
        .collect();
    let letters: Vec<&Value> = values.iter().map(|value| value.field("answer")).collect();
    let expected = ["E", "D", "D", "R", "R", "U", "X", "X"].map(text);
    assert_eq!(letters, expected.iter().collect::<Vec<_>>());
    assert_eq!(values[2].field("c"), &text("2"));
    assert_eq!(values[3].field("step"), &number(9));
    assert_eq!(values[3].field("most_terms").field("terms"), &number(271));
    assert_eq!(values[3].field("most_made").field("step"), &number(8));
    assert_eq!(values[4].field("most_terms"), &Value::Null);
    assert_eq!(values[5].field("gates_left"), &Value::List(vec![number(3)]));
    assert_eq!(values[5].field("order").field("file"), &text("order.txt"));
    assert_eq!(values[6].field("refusal"), &number(9));
    assert_eq!(values[6].field("file_line"), &Value::Null);
    assert_eq!(values[7].field("file_line"), &number(1));
    assert_eq!(values[7].field("counts"), &Value::Null);
}

#[test]
fn json_is_one_line_from_which_any_name_reads_back() {
    for name in ODD_NAMES {
        let mut told = told_in_order(AND, "u", &[3]);
        told.name = name.to_string();
        if let Outcome::Judged { taken, .. } = &mut told.outcome {
            taken.rule = Rule::File(name.to_string());
        }
        let object = json(&told);
        assert!(!object.contains(char::is_control), "{object:?}");
        let value = value_of(&object);
        assert_eq!(value.field("file"), &text(name));
        assert_eq!(value.field("order").field("file"), &text(name));
        assert_eq!(value.field("sentence"), &text(&sentence(&told)));
    }
}

#[test]
fn round_numbers_are_few_and_round() {
    assert_eq!(round_numbers(1, 10), [0, 1]);
    assert_eq!(round_numbers(10, 10), (0..=10).collect::<Vec<u64>>());
    assert_eq!(round_numbers(11, 10), [0, 2, 4, 6, 8, 10]);
    assert_eq!(
        round_numbers(424, 10),
        [0, 50, 100, 150, 200, 250, 300, 350, 400]
    );
    assert_eq!(round_numbers(4_096, 10).len(), 9);
    assert_eq!(round_numbers(128, 6), [0, 20, 40, 60, 80, 100, 120]);
    assert_eq!(round_numbers(140, 6), [0, 50, 100]);
    assert_eq!(round_numbers(0, 6), [0]);
    assert_eq!(round_numbers(u64::MAX, 6)[1], 5_000_000_000_000_000_000);
}

#[test]
fn scale_is_logarithmic_where_values_spread_over_more_than_a_factor_50() {
    let of = |values: &[u64]| Scale::of(values.iter().copied());
    assert_eq!(of(&[]), Scale::Linear { most: 1 });
    assert_eq!(of(&[0, 0]), Scale::Linear { most: 1 });
    assert_eq!(of(&[0, 4, 200]), Scale::Linear { most: 200 });
    assert_eq!(of(&[0, 4, 201]), Scale::Logarithmic { most: 201 });
    let scale = of(&[1, 16_384]);
    assert_eq!(scale.marks(), [0, 1, 10, 100, 1_000, 10_000]);
    assert_eq!(scale.share(0), 0.0);
    assert_eq!(scale.share(16_384), 1.0);
    let shares: Vec<f64> = (0..=16_384).map(|value| scale.share(value)).collect();
    assert!(shares.is_sorted());
    let decade = |value: u64| scale.share(10 * value) - scale.share(value);
    assert!((decade(1) - decade(1_000)).abs() < 1e-9);
    assert_eq!(of(&[4, 200]).share(50), 0.25);
}

/// The corners of the curve.
fn curve(document: &Document) -> Vec<(f64, f64)> {
    let lines: Vec<_> = document.named("polyline").collect();
    assert!(lines.len() <= 1);
    let points = lines.first().map_or("", |line| line.attribute("points"));
    let pair = |words: &str| {
        let (x, y) = words.split_once(',').unwrap();
        (x.parse().unwrap(), y.parse().unwrap())
    };
    points.split_whitespace().map(pair).collect()
}

/// Where the limit's line lies: the only one with long dashes.
fn height_of_limit(document: &Document) -> f64 {
    let lines: Vec<_> = document
        .named("line")
        .filter(|line| {
            line.attributes
                .contains(&("stroke-dasharray".into(), "8 5".into()))
        })
        .collect();
    assert_eq!(lines.len(), 1);
    lines[0].attribute("y1").parse().unwrap()
}

#[test]
fn plot_draws_each_step_below_the_limit() {
    for terms in [vec![3, 9, 9, 0], vec![100, 16_384, 0], (0..4_096).collect()] {
        let document = document_of(&plot(&with_terms(terms.clone())));
        let curve = curve(&document);
        assert_eq!(curve.len(), terms.len());
        assert!(curve.windows(2).all(|pair| pair[0].0 < pair[1].0));
        // Heights count from above, and are written with one digit behind the point.
        let limit = height_of_limit(&document) - 0.1;
        assert!(curve.iter().all(|&(_, y)| limit <= y && y <= 440.0));
        let mut by_terms: Vec<(u32, f64)> = terms
            .into_iter()
            .zip(curve.iter().map(|place| place.1))
            .collect();
        by_terms.sort_by_key(|&(terms, _)| terms);
        assert!(by_terms.windows(2).all(|pair| pair[0].1 >= pair[1].1));
    }
}

#[test]
fn plot_marks_the_peak_and_the_limit() {
    let document = document_of(&plot(&with_terms([3, 1_900, 1_900, 0])));
    assert!(document.has_text("peak 1,900 terms after step 2"));
    assert!(document.has_text("limit T = 16,384"));
    assert!(document.has_text("terms after the step (log scale)"));
    let peak: Vec<_> = document
        .named("circle")
        .filter(|circle| circle.attribute("r") == "5.5")
        .collect();
    assert_eq!(peak.len(), 1);
    let place = (peak[0].attribute("cx"), peak[0].attribute("cy"));
    let (x, y) = curve(&document)[1];
    assert_eq!(place, (&*format!("{x:.1}"), &*format!("{y:.1}")));
    let document = document_of(&plot(&told(&without_gates(12), "u", 128)));
    assert!(document.has_text("peak 36 terms at the start"));
    assert!(
        document.has_text("terms after the step"),
        "equal differences"
    );
}

#[test]
fn plot_tells_the_name_the_reading_and_the_answer() {
    let document = document_of(&plot(&told(TWO_BITS, "s", 128)));
    assert!(document.has_text("block.aag"));
    assert!(document.has_text("s (two's complement): differs, D 10 2 2 1 2 14"));
    assert!(document.has_text("the falling order (M down to I + 1), 10 steps"));
}

#[test]
fn plot_shows_where_there_was_no_room() {
    let document = document_of(&plot(&told(&all_false(), "t", 512)));
    assert!(document.has_text("out of room at step 9 of 9"));
    assert!(document.has_text("peak 271 terms after step 8"));
    assert_eq!(curve(&document).len(), 8);
    let document = document_of(&plot(&told(&without_gates(24), "u", 128)));
    assert!(document.has_text("out of room at the start"));
    assert!(curve(&document).is_empty());
    assert!(!document.texts.iter().any(|(_, text)| text.contains("peak")));
}

#[test]
fn plot_of_few_or_no_terms_is_sane() {
    for terms in [
        vec![],
        vec![0],
        vec![7],
        vec![0, 0, 0],
        vec![0; 4_096],
        vec![1; 80],
    ] {
        let document = document_of(&plot(&with_terms(terms)));
        let numbers = document.tags.iter().flat_map(|tag| &tag.attributes);
        for (name, value) in numbers
            .filter(|(name, _)| ["x", "y", "x1", "x2", "y1", "y2", "cx", "cy"].contains(&&**name))
        {
            let value: f64 = value.parse().unwrap();
            assert!((0.0..=960.0).contains(&value), "{name} {value}");
        }
        assert!(curve(&document)
            .iter()
            .all(|&(x, y)| (84.0..=932.0).contains(&x) && (96.0..=440.0).contains(&y)));
    }
}

#[test]
fn plot_of_a_refusal_says_so() {
    let document = document_of(&plot(&told(AND, "t", 128)));
    assert!(document.has_text("refused with 9: there is no step to show"));
    assert!(document.has_text("t (truncated): refused, X 9"));
}

#[test]
fn plot_is_a_document_of_its_own_whatever_the_name() {
    for name in ODD_NAMES {
        for mut told in one_of_each() {
            told.name = name.to_string();
            let picture = plot(&told);
            assert!(picture.starts_with("<svg xmlns=\"http://www.w3.org/2000/svg\" "));
            assert!(picture.ends_with("</svg>\n"));
            let document = document_of(&picture);
            assert_eq!(document.named("svg").count(), 1);
        }
    }
}

#[test]
fn plot_shortens_a_long_name_in_its_middle() {
    let mut told = told(AND, "u", 128);
    told.name = format!("{}{}", "front".repeat(30), "back".repeat(30));
    let document = document_of(&plot(&told));
    let title = &document
        .texts
        .iter()
        .find(|(element, _)| element == "text")
        .unwrap()
        .1;
    assert!(title.starts_with("frontfront") && title.ends_with("backback"));
    assert!(title.chars().count() <= 76, "{title}");
}

/// Every answer under every odd name. No two names are one, or they would be taken for one file.
fn many_files() -> Vec<Told> {
    let named = ODD_NAMES.iter().flat_map(|name| {
        let all = one_of_each().into_iter().enumerate();
        all.map(move |(number, told)| Told {
            name: format!("{number} {name}"),
            ..told
        })
    });
    named.collect()
}

#[test]
fn report_has_a_section_for_every_file() {
    let all = many_files();
    let page = report(&all, "1.2.3 <test>");
    assert_eq!(page, report(&all, "1.2.3 <test>"));
    let document = document_of(&page);
    assert!(document.has_text("Judged by Hraskell, version 1.2.3 <test>"));
    let sections: Vec<&str> = document
        .named("section")
        .map(|section| section.attribute("id"))
        .collect();
    assert_eq!(sections.len(), all.len());
    let links: Vec<&str> = document
        .named("a")
        .map(|link| &link.attribute("href")[1..])
        .collect();
    assert_eq!(links, sections);
    for told in &all {
        assert!(document.has_text(&sentence(told)), "{}", sentence(told));
    }
    let judged = |told: &&Told| matches!(told.outcome, Outcome::Judged { .. });
    let plots = all.iter().filter(judged).count();
    assert_eq!(document.named("svg").count(), plots);
}

#[test]
fn report_loads_nothing() {
    let page = report(&many_files(), "1");
    let document = document_of(&page);
    for tag in &document.tags {
        assert!(!["script", "link", "iframe", "img", "object"].contains(&&*tag.name));
        for (name, value) in &tag.attributes {
            assert!(!["src", "srcset", "data", "style"].contains(&&**name));
            assert!(name != "href" || value.starts_with('#'));
        }
    }
    assert!(!page.contains("@import") && !page.contains("url("));
}

#[test]
fn report_counts_the_answers() {
    let mut all = one_of_each();
    for (number, told) in all.iter_mut().enumerate() {
        told.name = number.to_string();
    }
    let document = document_of(&report(&all, "1"));
    let counts =
        "8 judgements in 8 files: 1 equal, 2 differs, 2 out of room, 1 unfinished, 2 refused.";
    assert!(document.has_text(counts));
}

#[test]
fn report_tells_the_facts_of_a_file() {
    let document = document_of(&report(&[told(TWO_BITS, "u", 16_384)], "1"));
    for fact in [
        "118 bytes",
        &"0123456789abcdef".repeat(4),
        "14 variables (M): 4 inputs (I) and 10 gates (A); 4 outputs (O), 0 latches (L)",
        "16,384",
        "the falling order (M down to I + 1), 10 steps",
        "E 10 0",
        "E equal",
    ] {
        assert!(document.has_text(fact), "{fact}");
    }
    let mut unknown = told("", "u", 128);
    unknown.sha256 = None;
    let document = document_of(&report(&[unknown], "1"));
    assert!(document.has_text("not known"));
    assert!(document.has_text("not known, the text was refused"));
}

#[test]
fn report_gathers_the_readings_of_one_file() {
    let all = reading::ALL.map(|reading| told(AND, reading.letters(), 128));
    let document = document_of(&report(&all, "1"));
    assert_eq!(document.named("section").count(), 1);
    assert_eq!(document.named("h3").count(), 5);
    assert_eq!(document.named("svg").count(), 2);
    assert!(document.has_text("5 judgements in 1 file: 2 equal, 3 refused."));
    assert!(document.has_text(
        "block.aag: the block is right under u and s; the netlist does not tell which is meant, and none is picked"
    ));
    let empty = document_of(&report(&[], "1"));
    assert_eq!(empty.named("section").count(), 0);
}
