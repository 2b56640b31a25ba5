//! A page that can be handed to a licensee: what was judged, by which version, and what was answered.
//!
//! It tells no time of day, so that the same files give the same page.

use crate::course;
use crate::escaping::markup;
use crate::judging::Judgement;
use crate::line::line;
use crate::page::{ANSWERS, PROVED, STYLE};
use crate::plot::plot;
use crate::reading;
use crate::sentence::{any_sentence, sentence};
use crate::told::{Outcome, Taken, Told};
use crate::wording::{
    answer_letter, answer_word, counted, grouped, order_words, reading_words, rule_name, shown_name,
};
use std::fmt::Write;

const TITLE: &str = "Judgement of multiplier netlists";

/// A whole HTML page with everything that it shows within it.
pub fn report(all: &[Told], version: &str) -> String {
    let files = by_file(all);
    let version = markup(version);
    let mut page = format!(
        "<!DOCTYPE html>\n<html lang=\"en\">\n<head>\n<meta charset=\"utf-8\">\n\
         <meta name=\"viewport\" content=\"width=device-width, initial-scale=1\">\n\
         <title>{TITLE}</title>\n<style>{STYLE}</style>\n</head>\n<body>\n\
         <h1>{TITLE}</h1>\n<p class=\"version\">Judged by Hraskell, version {version}</p>\n"
    );
    page.push_str(&summary(&files));
    page.push_str(ANSWERS);
    page.push_str(PROVED);
    for (number, file) in (1..).zip(&files) {
        page.push_str(&file_section(number, file));
    }
    page.push_str("</body>\n</html>\n");
    page
}

/// The judgements of one file, which stand side by side where it was judged under several readings.
fn by_file(all: &[Told]) -> Vec<&[Told]> {
    all.chunk_by(|one, next| {
        one.name == next.name && one.bytes == next.bytes && one.sha256 == next.sha256
    })
    .collect()
}

/// How many files got which answer, and a row for each judgement.
fn summary(files: &[&[Told]]) -> String {
    let all: Vec<&Told> = files.iter().flat_map(|file| file.iter()).collect();
    let mut answers = Vec::new();
    for (letter, word) in [
        ('E', "equal"),
        ('D', "differs"),
        ('R', "out of room"),
        ('U', "unfinished"),
        ('X', "refused"),
    ] {
        match all
            .iter()
            .filter(|told| answer_letter(told) == letter)
            .count()
        {
            0 => {}
            count => answers.push(format!("{} {word}", grouped(count as u64))),
        }
    }
    let counts = format!(
        "{} in {}: {}",
        counted(all.len() as u64, "judgement"),
        counted(files.len() as u64, "file"),
        answers.join(", ")
    );
    let mut table = format!(
        "<h2>Summary</h2>\n<p>{counts}.</p>\n<div class=\"wide\"><table class=\"summary\">\n\
         <thead><tr><th>file</th><th>reading</th><th>answer</th><th>order</th>\
         <th class=\"number\">most terms</th><th class=\"number\">peak before gathering</th></tr></thead>\n<tbody>\n"
    );
    for (number, file) in (1..).zip(files) {
        for told in file.iter() {
            table.push_str(&summary_row(number, told));
        }
    }
    table.push_str("</tbody>\n</table></div>\n");
    table
}

fn summary_row(number: usize, told: &Told) -> String {
    let (order, held, made) = match &told.outcome {
        Outcome::Refused { .. } => (None, None, None),
        Outcome::Judged { taken, judgement } => (
            Some(markup(&rule_name(&taken.rule))),
            course::most_held(judgement),
            course::most_made(judgement),
        ),
    };
    let or_none = |words: Option<String>| words.unwrap_or_else(|| "–".to_string());
    let terms = |point: Option<course::Point>| or_none(point.map(|point| grouped(point.terms)));
    format!(
        "<tr><td><a href=\"#file-{number}\">{}</a></td><td>{}</td><td>{}</td><td>{}</td>\
         <td class=\"number\">{}</td><td class=\"number\">{}</td></tr>\n",
        markup(&shown_name(told)),
        told.reading.letters(),
        badge(told),
        or_none(order),
        terms(held),
        terms(made)
    )
}

/// The answer's letter and word in a frame of its own form.
fn badge(told: &Told) -> String {
    let letter = answer_letter(told);
    let word = answer_word(told);
    format!("<span class=\"answer answer-{letter}\">{letter} {word}</span>")
}

/// What a file is, then each reading that it was judged under.
fn file_section(number: usize, file: &[Told]) -> String {
    let Some(first) = file.first() else {
        return String::new();
    };
    let name = markup(&shown_name(first));
    let mut section = format!("<section id=\"file-{number}\">\n<h2>{name}</h2>\n");
    section.push_str(&facts(&of_file(first)));
    if file.len() == reading::ALL.len() {
        let sentence = markup(&any_sentence(file));
        let _ = writeln!(section, "<p class=\"sentence\">{sentence}</p>");
    }
    for told in file {
        section.push_str(&reading_part(told));
    }
    section.push_str("</section>\n");
    section
}

fn of_file(told: &Told) -> Vec<(&'static str, String)> {
    let sha256 = match &told.sha256 {
        Some(digits) => format!("<code>{}</code>", markup(digits)),
        None => "not known".to_string(),
    };
    let counts = match told.counts {
        Some(counts) => format!(
            "{} (M): {} (I) and {} (A); {} (O), {} latches (L)",
            counted(counts.m.into(), "variable"),
            counted(counts.i.into(), "input"),
            counted(counts.a.into(), "gate"),
            counted(counts.o.into(), "output"),
            counts.l
        ),
        None => "not known, the text was refused".to_string(),
    };
    vec![
        ("size", counted(told.bytes, "byte")),
        ("SHA-256", sha256),
        ("counts", counts),
    ]
}

/// What was asked, what was answered, and the plot.
fn reading_part(told: &Told) -> String {
    let mut asked = vec![("term limit T", grouped(told.limit))];
    if let Outcome::Judged { taken, judgement } = &told.outcome {
        asked.extend(of_order(taken, judgement));
    }
    asked.push(("line", format!("<code>{}</code>", line(told))));
    let mut part = format!(
        "<div class=\"reading\">\n<h3>Reading {} {}</h3>\n",
        markup(&reading_words(told.reading)),
        badge(told)
    );
    part.push_str(&facts(&asked));
    let _ = writeln!(
        part,
        "<p class=\"sentence\">{}</p>",
        markup(&sentence(told))
    );
    if let Outcome::Judged { .. } = told.outcome {
        let _ = writeln!(part, "<figure>\n{}</figure>", plot(told));
    }
    part.push_str("</div>\n");
    part
}

fn of_order(taken: &Taken, judgement: &Judgement) -> Vec<(&'static str, String)> {
    let steps = counted(taken.order.len() as u64, "step");
    let order = format!("{}, {steps}", markup(&order_words(&taken.rule)));
    let place = |point: course::Point| match point.step {
        0 => format!("{} (at the start)", grouped(point.terms)),
        step => format!("{} (step {})", grouped(point.terms), grouped(step)),
    };
    let mut rows = vec![("order", order)];
    rows.extend(course::most_held(judgement).map(|most| ("most terms after a step", place(most))));
    rows.extend(course::most_made(judgement).map(|most| ("peak before gathering", place(most))));
    rows
}

/// A table of names and values; the values are markup already.
fn facts(rows: &[(&str, String)]) -> String {
    let mut table = String::from("<table class=\"facts\"><tbody>\n");
    for (name, value) in rows {
        let _ = writeln!(
            table,
            "<tr><th scope=\"row\">{name}</th><td>{value}</td></tr>"
        );
    }
    table.push_str("</tbody></table>\n");
    table
}
