//! The terms after each step against the step, as a picture: SVG in black on white, with lines told apart by their form.
//!
//! It has no style sheet and no names within, so that many such pictures fit into one page.

use crate::course::{self, Point};
use crate::escaping::markup;
use crate::judging::Judgement;
use crate::line::line;
use crate::scale::{round_numbers, Scale};
use crate::told::{Outcome, Taken, Told};
use crate::wording::{
    answer_word, counted, grouped, order_words, reading_words, shortened, shown_name,
};
use hraskell::Answer;
use std::fmt::Write;

/// The picture's size, and within it the edges of the field that the curve lies in.
const WIDTH: f64 = 960.0;
const HEIGHT: f64 = 500.0;
const LEFT: f64 = 84.0;
const RIGHT: f64 = 932.0;
const TOP: f64 = 96.0;
const BOTTOM: f64 = 440.0;

/// The room at the top of the field that stays free for what is written above the limit.
const HEADROOM: f64 = 44.0;

/// Up to so many steps each has a dot.
const DOTS_MOST: usize = 80;

/// So many characters of a name fit into the title, and so many into the lines below it.
const TITLE_MOST: usize = 76;
const SUBTITLE_MOST: usize = 126;

/// A whole SVG document.
pub fn plot(told: &Told) -> String {
    let mut picture = opening(told);
    picture.push_str(&titles(told));
    match &told.outcome {
        Outcome::Judged { taken, judgement } => {
            let field = Field::of(told, judgement);
            picture.push_str(&field.axes());
            picture.push_str(&field.course());
            picture.push_str(&field.limit());
            picture.push_str(&field.no_room(taken));
            picture.push_str(&field.peak());
        }
        Outcome::Refused { number, .. } => {
            let words = format!("refused with {number}: there is no step to show");
            let middle = ((LEFT + RIGHT) / 2.0, (TOP + BOTTOM) / 2.0);
            picture.push_str(&text(middle, "middle", 16, &words));
        }
    }
    picture.push_str("</svg>\n");
    picture
}

fn opening(told: &Told) -> String {
    let label = markup(&format!(
        "Terms after each step of {} under {}",
        shown_name(told),
        reading_words(told.reading)
    ));
    format!(
        "<svg xmlns=\"http://www.w3.org/2000/svg\" viewBox=\"0 0 {WIDTH} {HEIGHT}\" width=\"{WIDTH}\" height=\"{HEIGHT}\" \
         role=\"img\" aria-label=\"{label}\" font-family=\"Helvetica, Arial, 'Liberation Sans', 'DejaVu Sans', sans-serif\">\n\
         <title>{label}</title>\n\
         <rect width=\"{WIDTH}\" height=\"{HEIGHT}\" fill=\"#fff\"/>\n"
    )
}

/// The file's name, the reading with the answer, and the order.
fn titles(told: &Told) -> String {
    let name = markup(&shortened(&shown_name(told), TITLE_MOST));
    let answer = format!(
        "{}: {}, {}",
        reading_words(told.reading),
        answer_word(told),
        line(told)
    );
    let mut lines = format!(
        "<text x=\"{LEFT}\" y=\"34\" font-size=\"20\" font-weight=\"bold\">{name}</text>\n"
    );
    lines.push_str(&text((LEFT, 58.0), "start", 15, &answer));
    if let Outcome::Judged { taken, .. } = &told.outcome {
        let steps = counted(taken.order.len() as u64, "step");
        let order = format!("{}, {steps}", order_words(&taken.rule));
        let order = shortened(&order, SUBTITLE_MOST);
        lines.push_str(&text((LEFT, 79.0), "start", 13, &order));
    }
    lines
}

/// The field with its two axes, and what is drawn in it.
struct Field<'a> {
    judgement: &'a Judgement,
    limit: u64,
    points: Vec<Point>,
    /// The step at which there was no room.
    stopped: Option<u64>,
    /// The step at the right edge.
    steps: u64,
    scale: Scale,
}

impl<'a> Field<'a> {
    fn of(told: &Told, judgement: &'a Judgement) -> Field<'a> {
        let points = course::held(judgement);
        let stopped = match judgement.answer {
            Answer::OutOfRoom { step, .. } => Some(step),
            _ => None,
        };
        let last = points.last().map_or(0, |point| point.step);
        let values = points.iter().map(|point| point.terms);
        let scale = Scale::of(values.chain([told.limit]));
        Field {
            judgement,
            limit: told.limit,
            stopped,
            steps: last.max(stopped.unwrap_or(0)).max(1),
            scale,
            points,
        }
    }

    fn x(&self, step: u64) -> f64 {
        LEFT + (RIGHT - LEFT) * step as f64 / self.steps as f64
    }

    fn y(&self, terms: u64) -> f64 {
        BOTTOM - (BOTTOM - TOP - HEADROOM) * self.scale.share(terms)
    }

    /// Both axes with round numbers and what they count.
    fn axes(&self) -> String {
        let mut drawn = String::new();
        for terms in self.scale.marks() {
            let y = self.y(terms);
            drawn.push_str(&stroke((LEFT, y), (RIGHT, y), "#ddd", ""));
            drawn.push_str(&stroke((LEFT - 6.0, y), (LEFT, y), "#000", ""));
            let place = (LEFT - 10.0, y + 4.5);
            drawn.push_str(&text(place, "end", 13, &grouped(terms)));
        }
        for terms in self.scale.small_marks() {
            let y = self.y(terms);
            drawn.push_str(&stroke((LEFT - 3.0, y), (LEFT, y), "#000", ""));
        }
        for step in round_numbers(self.steps, 10) {
            let x = self.x(step);
            drawn.push_str(&stroke((x, BOTTOM), (x, BOTTOM + 6.0), "#000", ""));
            let place = (x, BOTTOM + 22.0);
            drawn.push_str(&text(place, "middle", 13, &grouped(step)));
        }
        drawn.push_str(&stroke((LEFT, TOP), (LEFT, BOTTOM), "#000", ""));
        drawn.push_str(&stroke((LEFT, BOTTOM), (RIGHT, BOTTOM), "#000", ""));
        let middle = (LEFT + RIGHT) / 2.0;
        drawn.push_str(&text((middle, BOTTOM + 46.0), "middle", 14, "step"));
        drawn.push_str(&self.upright_label());
        drawn
    }

    fn upright_label(&self) -> String {
        let words = match self.scale {
            Scale::Linear { .. } => "terms after the step",
            Scale::Logarithmic { .. } => "terms after the step (log scale)",
        };
        let middle = (TOP + BOTTOM) / 2.0;
        format!(
            "<text transform=\"translate(22 {middle}) rotate(-90)\" text-anchor=\"middle\" font-size=\"14\">{words}</text>\n"
        )
    }

    /// The curve over a grey ground, with a dot for each step where they are few.
    fn course(&self) -> String {
        let places: Vec<(f64, f64)> = self
            .points
            .iter()
            .map(|point| (self.x(point.step), self.y(point.terms)))
            .collect();
        let (Some(first), Some(last)) = (places.first(), places.last()) else {
            return String::new();
        };
        let path: Vec<String> = places
            .iter()
            .map(|(x, y)| format!("{x:.1},{y:.1}"))
            .collect();
        let path = path.join(" ");
        let (left, right) = (first.0, last.0);
        let mut drawn = format!(
            "<polygon points=\"{left:.1},{BOTTOM} {path} {right:.1},{BOTTOM}\" fill=\"#000\" fill-opacity=\"0.07\"/>\n\
             <polyline points=\"{path}\" fill=\"none\" stroke=\"#000\" stroke-width=\"1.8\" stroke-linejoin=\"round\"/>\n"
        );
        if places.len() <= DOTS_MOST {
            for (x, y) in places {
                let _ = writeln!(drawn, "<circle cx=\"{x:.1}\" cy=\"{y:.1}\" r=\"2.6\"/>");
            }
        }
        drawn
    }

    /// The limit, named at the end where nothing else is written.
    fn limit(&self) -> String {
        let y = self.y(self.limit);
        let words = format!("limit T = {}", grouped(self.limit));
        let mut drawn = stroke((LEFT, y), (RIGHT, y), "#000", "8 5");
        let peak_is_right =
            course::most_held(self.judgement).is_some_and(|peak| 2 * peak.step >= self.steps);
        let at_left = match self.stopped {
            Some(step) => step > 0,
            None => peak_is_right,
        };
        drawn.push_str(&match at_left {
            true => text((LEFT + 10.0, y - 8.0), "start", 13, &words),
            false => text((RIGHT - 4.0, y - 8.0), "end", 13, &words),
        });
        drawn
    }

    /// An arrow through the limit at the step that had no room.
    fn no_room(&self, taken: &Taken) -> String {
        let Some(step) = self.stopped else {
            return String::new();
        };
        let x = self.x(step);
        let held = self.points.last().map_or((x, BOTTOM), |point| {
            (self.x(point.step), self.y(point.terms))
        });
        let mut drawn = stroke(held, (x, TOP + 8.0), "#000", "2 4");
        let (left, right, tip, foot) = (x - 5.0, x + 5.0, TOP - 4.0, TOP + 8.0);
        let _ = writeln!(
            drawn,
            "<polygon points=\"{left:.1},{foot:.1} {right:.1},{foot:.1} {x:.1},{tip:.1}\"/>"
        );
        let y = TOP + 16.0;
        drawn.push_str(&match step {
            0 => text((x + 12.0, y), "start", 14, "out of room at the start"),
            _ => {
                let all = grouped(taken.order.len() as u64);
                let words = format!("out of room at step {} of {all}", grouped(step));
                text((x - 14.0, y), "end", 14, &words)
            }
        });
        drawn
    }

    /// The first of the highest points, with its value and its step.
    fn peak(&self) -> String {
        let Some(peak) = course::most_held(self.judgement) else {
            return String::new();
        };
        let (x, y) = (self.x(peak.step), self.y(peak.terms));
        let mut drawn = format!(
            "<circle cx=\"{x:.1}\" cy=\"{y:.1}\" r=\"5.5\" fill=\"#fff\" stroke=\"#000\" stroke-width=\"2\"/>\n"
        );
        let place = match peak.step {
            0 => "at the start".to_string(),
            step => format!("after step {}", grouped(step)),
        };
        let words = format!("peak {} {place}", counted(peak.terms, "term"));
        let (anchor, x) = match (x - LEFT) / (RIGHT - LEFT) {
            share if share < 0.2 => ("start", x + 8.0),
            share if share > 0.8 => ("end", x - 8.0),
            _ => ("middle", x),
        };
        drawn.push_str(&text((x, self.above(y)), anchor, 14, &words));
        drawn
    }

    /// Where words about a point at this height stand: above it, but not across the limit's line.
    fn above(&self, y: f64) -> f64 {
        let limit = self.y(self.limit);
        let (base, top) = (y - 12.0, y - 28.0);
        if base < limit - 6.0 || top > limit + 4.0 {
            base
        } else if self.stopped.is_some() {
            // Above the limit it says where there was no room.
            limit + 22.0
        } else {
            limit - 8.0
        }
    }
}

fn stroke(from: (f64, f64), to: (f64, f64), colour: &str, dashes: &str) -> String {
    let dashes = match dashes {
        "" => String::new(),
        _ => format!(" stroke-dasharray=\"{dashes}\""),
    };
    format!(
        "<line x1=\"{:.1}\" y1=\"{:.1}\" x2=\"{:.1}\" y2=\"{:.1}\" stroke=\"{colour}\" stroke-width=\"1.2\"{dashes}/>\n",
        from.0, from.1, to.0, to.1
    )
}

/// Words with a white edge, so that they are read across a line too.
fn text(place: (f64, f64), anchor: &str, size: u32, words: &str) -> String {
    format!(
        "<text x=\"{:.1}\" y=\"{:.1}\" text-anchor=\"{anchor}\" font-size=\"{size}\" \
         stroke=\"#fff\" stroke-width=\"4\" stroke-linejoin=\"round\" paint-order=\"stroke\">{}</text>\n",
        place.0,
        place.1,
        markup(words)
    )
}
