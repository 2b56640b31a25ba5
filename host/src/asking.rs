//! One file under the readings asked for: read, handed to the library or the desk program, and all that is told of it.

use crate::block::Block;
use crate::desk;
use crate::digest::sha256;
use crate::files::{self, shown, Content};
use crate::options::{Asked, Options, Order};
use crate::orderfile;
use crate::orders::{self, Watch};
use crate::progress::Progress;
use crate::reading::Reading;
use crate::refusals::line_at_fault;
use crate::told::{Outcome, Rule, Taken, Told};
use hraskell::Refused;
use std::ffi::OsStr;
use std::path::PathBuf;

/// What is asked of every file.
#[derive(Clone, Debug)]
pub struct Question {
    asked: Asked,
    answers: Answers,
    /// Whether a file's SHA-256 is told of.
    hashes: bool,
}

/// Who answers.
#[derive(Clone, Debug)]
enum Answers {
    Library { limit: u64, order: Source },
    Desk(PathBuf),
}

/// Where the order comes from.
#[derive(Clone, Debug)]
enum Source {
    Found,
    Falling,
    HandedIn(Taken),
}

impl Question {
    /// What the options ask. An order is read here, once for all files.
    pub fn of_options(options: &Options) -> Result<Question, String> {
        let answers = if options.desk {
            Answers::Desk(desk::program()?)
        } else {
            Answers::Library {
                limit: options.terms,
                order: source(&options.order)?,
            }
        };
        Ok(Question {
            asked: options.asked,
            answers,
            hashes: options.json || options.kept.report.is_some(),
        })
    }

    /// All that is told of the file at this place in the list, for each reading in turn.
    pub fn told(
        &self,
        place: usize,
        name: &OsStr,
        progress: &Progress,
    ) -> Result<Vec<Told>, String> {
        let content = files::read(name).map_err(|message| {
            format!("{message}; name a file with a netlist text, or - for standard input")
        })?;
        let block = Block::of_text(&content.bytes);
        let digest = (self.hashes && content.is_whole).then(|| sha256(&content.bytes));
        let told = |reading| {
            let watch = progress.begins(place, &shown(name), reading);
            Ok(Told {
                name: name.to_string_lossy().into_owned(),
                bytes: content.size,
                sha256: digest.clone().flatten(),
                counts: block.as_ref().ok().map(|block| block.counts),
                reading,
                limit: self.limit(),
                outcome: self.outcome(&content, &block, reading, &watch)?,
            })
        };
        self.asked.readings().into_iter().map(told).collect()
    }

    fn limit(&self) -> u64 {
        match self.answers {
            Answers::Library { limit, .. } => limit,
            Answers::Desk(_) => desk::TERMS,
        }
    }

    fn outcome(
        &self,
        content: &Content,
        block: &Result<Block, Refused>,
        reading: Reading,
        watch: &dyn Watch,
    ) -> Result<Outcome, String> {
        let (limit, order) = match &self.answers {
            Answers::Library { limit, order } => (*limit, order),
            Answers::Desk(program) => {
                return desk::ask(program, reading, &content.bytes, block.as_ref().ok())
            }
        };
        let judged = match block {
            Ok(block) => judged(block, reading, limit, order, watch),
            Err(refused) => Err(*refused),
        };
        Ok(match judged {
            Ok(outcome) => outcome,
            Err(Refused(number)) => Outcome::Refused {
                number,
                line: line_at_fault(&content.bytes, number),
            },
        })
    }
}

/// Has the library judge a block, by an order found or handed in.
fn judged(
    block: &Block,
    reading: Reading,
    limit: u64,
    order: &Source,
    watch: &dyn Watch,
) -> Result<Outcome, Refused> {
    let handed_in = |taken: Taken| {
        watch.tries(&taken.rule);
        orders::handed_in(block, reading, limit, taken)
    };
    let (taken, judgement) = match order {
        Source::Found => orders::found(block, reading, limit, watch),
        Source::Falling => handed_in(Taken {
            rule: Rule::Falling,
            order: block.falling(),
        }),
        Source::HandedIn(taken) => handed_in(taken.clone()),
    }?;
    Ok(Outcome::Judged { taken, judgement })
}

fn source(order: &Order) -> Result<Source, String> {
    Ok(match order {
        Order::Found => Source::Found,
        Order::Falling => Source::Falling,
        Order::File(name) => Source::HandedIn(Taken {
            rule: Rule::File(shown(name)),
            order: orderfile::read(name)?,
        }),
    })
}
