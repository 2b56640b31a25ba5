//! A whole call: all files over all processors, their lines in the order of the files, then the files that it leaves.

use crate::asking::Question;
use crate::files::shown;
use crate::options::{self, Options, Wish, USAGE};
use crate::outputs::{Outputs, Unwritten};
use crate::parallel::in_order;
use crate::printing::{say, status_of_file, worse, Manner, MISUSE};
use crate::progress::Progress;
use crate::stopping;
use crate::told::Told;
use crate::version::version;
use std::ffi::OsString;
use std::io::{self, ErrorKind, IsTerminal, Write};
use std::panic::{catch_unwind, AssertUnwindSafe};

/// Where a call prints, and which of its streams are terminals.
pub struct Streams<'a> {
    pub output: &'a mut dyn Write,
    pub errors: &'a mut dyn Write,
    /// Whether standard output is one: then answers are explained.
    pub output_is_terminal: bool,
    /// Whether standard error is one: then long work shows how far it is.
    pub errors_are_terminal: bool,
}

/// Carries out a call with these words and gives its exit status.
pub fn call(words: impl IntoIterator<Item = OsString>, streams: &mut Streams) -> u8 {
    let done = options::of_words(words).and_then(|wish| match wish {
        Wish::Help => Ok(print(streams, USAGE)),
        Wish::Version => Ok(print(streams, &format!("hraskell {}\n", version()))),
        Wish::Judge(options) => judge(&options, streams),
    });
    done.unwrap_or_else(|message| {
        say(streams.errors, &message);
        MISUSE
    })
}

fn print(streams: &mut Streams, text: &str) -> u8 {
    let written = streams.output.write_all(text.as_bytes());
    match written.and_then(|()| streams.output.flush()) {
        Ok(()) => 0,
        Err(error) => not_printed(streams.errors, &error),
    }
}

/// Judges all files, and writes what is to be kept. An error is one before the first is judged.
fn judge(options: &Options, streams: &mut Streams) -> Result<u8, String> {
    if options.read_standard_input() && io::stdin().is_terminal() {
        say(streams.errors, "reading standard input, up to Ctrl-D");
    }
    let question = Question::of_options(options)?;
    let outputs = Outputs::begun(options)?;
    let (mut status, all) = judge_all(options, &question, outputs.are_wanted(), streams);
    // What nobody could be told is not kept either.
    let unwritten = all.map_or(Vec::new(), |all| outputs.finished(&all));
    for failure in unwritten {
        match failure {
            Unwritten::Untold(message) => say(streams.errors, &message),
            Unwritten::Failed(message) => {
                say(streams.errors, &message);
                status = MISUSE;
            }
        }
    }
    Ok(status)
}

/// Judges all files and prints their lines. Gives the worst status, and what is told of all files if that `is_kept`; none
/// where standard output took no more or a signal asked for the end.
fn judge_all(
    options: &Options,
    question: &Question,
    is_kept: bool,
    streams: &mut Streams,
) -> (u8, Option<Vec<Told>>) {
    let progress = Progress::of(options.files.len(), streams.errors_are_terminal);
    let manner = Manner::of_options(options, streams.output_is_terminal);
    let mut worst = 0;
    let mut all = Some(Vec::new());
    in_order(
        options.files.len(),
        |place| told(question, options, place, &progress),
        || progress.draw(),
        |told| {
            // A search that was broken off by a signal has found less than it would have: that is not told.
            let status = (!stopping::is_stopped())
                .then(|| progress.out_of_the_way(|| tell(manner, &told, streams)))
                .flatten();
            worst = worse(worst, status.unwrap_or(MISUSE));
            match (status, &mut all) {
                (None, _) => {
                    progress.give_up();
                    all = None;
                }
                (Some(_), Some(all)) if is_kept => all.extend(told.unwrap_or_default()),
                _ => (),
            }
            status.is_some()
        },
    );
    (worst, all)
}

/// All that is told of a file. A fault of this program costs the file that it is met with, and no other.
fn told(
    question: &Question,
    options: &Options,
    place: usize,
    progress: &Progress,
) -> Result<Vec<Told>, String> {
    let name = &options.files[place];
    let told = catch_unwind(AssertUnwindSafe(|| question.told(place, name, progress)));
    progress.ends(place);
    told.unwrap_or_else(|_| {
        let name = shown(name);
        Err(format!(
            "'{name}' was not judged, by a fault of this program: please report it, with the file"
        ))
    })
}

/// Tells of one file and gives its exit status; none where standard output takes no more.
fn tell(manner: Manner, told: &Result<Vec<Told>, String>, streams: &mut Streams) -> Option<u8> {
    match told {
        Err(message) => {
            say(streams.errors, message);
            Some(MISUSE)
        }
        Ok(all) => match manner.print(all, streams.output, streams.errors) {
            Ok(()) => Some(status_of_file(all)),
            Err(error) => {
                not_printed(streams.errors, &error);
                None
            }
        },
    }
}

/// Whoever closed a pipe wants no more of it, and no message.
fn not_printed(errors: &mut dyn Write, error: &io::Error) -> u8 {
    if error.kind() != ErrorKind::BrokenPipe {
        say(errors, &format!("cannot write to standard output: {error}"));
    }
    MISUSE
}
