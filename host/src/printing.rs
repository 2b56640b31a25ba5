//! Lines on standard output, sentences and messages on standard error, and the exit status that goes with them.

use crate::files::shown;
use crate::json::json;
use crate::line::{exit_status, line};
use crate::options::{Asked, Options};
use crate::sentence::{any_sentence, sentence};
use crate::told::Told;
use std::ffi::OsStr;
use std::io::{self, Write};

/// Nothing was judged: misuse, a file that cannot be read or written.
pub const MISUSE: u8 = 4;

/// How answers are printed.
#[derive(Clone, Copy, Debug, PartialEq, Eq)]
pub struct Manner {
    /// A line stands behind the letters of its reading, and a sentence says under which ones the block is right.
    pub is_any: bool,
    /// A line stands behind the name of its file.
    pub names_files: bool,
    /// An object takes the place of a line.
    pub json: bool,
    /// Each line is followed by its sentence.
    pub explains: bool,
}

impl Manner {
    /// As the options say; on a terminal everything is explained.
    pub fn of_options(options: &Options, is_terminal: bool) -> Manner {
        Manner {
            is_any: options.asked == Asked::Any,
            names_files: options.files.len() > 1,
            json: options.json,
            explains: options.explains || is_terminal,
        }
    }

    /// What is printed of a file under one reading, without its LF.
    pub fn line(self, told: &Told) -> String {
        if self.json {
            return json(told);
        }
        let mut behind = String::new();
        if self.names_files {
            behind += &shown(OsStr::new(&told.name));
            behind += ": ";
        }
        if self.is_any {
            behind += told.reading.letters();
            behind += " ";
        }
        behind + &line(told)
    }

    /// Prints all that is told of one file. A sentence has the file's name in it. A failure is one of standard output.
    pub fn print(
        self,
        all: &[Told],
        output: &mut dyn Write,
        errors: &mut dyn Write,
    ) -> io::Result<()> {
        for told in all {
            writeln!(output, "{}", self.line(told))?;
            output.flush()?;
            if self.explains {
                say(errors, &sentence(told));
            }
        }
        if self.is_any {
            say(errors, &any_sentence(all));
        }
        Ok(())
    }
}

/// A message. Where it cannot be written there is nobody to tell.
pub fn say(errors: &mut dyn Write, message: &str) {
    let _ = writeln!(errors, "hraskell: {message}");
}

/// The exit status for one file: for `any` the best of the five, E before D before R and U before a refusal.
pub fn status_of_file(all: &[Told]) -> u8 {
    all.iter().map(exit_status).min().unwrap_or(MISUSE)
}

/// The worse of two: 4 before 3 before 1 before 2 before 0.
pub fn worse(one: u8, other: u8) -> u8 {
    let rank = |status| match status {
        0 => 0,
        2 => 1,
        1 => 2,
        worst => worst,
    };
    if rank(one) >= rank(other) {
        one
    } else {
        other
    }
}
