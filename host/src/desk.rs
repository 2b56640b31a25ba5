//! The desk program, asked instead of the library: a kind line and a netlist text in, its line out.
//!
//! It judges M down to I + 1 with 512 terms, and tells nothing but its line. `HRASKELL_DESK` names another one.

use crate::block::Block;
use crate::files::shown;
use crate::judging::{judge, Judgement};
use crate::options::is_decimal;
use crate::reading::Reading;
use crate::told::{Outcome, Rule, Taken};
use hraskell::Answer;
use std::env;
use std::io::{self, Read, Write};
use std::os::unix::fs::PermissionsExt;
use std::path::{Path, PathBuf};
use std::process::{Command, Stdio};

/// The term limit T of the desk.
pub const TERMS: u64 = 512;

/// From one byte more on the answer is refusal 13, whatever follows.
const TEXT_BYTES_MOST: usize = 4096;

/// No line is longer.
const LINE_BYTES_MOST: u64 = 1024;

/// The desk program that is asked: the one that HRASKELL_DESK names, or the one installed beside this program, or the one
/// built in the repository that this program was built in.
pub fn program() -> Result<PathBuf, String> {
    if let Some(named) = env::var_os("HRASKELL_DESK").filter(|named| !named.is_empty()) {
        let path = PathBuf::from(&named);
        // A name without a folder would be looked for on the PATH.
        let path = path.canonicalize().unwrap_or(path);
        return if can_be_run(&path) {
            Ok(path)
        } else {
            let name = shown(&named);
            Err(format!(
                "HRASKELL_DESK names no program that can be run: {name}"
            ))
        };
    }
    let own = env::current_exe().unwrap_or_default();
    let folder = own.parent().unwrap_or(Path::new(""));
    let beside = folder.join("hraskell-desk");
    let places = [beside].into_iter().chain(built_beside(folder));
    places.into_iter().find(|place| can_be_run(place)).ok_or("there is no desk program: ./judge --desk of the repository builds it, or HRASKELL_DESK names it".into())
}

/// The desk program of the repository, where this program stands in the folder in which ./judge has it built.
fn built_beside(folder: &Path) -> Option<PathBuf> {
    let is_built_here = folder.ends_with("target/host/release");
    is_built_here.then(|| folder.join("../../../crates/desk_main/out/desk_main"))
}

fn can_be_run(path: &Path) -> bool {
    path.metadata()
        .is_ok_and(|there| there.is_file() && there.permissions().mode() & 0o111 != 0)
}

/// What the desk program makes of a netlist text; `block` is the text as the library reads it, if it does.
pub fn ask(
    program: &Path,
    reading: Reading,
    text: &[u8],
    block: Option<&Block>,
) -> Result<Outcome, String> {
    let line = line_for(program, reading, text).unwrap_or_default();
    let said = said_by(&line, reading).ok_or_else(|| {
        let name = shown(program.as_os_str());
        format!("the desk program gave no answer ({name}): HRASKELL_DESK may name another one")
    })?;
    Ok(match said {
        Said::Refused(number) => Outcome::Refused {
            number,
            line: crate::refusals::line_at_fault(text, number),
        },
        Said::Answer(answer) => Outcome::Judged {
            taken: Taken {
                rule: Rule::Desk,
                order: block.map(Block::falling).unwrap_or_default(),
            },
            judgement: judgement(answer, reading, block),
        },
    })
}

/// The desk's answer with what the library tells of the same judgement, since a line has no log. Where the library answers
/// otherwise nothing of it is told.
fn judgement(answer: Answer, reading: Reading, block: Option<&Block>) -> Judgement {
    let by_library = block.and_then(|block| judge(block, reading, TERMS, &block.falling()).ok());
    let same = by_library.filter(|judgement| judgement.answer == answer);
    same.unwrap_or_else(|| Judgement {
        answer,
        log: Vec::new(),
        occurrences: vec![0; block.map_or(0, |block| block.counts.m as usize + 1)],
    })
}

/// What the program prints for a text.
fn line_for(program: &Path, reading: Reading, text: &[u8]) -> io::Result<Vec<u8>> {
    let mut child = Command::new(program)
        .stdin(Stdio::piped())
        .stdout(Stdio::piped())
        .spawn()?;
    if let Some(mut input) = child.stdin.take() {
        let text = &text[..text.len().min(TEXT_BYTES_MOST)];
        let whole = [reading.letters().as_bytes(), b"\n", text].concat();
        // A program that does not read all of it may still answer.
        let _ = input.write_all(&whole);
    }
    let mut line = Vec::new();
    if let Some(output) = child.stdout.take() {
        output.take(LINE_BYTES_MOST).read_to_end(&mut line)?;
    }
    child.wait()?;
    Ok(line)
}

/// What a line of the desk program says.
#[derive(Clone, Copy, Debug, PartialEq, Eq)]
pub enum Said {
    Answer(Answer),
    Refused(u32),
}

/// What a line says under a reading; none where it is no line of document 01.
pub fn said_by(line: &[u8], reading: Reading) -> Option<Said> {
    let line = std::str::from_utf8(line.strip_suffix(b"\n").unwrap_or(line)).ok()?;
    let mut words = line.split(' ');
    let letter = words.next()?;
    let numbers: Option<Vec<u64>> = words.map(number_of).collect();
    let answer = match (letter, reading.adds(), numbers?.as_slice()) {
        ("E", _, &[steps, terms]) => Answer::Equal { steps, terms },
        ("U", _, &[steps, terms]) => Answer::Unfinished { steps, terms },
        ("R", _, &[step, terms]) => Answer::OutOfRoom { step, terms },
        ("D", false, &[steps, terms, a, b, got, wanted]) => Answer::Differs {
            steps,
            terms,
            a,
            b,
            c: 0,
            got,
            wanted,
        },
        ("D", true, &[steps, terms, a, b, c, got, wanted]) => Answer::Differs {
            steps,
            terms,
            a,
            b,
            c,
            got,
            wanted,
        },
        ("X", _, &[number]) => return Some(Said::Refused(u32::try_from(number).ok()?)),
        _ => return None,
    };
    Some(Said::Answer(answer))
}

fn number_of(word: &str) -> Option<u64> {
    word.parse().ok().filter(|_| is_decimal(word))
}
