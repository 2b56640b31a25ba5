//! The commands of README.md as they stand there, and their outputs.

mod calls;

use calls::{called, top, Said};
use std::process::Command;

/// A command of the script, its arguments, and what has to come of it.
struct Shown {
    words: Vec<String>,
    printed: String,
    told: String,
}

/// README.md's transcripts: a line `$ ./judge ..`, then what is printed, and sentences behind `hraskell: `.
fn transcripts(text: &str) -> Vec<Shown> {
    let mut all: Vec<Shown> = Vec::new();
    let mut open = false;
    for line in text.lines() {
        let Some(inner) = line.strip_prefix("    ") else {
            open = false;
            continue;
        };
        if let Some(words) = inner.strip_prefix("$ ./judge ") {
            let words = words.split(' ').map(str::to_owned).collect();
            let (printed, told) = (String::new(), String::new());
            all.push(Shown {
                words,
                printed,
                told,
            });
            open = true;
        } else if let (true, Some(shown)) = (open, all.last_mut()) {
            let stream = if inner.starts_with("hraskell: ") {
                &mut shown.told
            } else {
                &mut shown.printed
            };
            stream.push_str(inner);
            stream.push('\n');
        }
    }
    all
}

/// The rows of its table of examples: a command, the line and the exit status.
fn rows(text: &str) -> Vec<(Vec<String>, String, i32)> {
    let cells = |line: &str| -> Option<(Vec<String>, String, i32)> {
        let mut cells = line.strip_prefix("| `./judge ")?.split(" | ");
        let words = cells.next()?.strip_suffix('`')?.split(' ');
        let printed = cells.next()?.strip_prefix('`')?.strip_suffix('`')?;
        let status = cells.next()?.parse().ok()?;
        Some((
            words.map(str::to_owned).collect(),
            printed.to_owned() + "\n",
            status,
        ))
    };
    text.lines().filter_map(cells).collect()
}

fn readme() -> String {
    std::fs::read_to_string(top().join("README.md")).unwrap()
}

/// The script at the top, called there, with the program that was built for the tests.
fn judged(words: &[String]) -> Said {
    let mut command = Command::new(top().join("judge"));
    let command = command.args(words).current_dir(top());
    called(
        command.env("HRASKELL_PROGRAM", env!("CARGO_BIN_EXE_hraskell")),
        b"",
    )
}

#[test]
fn transcripts_are_what_the_script_prints() {
    let all = transcripts(&readme());
    assert!(all.len() >= 3, "only {} transcripts", all.len());
    for shown in all {
        let said = judged(&shown.words);
        assert_eq!(said.printed, shown.printed, "{:?}", shown.words);
        assert_eq!(said.told, shown.told, "{:?}", shown.words);
    }
}

#[test]
fn rows_are_what_the_script_prints_with_its_status() {
    let all = rows(&readme());
    assert!(all.len() >= 3, "only {} rows", all.len());
    for (words, printed, status) in all {
        let said = judged(&words);
        assert_eq!((said.printed, said.status), (printed, status), "{words:?}");
    }
}

#[test]
fn the_first_command_prints_what_is_said_of_it() {
    let text = readme();
    let first = text
        .lines()
        .find_map(|line| line.strip_prefix("    ./judge "))
        .unwrap();
    let words: Vec<String> = first.split(' ').map(str::to_owned).collect();
    let said = judged(&words);
    assert!(text.contains(&format!("It prints `{}`:", said.printed.trim_end())));
    assert_eq!(said.status, 0);
}
