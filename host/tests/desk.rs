//! `--desk`: the desk program that is asked, what it is handed, and what is taken for its answer.
//!
//! A script stands in for it, so that nothing has to be proved first; its lines are the second program's, or worked out by hand.

mod calls;

use calls::*;
use host::desk::{said_by, Said};
use host::reading::Reading;
use hraskell::Answer;
use std::path::{Path, PathBuf};

fn asked_desk(desk: &Path, words: &[&str], text: impl AsRef<[u8]>) -> calls::Said {
    let mut command = program();
    let command = command.arg("--desk").args(words).env("HRASKELL_DESK", desk);
    called(command, text.as_ref())
}

/// A desk that keeps what it is handed, and answers each kind as the second program answers this text.
fn second_desk(home: &Path, text: &str) -> PathBuf {
    for kind in ["u", "s", "t", "m", "ms"] {
        let line = second::desk(format!("{kind}\n{text}").as_bytes());
        std::fs::write(home.join(kind), line).unwrap();
    }
    let home = home.to_str().unwrap();
    let lines = format!("read kind; {{ echo $kind; cat; }} >'{home}/handed'; cat '{home}'/$kind");
    script(Path::new(home).join("desk"), &lines)
}

#[test]
fn the_desk_is_handed_the_kind_line_and_the_text() {
    let home = folder("desk-handed");
    let desk = second_desk(&home, AND);
    asked_desk(&desk, &["ms", "-"], AND).has("X 9\n", 3);
    let handed = std::fs::read_to_string(home.join("handed")).unwrap();
    assert_eq!(handed, format!("ms\n{AND}"));
    // From 4,097 bytes on the answer is 13, so no more of a text is handed over than that takes.
    asked_desk(&desk, &["u", "-"], vec![b'2'; 5_000_000]);
    let handed = std::fs::read(home.join("handed")).unwrap();
    assert!(handed.len() > 4_096 && handed.len() < 5_000);
}

#[test]
fn the_line_of_the_desk_is_printed() {
    let home = folder("desk-lines");
    let two_bits = example("two-bit.aag");
    let desk = second_desk(&home, &two_bits);
    asked_desk(&desk, &["u", "-"], &two_bits).has("E 10 0\n", 0);
    let said = asked_desk(&desk, &["--explain", "s", "-"], &two_bits);
    said.has("D 10 2 2 1 2 14\n", 1).tells("a = -2");
    asked_desk(&desk, &["any", "-"], &two_bits)
        .has("u E 10 0\ns D 10 2 2 1 2 14\nt X 9\nm X 9\nms X 9\n", 0);
    let desk = second_desk(&home, &all_false());
    asked_desk(&desk, &["--explain", "t", "-"], all_false()).has("R 9 271\n", 2);
    let long = "\n".repeat(4_095);
    let desk = second_desk(&home, &long);
    asked_desk(&desk, &["--explain", "u", "-"], &long).has("X 13\n", 3);
}

const NO_LINES: &[&str] = &[
    "",
    "u",
    "E 1",
    "E 1 0 0",
    "E  1 0",
    " E 1 0",
    "D 1 3 1 0 1",
    "D 1 3 1 0 0 1 0 0",
    "X",
    "X 09 ",
    "X +9",
    "e 1 0",
    "E 1 -0",
    "E 1 0\n\n",
    "E 1 0\nE 1 0\n",
    "E 1 18446744073709551616",
    "X 4294967296",
    "E 1 0\r\n",
    "E 1\t0",
];

#[test]
fn nothing_but_a_line_of_document_01_is_taken_for_an_answer() {
    let said =
        |line: &str, letters| said_by(line.as_bytes(), Reading::of_letters(letters).unwrap());
    for line in NO_LINES {
        for letters in ["u", "s", "t", "m", "ms"] {
            assert_eq!(said(line, letters), None, "{line:?}");
        }
    }
    let differs = |c, got, wanted| {
        Some(Said::Answer(Answer::Differs {
            steps: 1,
            terms: 3,
            a: 1,
            b: 0,
            c,
            got,
            wanted,
        }))
    };
    // D has a number more where c is added, and nowhere else.
    for letters in ["u", "s", "t"] {
        assert_eq!(said("D 1 3 1 0 1 0", letters), differs(0, 1, 0));
        assert_eq!(said("D 1 3 1 0 7 1 0", letters), None);
    }
    for letters in ["m", "ms"] {
        assert_eq!(said("D 1 3 1 0 7 1 0\n", letters), differs(7, 1, 0));
        assert_eq!(said("D 1 3 1 0 1 0", letters), None);
    }
    assert_eq!(said("X 13\n", "u"), Some(Said::Refused(13)));
    let unfinished = Answer::Unfinished { steps: 2, terms: 5 };
    assert_eq!(said("U 2 5\n", "u"), Some(Said::Answer(unfinished)));
}

#[test]
fn a_desk_that_gives_no_answer_is_told_of() {
    let home = folder("desk-nonsense");
    for lines in [
        "exit 1",
        "echo",
        "echo E 1",
        "yes",
        "echo E 1 0; echo E 1 0",
        "kill -9 $$",
    ] {
        let desk = script(home.join("desk"), lines);
        for kind in ["u", "any"] {
            asked_desk(&desk, &[kind, "-"], AND)
                .has("", 4)
                .tells("the desk program gave no answer");
        }
    }
    // What another program prints is taken as it is, and explained.
    let desk = script(home.join("desk"), "echo U 1 2");
    asked_desk(&desk, &["--explain", "u", "-"], AND)
        .has("U 1 2\n", 2)
        .tells(": u (plain): ");
    let desk = script(home.join("desk"), "echo X 77");
    asked_desk(&desk, &["--explain", "u", "-"], AND)
        .has("X 77\n", 3)
        .tells(": u (plain): ");
    let desk = script(home.join("desk"), "echo D 0 1 3 2 18446744073709551615 9");
    asked_desk(&desk, &["--explain", "s", "-"], "no netlist")
        .has("D 0 1 3 2 18446744073709551615 9\n", 1);
}

#[test]
fn a_desk_that_cannot_be_run_is_told_of() {
    let home = folder("desk-none");
    let plain = file(&home, "plain", "no program");
    for desk in ["no such desk", &plain, home.to_str().unwrap()] {
        asked_desk(Path::new(desk), &["u", "-"], AND)
            .has("", 4)
            .tells("HRASKELL_DESK names no program that can be run");
    }
    // It is looked for in this folder, and not on the PATH.
    asked_desk(Path::new("sh"), &["u", "-"], AND).has("", 4);
    asked(&["--desk", "u", "-"], AND)
        .has("", 4)
        .tells("there is no desk program");
}

#[test]
fn the_desk_of_the_repository_is_asked_by_the_program_built_in_it() {
    let home = Outside::new("desk-built");
    let places = ["target/host/release", "crates/desk_main/out"].map(|place| home.join(place));
    for place in &places {
        std::fs::create_dir_all(place).unwrap();
    }
    let built = places[0].join("hraskell");
    let held = starts();
    std::fs::copy(env!("CARGO_BIN_EXE_hraskell"), &built).unwrap();
    drop(held);
    script(places[1].join("desk_main"), "echo E 6 0");
    let mut command = std::process::Command::new(built);
    let command = command
        .args(["--desk", "u", "-"])
        .env_remove("HRASKELL_DESK");
    called(command, AND.as_bytes()).has("E 6 0\n", 0);
}

#[test]
fn the_desk_beside_the_program_is_asked() {
    let home = folder("desk-beside");
    let beside = home.join("hraskell");
    let held = starts();
    std::fs::copy(env!("CARGO_BIN_EXE_hraskell"), &beside).unwrap();
    drop(held);
    script(home.join("hraskell-desk"), "echo E 5 0");
    let mut command = std::process::Command::new(beside);
    let command = command
        .args(["--desk", "u", "-"])
        .env_remove("HRASKELL_DESK");
    called(command, AND.as_bytes()).has("E 5 0\n", 0);
}

/// The proved desk program, where HRASKELL_DESK_MAIN names it.
#[test]
#[ignore = "needs the desk program: HRASKELL_DESK_MAIN"]
fn the_proved_desk_answers_as_the_second_program_does() {
    let named =
        std::env::var_os("HRASKELL_DESK_MAIN").expect("HRASKELL_DESK_MAIN names the desk program");
    let desk = PathBuf::from(named).canonicalize().unwrap();
    let texts = [
        AND.into(),
        ADD.into(),
        example("desk.aag"),
        example("two-bit.aag"),
        all_false(),
        without_gates(46),
        "\n".repeat(4_095),
    ];
    for text in texts {
        for kind in ["u", "s", "t", "m", "ms"] {
            let line = second::desk(format!("{kind}\n{text}").as_bytes());
            let said = asked_desk(&desk, &[kind, "-"], &text);
            assert_eq!(said.printed.as_bytes(), line);
        }
    }
}
