//! The command `second`, run as a user runs it.

use std::io::Write;
use std::path::{Path, PathBuf};
use std::process::{Command, Output, Stdio};

fn second(arguments: &[&str], input: &[u8]) -> Output {
    let mut child = Command::new(env!("CARGO_BIN_EXE_second"))
        .args(arguments)
        .stdin(Stdio::piped())
        .stdout(Stdio::piped())
        .stderr(Stdio::piped())
        .spawn()
        .unwrap();
    // A command that asks for no input may be gone before it is written.
    let _ = child.stdin.take().unwrap().write_all(input);
    child.wait_with_output().unwrap()
}

fn printed(arguments: &[&str], input: &[u8]) -> String {
    let output = second(arguments, input);
    assert!(output.status.success());
    assert!(output.stderr.is_empty());
    String::from_utf8(output.stdout).unwrap()
}

/// A file for one test in the folder that cargo keeps for tests.
fn file(name: &str, content: &str) -> PathBuf {
    let path = Path::new(env!("CARGO_TARGET_TMPDIR")).join(name);
    std::fs::write(&path, content).unwrap();
    path
}

#[test]
fn desk_prints_the_example() {
    let input = b"u\naag 3 2 0 2 1\n2\n4\n7\n0\n6 5 3\n";
    assert_eq!(printed(&["desk"], input), "D 1 3 1 0 1 0\n");
    assert_eq!(printed(&["desk"], b""), "X 9\n");
}

#[test]
fn judge_prints_the_answer_and_the_steps() {
    let netlist = file("judge.aag", "aag 3 2 0 2 1\n2\n4\n6\n0\n6 4 2\n");
    let order = file("judge.order", " 3\n\t3 \n");
    let empty = file("judge.empty", "\n");
    let wrong = file("judge.wrong", "4\n");
    let (netlist, order) = (netlist.to_str().unwrap(), order.to_str().unwrap());
    assert_eq!(printed(&["judge", "u", "128", netlist], b""), "E 1 0\n");
    assert_eq!(
        printed(&["judge", "--steps", "s", "128", netlist, order], b""),
        "E 2 0\n3 0 2\n3 0 0\n"
    );
    let empty = empty.to_str().unwrap();
    let unfinished = printed(&["judge", "u", "128", netlist, empty, "--steps"], b"");
    assert_eq!(unfinished, "U 0 2\n");
    let wrong = wrong.to_str().unwrap();
    assert_eq!(
        printed(&["judge", "u", "128", netlist, wrong], b""),
        "X 11\n"
    );
    assert_eq!(printed(&["judge", "u", "127", netlist], b""), "X 10\n");
    assert_eq!(printed(&["judge", "t", "128", netlist], b""), "X 9\n");
}

#[test]
fn judge_knows_the_kinds_that_multiply_and_add() {
    // c_0 and c_1 are shown and ab is left out; then b in place of c_0.
    let without_product = file("sum.aag", "aag 4 4 0 2 0\n2\n4\n6\n8\n6\n8\n");
    let without_product = without_product.to_str().unwrap();
    for kind in ["m", "ms"] {
        let line = printed(&["judge", kind, "128", without_product], b"");
        assert_eq!(line, "D 0 1 1 1 0 0 1\n");
    }
    let cells = file("sum.cells", "4 4 0 2 0\n4\n8\n");
    let line = printed(&["judge", "m", "128", cells.to_str().unwrap()], b"");
    assert_eq!(line, "D 0 3 0 1 0 1 0\n");
    assert_eq!(
        printed(&["judge", "u", "128", without_product], b""),
        "X 9\n"
    );
    // The first word has a and b, the second c.
    assert_eq!(
        printed(&["evaluate", without_product, "3", "2"], b""),
        "2\n"
    );
    assert_eq!(
        printed(&["evaluate", without_product, "7", "6"], b""),
        "2\n"
    );
}

#[test]
fn judge_shows_the_steps_before_there_was_no_room() {
    let text =
        "aag 15 8 0 4 7\n2\n4\n6\n8\n10\n12\n14\n16\n30\n0\n0\n0\n18 5 3\n20 18 7\n22 20 9\n\
                24 22 11\n26 24 13\n28 26 15\n30 28 17\n";
    let netlist = file("room.aag", text);
    let lines = printed(
        &["judge", "--steps", "t", "254", netlist.to_str().unwrap()],
        b"",
    );
    // Nothing meets a like term before the last step.
    let steps = "15 12 12\n14 14 14\n13 18 18\n12 26 26\n11 42 42\n10 74 74\n";
    assert_eq!(lines, format!("R 7 74\n{steps}"));
}

#[test]
fn evaluate_prints_the_word() {
    let netlist = file(
        "evaluate.aag",
        "aag 3 2 0 5 1\n2\n4\n6\n0\n1\n7\n3\n6 4 2\n",
    );
    let netlist = netlist.to_str().unwrap();
    assert_eq!(printed(&["evaluate", netlist, "1", "1"], b""), "5\n");
    assert_eq!(printed(&["evaluate", netlist, "2", "3"], b""), "28\n");
    let cut = file("evaluate.cut", "aag 3 2 0 5 1\n");
    let line = printed(&["evaluate", cut.to_str().unwrap(), "0", "0"], b"");
    assert_eq!(line, "X 4\n");
}

#[test]
fn a_file_of_cells_is_judged_and_evaluated_as_cells() {
    let block = file("and.cells", "3 2 0 2 1\n6\n0\n136 1 2 0\n");
    let block = block.to_str().unwrap();
    let lines = printed(&["judge", "--steps", "u", "128", block], b"");
    assert_eq!(lines, "E 1 0\n3 0 2\n");
    assert_eq!(printed(&["evaluate", block, "1", "1"], b""), "1\n");
    assert_eq!(printed(&["evaluate", block, "1", "0"], b""), "0\n");
    for (name, text, line) in [
        ("counts", "4000000000 2 0 2 1\n6\n0\n136 1 2 0\n", "X 2\n"),
        ("byte", "3 2 0 2 1\n6\n0\n256 1 2 0\n", "X 8\n"),
        ("reading", "3 2 0 1 1\n6\n136 1 2 0\n", "X 9\n"),
    ] {
        let wrong = file(&format!("{name}.cells"), text);
        let wrong = wrong.to_str().unwrap();
        assert_eq!(printed(&["judge", "u", "128", wrong], b""), line);
    }
    let cut = file("cut.cells", "3 2 0 2 1\n6\n0\n136 1 2\n");
    let output = second(&["judge", "u", "128", cut.to_str().unwrap()], b"");
    assert_eq!(output.status.code(), Some(2));
    assert!(output.stdout.is_empty() && !output.stderr.is_empty());
}

#[test]
fn misuse_prints_the_usage_and_ends_with_2() {
    let wrong: [&[&str]; 15] = [
        &[],
        &["help"],
        &["desk", "more"],
        &["desk", "--steps"],
        &["judge"],
        &["judge", "x", "128", "file"],
        &["judge", "sm", "128", "file"],
        &["judge", "mx", "128", "file"],
        &["judge", "", "128", "file"],
        &["judge", "u", "many", "file"],
        &["judge", "u", "-1", "file"],
        &["judge", "u", "", "file"],
        &["evaluate", "file", "1"],
        &["evaluate", "file", "1", "x"],
        &["blocks", "128", "2", "3"],
    ];
    for arguments in wrong {
        let output = second(arguments, b"");
        assert_eq!(output.status.code(), Some(2), "{arguments:?}");
        assert!(output.stdout.is_empty());
        assert!(output.stderr.starts_with(b"usage:"), "{arguments:?}");
    }
    let output = second(&["judge", "u", "128", "no such file"], b"");
    assert_eq!(output.status.code(), Some(2));
    assert!(output.stdout.is_empty() && !output.stderr.is_empty());
}

#[test]
fn blocks_run_as_a_command() {
    let lines = printed(&["blocks", "1024", "1"], b"");
    assert!(lines.lines().count() >= 4 * 12);
    assert!(lines.contains("abc-blast-u8 falling: E 424 0 (most 87)"));
    assert!(!lines.contains("WRONG"));
}
