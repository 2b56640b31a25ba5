//! How the program ends early: by Ctrl-C and by a reader that is gone. Nothing stays half written.

mod calls;

use calls::*;
use std::io::Write;
use std::path::Path;
use std::process::Child;
use std::time::{Duration, Instant};

const INTERRUPT: i32 = 2;
const TERMINATE: i32 = 15;

extern "C" {
    fn kill(process: i32, signal: i32) -> i32;
}

/// The program waiting for its standard input, with a report and a log begun in this folder.
fn waiting(home: &Path) -> Child {
    let (report, log) = (home.join("report.html"), home.join("log"));
    let mut command = program();
    let command = command.arg("--report").arg(report).arg("--log").arg(log);
    let child = started(command.args(["u", "-"]));
    // Both temporary files are there before anything is read.
    let began = Instant::now();
    let hidden = || names_in(home).iter().filter(|n| n.starts_with('.')).count();
    while hidden() < 2 {
        assert!(
            began.elapsed() < Duration::from_secs(20),
            "nothing is begun"
        );
        std::thread::sleep(Duration::from_millis(5));
    }
    child
}

#[test]
fn a_signal_ends_it_and_leaves_nothing_behind() {
    for (signal, status) in [(INTERRUPT, 130), (TERMINATE, 143)] {
        let home = folder(&format!("signal-{signal}"));
        let mut child = waiting(&home);
        let input = child.stdin.take();
        // SAFETY: the process is the one started above, and not waited for yet.
        assert_eq!(unsafe { kill(child.id() as i32, signal) }, 0);
        let said = ended_soon(child);
        drop(input);
        said.has("", status).tells("hraskell: stopped");
        assert_eq!(names_in(&home), Vec::<String>::new());
    }
}

#[test]
fn what_was_there_before_stays_when_it_is_stopped() {
    let home = folder("signal-before");
    let before = file(&home, "log", "what was there before");
    let mut child = waiting(&home);
    let input = child.stdin.take();
    // SAFETY: the process is the one started above, and not waited for yet.
    assert_eq!(unsafe { kill(child.id() as i32, INTERRUPT) }, 0);
    ended_soon(child).has("", 130);
    drop(input);
    assert_eq!(
        std::fs::read_to_string(before).unwrap(),
        "what was there before"
    );
    assert_eq!(names_in(&home), ["log"]);
}

#[test]
fn a_signal_ends_it_while_it_judges() {
    let home = folder("signal-judging");
    let block = top().join("second/blocks/yosys-techmap-u8.aag");
    let block = block.to_str().unwrap();
    let undisturbed = asked(&["any", block, block], "").printed;
    for round in 0..8 {
        let mut command = program();
        let report = home.join("report.html");
        let command = command.arg("--report").arg(report).arg("any");
        // Thousands of times the same: it is not done before it is stopped.
        let child = started(command.args(std::iter::repeat_n(block, 5_000)));
        std::thread::sleep(Duration::from_millis(100 + 7 * round));
        // SAFETY: the process is the one started above, and not waited for yet.
        assert_eq!(unsafe { kill(child.id() as i32, INTERRUPT) }, 0);
        let began = Instant::now();
        let said = ended_soon(child);
        assert_eq!(said.status, 130);
        assert!(began.elapsed() < Duration::from_secs(5));
        assert_eq!(names_in(&home), Vec::<String>::new());
        // A search that was broken off must not be told as an answer.
        let right = |line: &str| undisturbed.lines().any(|other| other == line);
        assert!(said.printed.lines().all(right), "{}", said.printed);
    }
}

/// The program with a netlist on its standard input, and nobody left who reads what it prints.
fn unread(mut child: Child) -> Child {
    drop(child.stdout.take());
    let mut input = child.stdin.take().unwrap();
    input.write_all(AND.as_bytes()).unwrap();
    child
}

#[test]
fn a_reader_that_is_gone_ends_it_quietly() {
    let home = folder("pipe");
    ended(unread(waiting(&home))).has("", 4).tells_nothing();
    assert_eq!(names_in(&home), Vec::<String>::new());
    let child = started(program().args(["u", "-", "/no/such/file"]));
    ended(unread(child)).has("", 4);
}

#[test]
fn a_full_device_is_told_of() {
    let full = std::fs::OpenOptions::new()
        .write(true)
        .open("/dev/full")
        .unwrap();
    let block = top().join("examples/one-bit.aag");
    let held = starts();
    let mut command = program();
    let command = command.arg("u").arg(block).stdout(full);
    let output = command.output().unwrap();
    drop(held);
    assert_eq!(output.status.code(), Some(4));
    let told = String::from_utf8(output.stderr).unwrap();
    assert!(told.contains("cannot write to standard output"), "{told}");
}
