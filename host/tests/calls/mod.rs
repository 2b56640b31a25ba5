//! Calls of the program and of the scripts, and the netlists that they are given.
//!
//! A file of tests uses some of this.
#![allow(dead_code)]

use second::desk::{answer_line, refusal_line, TABLE_WORDS};
use second::{orders, reading, Records, Step};
use std::ffi::OsStr;
use std::io::Write;
use std::os::unix::fs::PermissionsExt;
use std::os::unix::process::CommandExt;
use std::path::{Path, PathBuf};
use std::process::{Child, Command, Stdio};
use std::sync::{Mutex, MutexGuard, PoisonError};

/// Held while a program is written and while one is started: a child that still has the file open for writing, by its
/// parent's fork, would make the program busy.
static STARTS: Mutex<()> = Mutex::new(());

/// One bit: right under u and under s.
pub const AND: &str = "aag 3 2 0 2 1\n2\n4\n6\n0\n6 4 2\n";

/// One bit that adds c: inputs a, b, c_0, c_1; 10 is ab, 16 its sum with c_0, 12 the carry, 22 the sum of that with c_1.
/// Of one bit, 0 and -1 have the products of 0 and 1, so it is right under m and under ms.
pub const ADD: &str =
    "aag 11 4 0 2 7\n2\n4\n6\n8\n16\n22\n10 4 2\n12 10 6\n14 11 7\n16 15 13\n18 12 8\n\
                   20 13 9\n22 21 19\n";

/// A netlist with `inputs` inputs and outputs, no gate, all outputs false.
pub fn without_gates(inputs: usize) -> String {
    let lines: String = (1..=inputs).map(|k| format!("{}\n", 2 * k)).collect();
    format!("aag {inputs} {inputs} 0 {inputs} 0\n{lines}") + &"0\n".repeat(inputs)
}

/// Five bits, truncated: output 0 is true when all ten inputs are false. In falling order step k leaves 15 products and 2^k
/// terms; the ninth and last would leave all 1,024 sets of inputs, less a few.
pub fn all_false() -> String {
    let inputs: String = (1..=10).map(|k| format!("{}\n", 2 * k)).collect();
    let gates: String = (2..=9)
        .map(|k| format!("{} {} {}\n", 20 + 2 * k, 18 + 2 * k, 2 * k + 3))
        .collect();
    format!("aag 19 10 0 5 9\n{inputs}38\n0\n0\n0\n0\n22 5 3\n{gates}")
}

/// The line that the second program gives for a text; without an order in falling order.
pub fn line_by_second(letters: &str, limit: u64, text: &[u8], order: Option<&[u32]>) -> String {
    let reading = reading::Reading::of_name(letters.as_bytes()).unwrap();
    let mut table = vec![0; TABLE_WORDS];
    let counts = match second::read(text, &mut table) {
        Ok(counts) => counts,
        Err(number) => return refusal_line(number),
    };
    let falling = orders::falling(counts);
    let order = order.unwrap_or(&falling);
    let words = limit.min(16_384) as usize * counts.term_words();
    let answer = second::judge(
        counts,
        &table,
        Records::Gates,
        reading.kind(),
        limit,
        order,
        &mut vec![0; words],
        &mut vec![0; 4 * words],
        &mut vec![Step::default(); order.len()],
        &mut vec![0; counts.m as usize + 1],
    );
    answer_line(reading, &answer)
}

/// What a call left.
#[derive(Debug)]
pub struct Said {
    pub printed: String,
    pub told: String,
    pub status: i32,
}

impl Said {
    pub fn has(&self, printed: &str, status: i32) -> &Said {
        assert_eq!(
            (&*self.printed, self.status),
            (printed, status),
            "{}",
            self.told
        );
        self
    }

    pub fn tells(&self, part: &str) -> &Said {
        assert!(self.told.contains(part), "{part:?} not in {:?}", self.told);
        self
    }

    pub fn tells_nothing(&self) -> &Said {
        assert_eq!(self.told, "");
        self
    }
}

pub fn top() -> PathBuf {
    Path::new(env!("CARGO_MANIFEST_DIR")).join("..")
}

pub fn example(name: &str) -> String {
    std::fs::read_to_string(top().join("examples").join(name)).unwrap()
}

/// A folder for one test in the one that cargo keeps for tests, empty.
pub fn folder(name: &str) -> PathBuf {
    let path = Path::new(env!("CARGO_TARGET_TMPDIR")).join(name);
    let _ = std::fs::remove_dir_all(&path);
    std::fs::create_dir_all(&path).unwrap();
    path
}

/// A folder for one test outside the repository, empty, and gone with this value. rt wants no link in the whole tree, and no second
/// crates.txt.
pub struct Outside(PathBuf);

impl Outside {
    pub fn new(name: &str) -> Outside {
        let name = format!("hraskell-{name}-{}", std::process::id());
        let path = std::env::temp_dir().canonicalize().unwrap().join(name);
        let _ = std::fs::remove_dir_all(&path);
        std::fs::create_dir_all(&path).unwrap();
        Outside(path)
    }
}

impl std::ops::Deref for Outside {
    type Target = Path;

    fn deref(&self) -> &Path {
        &self.0
    }
}

impl Drop for Outside {
    fn drop(&mut self) {
        let _ = std::fs::remove_dir_all(&self.0);
    }
}

/// The names in a folder, sorted.
pub fn names_in(folder: &Path) -> Vec<String> {
    let entries = std::fs::read_dir(folder).unwrap();
    let name = |entry: std::io::Result<std::fs::DirEntry>| entry.unwrap().file_name();
    let mut names: Vec<String> = entries.map(|e| name(e).into_string().unwrap()).collect();
    names.sort();
    names
}

/// A file in a folder.
pub fn file(folder: &Path, name: &str, content: impl AsRef<[u8]>) -> String {
    let path = folder.join(name);
    std::fs::write(&path, content).unwrap();
    path.into_os_string().into_string().unwrap()
}

/// A test that failed while it held the lock leaves nothing half done.
pub fn starts() -> MutexGuard<'static, ()> {
    STARTS.lock().unwrap_or_else(PoisonError::into_inner)
}

/// A shell script that can be run.
pub fn script(path: PathBuf, lines: &str) -> PathBuf {
    let _held = starts();
    std::fs::write(&path, format!("#!/bin/sh\n{lines}\n")).unwrap();
    std::fs::set_permissions(&path, PermissionsExt::from_mode(0o755)).unwrap();
    path
}

/// A command under way, with pipes for all three streams.
pub fn started(command: &mut Command) -> Child {
    let command = command.stdin(Stdio::piped());
    let command = command.stdout(Stdio::piped()).stderr(Stdio::piped());
    let _held = starts();
    command.spawn().unwrap()
}

pub fn called(command: &mut Command, input: &[u8]) -> Said {
    let mut child = started(command);
    // Misuse is told before the input is read.
    let _ = child.stdin.take().unwrap().write_all(input);
    ended(child)
}

pub fn ended(child: Child) -> Said {
    let output = child.wait_with_output().unwrap();
    Said {
        printed: String::from_utf8(output.stdout).unwrap(),
        told: String::from_utf8(output.stderr).unwrap(),
        status: output.status.code().expect("an exit status and no signal"),
    }
}

extern "C" {
    fn signal(number: i32, handler: usize) -> usize;
}

/// The program, with none of its variables set. The signals that end it have their usual effect, though whoever runs the tests may
/// have them ignored: a shell does so for what it runs in the background.
pub fn program() -> Command {
    const USUAL: usize = 0;
    let mut command = Command::new(env!("CARGO_BIN_EXE_hraskell"));
    command.env_remove("HRASKELL_DESK");
    // SAFETY: between fork and exec nothing is called but `signal`, which may be.
    unsafe {
        command.pre_exec(|| {
            for number in [1, 2, 15] {
                signal(number, USUAL);
            }
            Ok(())
        });
    }
    command
}

/// What a call left that has to end soon. One that does not is ended, so that no test waits for ever.
pub fn ended_soon(mut child: Child) -> Said {
    let began = std::time::Instant::now();
    while child.try_wait().expect("a child of this process").is_none() {
        if began.elapsed() > std::time::Duration::from_secs(60) {
            let _ = child.kill();
            panic!("the program did not end");
        }
        std::thread::sleep(std::time::Duration::from_millis(5));
    }
    ended(child)
}

/// A call of the program.
pub fn asked<W: AsRef<OsStr>>(words: &[W], input: impl AsRef<[u8]>) -> Said {
    called(program().args(words), input.as_ref())
}
