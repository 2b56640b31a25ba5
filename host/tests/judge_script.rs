//! The script `judge` at the top of the repository: it builds what is missing or old, and hands over.
//!
//! Scripts stand in for rt and cargo, so that nothing is proved or compiled.

mod calls;

use calls::*;
use std::path::Path;
use std::process::Command;

/// Calls the script of the repository with this program to hand over to.
fn handed_over(program: &Path, words: &[&str], input: &str) -> Said {
    let mut command = Command::new(top().join("judge"));
    let command = command.args(words).env("HRASKELL_PROGRAM", program);
    called(command.env_remove("HRASKELL_DESK"), input.as_bytes())
}

#[test]
fn all_words_and_streams_are_handed_over() {
    let home = folder("hands-over");
    let lines = r#"for word; do echo "<$word>"; done; cat; echo told >&2; exit 3"#;
    let program = script(home.join("program"), lines);
    let said = handed_over(
        &program,
        &["--explain", "u", "a b", "", "*", "--desk"],
        "input\n",
    );
    said.has("<--explain>\n<u>\n<a b>\n<>\n<*>\n<--desk>\ninput\n", 3);
    assert_eq!(said.told, "told\n");
    let real = Path::new(env!("CARGO_BIN_EXE_hraskell"));
    handed_over(real, &["--explain", "u", "-"], AND)
        .has("E 1 0\n", 0)
        .tells(": u (plain): ");
    let help = handed_over(real, &["--help"], "");
    assert!(help.status == 0 && help.printed.starts_with("usage: hraskell"));
}

#[test]
fn a_program_that_cannot_be_run_is_told_of() {
    for program in ["no such program", "/"] {
        handed_over(Path::new(program), &["u", "-"], AND)
            .has("", 4)
            .tells("judge: HRASKELL_PROGRAM names no program that can be run");
    }
}

#[test]
fn the_program_may_be_named_from_any_folder() {
    let home = folder("from-anywhere");
    script(home.join("program"), "echo \"$PWD\"");
    let mut command = Command::new(top().join("judge").canonicalize().unwrap());
    let command = command
        .current_dir(&home)
        .env("HRASKELL_PROGRAM", "program");
    called(command, b"").has(&format!("{}\n", home.display()), 0);
}

/// A repository of its own, whose `rt` and `cargo` make empty parts and note their calls.
fn repository(name: &str) -> Outside {
    let home = Outside::new(name);
    for path in [
        "crates/exports/src",
        "crates/desk/src",
        "crates/desk_main/src",
        "bin",
        "host/src",
        "host/library/src",
    ] {
        std::fs::create_dir_all(home.join(path)).unwrap();
    }
    let crates = "# a comment\nrules:\njudge: rules\nexports staticlib: rules judge\ndesk: rules judge\ndesk_main: desk io\n";
    for (path, content) in [
        ("crates.txt", crates),
        ("crates/exports/src/a_source", ""),
        ("host/src/main.rs", ""),
        ("host/library/src/lib.rs", ""),
        ("host/Cargo.toml", ""),
        ("host/Cargo.lock", ""),
    ] {
        std::fs::write(home.join(path), content).unwrap();
    }
    let held = starts();
    for copied in ["judge", "install", "host/building.sh"] {
        std::fs::copy(top().join(copied), home.join(copied)).unwrap();
    }
    drop(held);
    make_stand_ins(&home);
    link_tools(&home.join("bin"));
    home
}

/// What stands in for rt and cargo, and for uname. rt reads its input to the end, as a program may that it runs. Slow, it is in the
/// middle of judge for seven seconds.
fn make_stand_ins(home: &Path) {
    let rt = format!(
        "top='{}'\n\
         case $1 in version) echo a kit; exit ;; esac\n\
         echo \"rt $* in ${{PWD#$top/}}\" >>$top/calls; cat >/dev/null\n\
         mkdir -p out; echo 'rt: chose --jobs 2 for rules'; echo 'logic=proved functions=1'; echo 'rt: chose --jobs 2 for judge'\n\
         [ ! -f $top/slow ] || {{ sleep 7; rm -f $top/slow; }}\n\
         [ ! -f $top/broken ] || {{ echo 'logic=not-proved'; echo 'rt: the library judge did not build'; exit 1; }}\n\
         echo 'logic=proved functions=1'\n\
         case $* in\n\
         lib) echo >out/libexports.a ;;\n\
         run) printf '#!/bin/sh\\n' >out/desk_main; chmod +x out/desk_main ;;\n\
         esac",
        home.display()
    );
    script(home.join("bin/rt"), &rt);
    script(home.join("bin/uname"), "echo x86_64");
    let cargo = "echo \"cargo $*\" >>calls; [ -f \"$HRASKELL_LIB/libexports.a\" ] || exit 9\n\
         mkdir -p \"$CARGO_TARGET_DIR/release\"; cp made \"$CARGO_TARGET_DIR/release/hraskell\"";
    script(home.join("bin/cargo"), cargo);
    script(
        home.join("made"),
        "echo handed over \"$@\"; echo \"desk ${HRASKELL_DESK:-none}\"; exit 2",
    );
}

/// The shell, awk and what the script uses of coreutils: a machine may have no other tool.
fn link_tools(bin: &Path) {
    let tools = "bash sh awk cat chmod cp dirname env mkdir mktemp readlink rm sleep tail";
    let path = std::env::var_os("PATH").unwrap();
    for tool in tools.split(' ') {
        let found = std::env::split_paths(&path).map(|folder| folder.join(tool));
        let found = found.into_iter().find(|place| place.is_file()).expect(tool);
        std::os::unix::fs::symlink(found, bin.join(tool)).unwrap();
    }
}

/// A call of one of the scripts with `bin` alone on the PATH, and no part named.
fn in_repository(home: &Path, name: &str) -> Command {
    let mut command = Command::new(home.join(name));
    command.env("PATH", home.join("bin"));
    for variable in ["HRASKELL_DESK", "HRASKELL_LIB", "HRASKELL_PROGRAM"] {
        command.env_remove(variable);
    }
    command
}

/// Calls the script `judge`.
fn first_use(home: &Path, words: &[&str]) -> Said {
    called(in_repository(home, "judge").args(words), b"")
}

/// The calls noted since the last time.
fn calls_of(home: &Path) -> Vec<String> {
    let calls = std::fs::read_to_string(home.join("calls")).unwrap_or_default();
    let _ = std::fs::remove_file(home.join("calls"));
    calls.lines().map(String::from).collect()
}

const LIBRARY: &str = "rt lib in crates/exports";
const DESK: &str = "rt run in crates/desk_main";
const CARGO: &str = "cargo build --release --offline --manifest-path host/Cargo.toml";
const HANDED: &str = "handed over u -\ndesk none\n";

#[test]
fn it_builds_on_first_use_and_when_a_source_is_newer() {
    let home = repository("builds");
    std::fs::write(home.join("slow"), "").unwrap();
    let words = ["u", "-"];
    let said = first_use(&home, &words);
    said.has(HANDED, 2)
        .tells("judge: building the library (rt lib in crates/exports)")
        .tells(" s so far: 1 of 3 crates proved, now at judge\n")
        .tells("judge: building the program (cargo build)")
        .tells("built in ");
    assert!(said.told.lines().all(|line| line.starts_with("judge: ")));
    assert_eq!(calls_of(&home), [LIBRARY, CARGO]);
    first_use(&home, &words).has(HANDED, 2).tells_nothing();
    assert!(calls_of(&home).is_empty());
    touch(&home.join("host/src/main.rs"));
    first_use(&home, &words)
        .has(HANDED, 2)
        .tells("building the program");
    assert_eq!(calls_of(&home), [CARGO]);
    for source in ["crates/exports/src/a_source", "crates.txt"] {
        touch(&home.join(source));
        first_use(&home, &words)
            .has(HANDED, 2)
            .tells("building the library");
        assert_eq!(calls_of(&home), [LIBRARY, CARGO]);
    }
}

/// Changes a source, later than anything that was built.
fn touch(source: &Path) {
    std::thread::sleep(std::time::Duration::from_millis(20));
    std::fs::write(
        source,
        "# newer\nrules:\njudge: rules\nexports staticlib: rules judge\ndesk_main:\n",
    )
    .unwrap();
}

#[test]
fn it_builds_the_desk_program_where_that_is_asked() {
    let home = repository("builds-desk");
    let handed = format!(
        "handed over --desk u -\ndesk {}/crates/desk_main/out/desk_main\n",
        home.display()
    );
    let said = first_use(&home, &["--desk", "u", "-"]);
    said.has(&handed, 2)
        .tells("judge: building the desk program (rt run in crates/desk_main)");
    assert_eq!(calls_of(&home), [LIBRARY, CARGO, DESK]);
    first_use(&home, &["--desk", "u", "-"])
        .has(&handed, 2)
        .tells_nothing();
    // Behind -- it is the name of a file.
    let home = repository("builds-no-desk");
    first_use(&home, &["u", "--", "--desk"]).has("handed over u -- --desk\ndesk none\n", 2);
    assert_eq!(calls_of(&home), [LIBRARY, CARGO]);
}

#[test]
fn it_judges_nothing_when_the_build_fails() {
    let home = repository("broken");
    std::fs::write(home.join("broken"), "").unwrap();
    let words = ["u", "-"];
    let broken = first_use(&home, &words);
    broken
        .has("", 4)
        .tells("rt: the library judge did not build");
    broken.tells("judge: could not be built: 'rt lib' in crates/exports ended with status 1");
    std::fs::remove_file(home.join("broken")).unwrap();
    script(
        home.join("bin/cargo"),
        "echo 'error: no such crate' >&2; exit 101",
    );
    let broken = first_use(&home, &words);
    broken
        .has("", 4)
        .tells("error: no such crate")
        .tells("ended with status 101");
    std::fs::remove_file(home.join("bin/cargo")).unwrap();
    first_use(&home, &words)
        .has("", 4)
        .tells("cargo is not on the PATH");
    std::fs::remove_file(home.join("bin/rt")).unwrap();
    std::fs::remove_file(home.join("crates/exports/out/libexports.a")).unwrap();
    std::fs::remove_dir_all(home.join("target")).unwrap();
    first_use(&home, &words)
        .has("", 4)
        .tells("rt of the Rattle kit is not on the PATH");
}

#[test]
fn a_library_that_is_named_is_not_proved() {
    let home = repository("named-library");
    std::fs::create_dir(home.join("elsewhere")).unwrap();
    std::fs::write(home.join("elsewhere/libexports.a"), "").unwrap();
    std::fs::remove_file(home.join("bin/rt")).unwrap();
    let mut command = Command::new(home.join("judge"));
    let command = command.args(["u", "-"]).env("PATH", home.join("bin"));
    let command = command.env("HRASKELL_LIB", "elsewhere").current_dir(&*home);
    let command = command
        .env_remove("HRASKELL_DESK")
        .env_remove("HRASKELL_PROGRAM");
    called(command, b"").has(HANDED, 2);
    assert_eq!(calls_of(&home), [CARGO]);
}

#[test]
fn another_processor_is_told_of_where_rt_has_to_build() {
    let home = repository("another-processor");
    script(home.join("bin/uname"), "echo riscv64");
    let told = "the Rattle kit runs on x86-64 alone (this is riscv64)";
    first_use(&home, &["u", "-"]).has("", 4).tells(told);
    assert!(calls_of(&home).is_empty());
    let mut command = in_repository(&home, "install");
    called(command.arg(home.join("prefix")), b"")
        .has("", 4)
        .tells(told);
    assert!(!home.join("prefix").exists());
}

#[test]
fn a_build_leaves_the_input_to_the_program() {
    let home = repository("builds-with-input");
    script(home.join("made"), "cat");
    let mut command = in_repository(&home, "judge");
    called(command.args(["--desk", "u", "-"]), b"input\n").has("input\n", 0);
    assert_eq!(calls_of(&home), [LIBRARY, CARGO, DESK]);
}
