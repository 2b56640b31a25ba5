//! The script `install`, with parts that are built already, and a C program that builds with what it leaves.

mod calls;

use calls::*;
use std::path::{Path, PathBuf};
use std::process::Command;

/// The folder of the archive that this program was linked with: as host/library/build.rs finds it.
fn library() -> PathBuf {
    let named = std::env::var_os("HRASKELL_LIB").unwrap_or("../../crates/exports/out".into());
    Path::new(env!("CARGO_MANIFEST_DIR"))
        .join("library")
        .join(named)
}

/// Calls the script with parts that are there, so that nothing is proved.
fn installed(desk: &Path, words: &[&str]) -> Said {
    let mut command = Command::new(top().join("install"));
    command
        .args(words)
        .env("HRASKELL_LIB", library())
        .env("HRASKELL_DESK", desk);
    command.env("HRASKELL_PROGRAM", env!("CARGO_BIN_EXE_hraskell"));
    called(&mut command, b"")
}

/// The words that a C compiler needs, by pkg-config or, where that is missing, from the file that it would read.
fn flags(prefix: &Path) -> Vec<String> {
    let folder = prefix.join("lib/pkgconfig");
    let mut command = Command::new("pkg-config");
    command
        .args(["--cflags", "--libs", "hraskell"])
        .env("PKG_CONFIG_PATH", &folder);
    let text = match command.output() {
        Ok(output) => {
            assert!(output.status.success(), "{output:?}");
            String::from_utf8(output.stdout).unwrap()
        }
        Err(_) => {
            eprintln!("there is no pkg-config here: its file is read by hand");
            flags_by_hand(&std::fs::read_to_string(folder.join("hraskell.pc")).unwrap())
        }
    };
    text.split_whitespace().map(String::from).collect()
}

/// The values of Cflags and Libs, with the variables put in.
fn flags_by_hand(text: &str) -> String {
    let mut flags: String = text
        .lines()
        .filter_map(|line| line.strip_prefix("Cflags:").or(line.strip_prefix("Libs:")))
        .collect();
    // A variable may have one in its value that was set before it.
    for (name, value) in text.lines().rev().filter_map(|line| line.split_once('=')) {
        flags = flags.replace(&format!("${{{name}}}"), value);
    }
    flags
}

/// Reads a netlist from standard input and prints its counts.
const PROGRAM: &str = r#"#include <hraskell.h>
#include <stdio.h>
int main(void)
{
    static uint8_t text[65536];
    static uint32_t table[HRASKELL_TABLE_WORDS_MOST], counts[HRASKELL_COUNT_WORDS];
    size_t bytes = fread(text, 1, sizeof text, stdin);
    uint32_t number = hraskell_read(text, bytes, table, HRASKELL_TABLE_WORDS_MOST, counts, HRASKELL_COUNT_WORDS);
    printf("%u: %u %u %u %u %u\n", number, counts[0], counts[1], counts[2], counts[3], counts[4]);
    return 0;
}
"#;

#[test]
fn a_c_program_builds_with_what_is_installed() {
    let home = folder("install");
    let prefix = home.join("prefix");
    let desk = script(home.join("desk"), "echo E 7 0");
    let said = installed(&desk, &[prefix.to_str().unwrap()]);
    said.has("", 0).tells("install: installed in ");
    let mut files = Vec::new();
    for place in ["bin", "lib", "lib/pkgconfig", "include", "share/man/man1"] {
        let names = names_in(&prefix.join(place));
        files.extend(names.into_iter().map(|name| format!("{place}/{name}")));
    }
    let wanted = [
        "bin/hraskell",
        "bin/hraskell-desk",
        "lib/libhraskell.a",
        "lib/pkgconfig",
        "lib/pkgconfig/hraskell.pc",
        "include/hraskell.h",
        "share/man/man1/hraskell.1",
    ];
    assert_eq!(files, wanted);
    let source = file(&home, "program.c", PROGRAM);
    let made = home.join("program");
    let mut gcc = Command::new("gcc");
    gcc.arg(&source).arg("-o").arg(&made).args(flags(&prefix));
    called(&mut gcc, b"").has("", 0);
    called(&mut Command::new(&made), AND.as_bytes()).has("0: 3 2 0 2 1\n", 0);
    called(&mut Command::new(&made), b"aag").has("101: 0 0 0 0 0\n", 0);
}

#[test]
fn the_installed_program_asks_the_installed_desk() {
    let home = folder("install-desk");
    let desk = script(home.join("desk"), "echo E 7 0");
    installed(&desk, &[home.join("prefix").to_str().unwrap()]).has("", 0);
    let mut command = Command::new(home.join("prefix/bin/hraskell"));
    command.env_remove("HRASKELL_DESK");
    called(command.args(["u", "-"]), AND.as_bytes()).has("E 1 0\n", 0);
    called(command.arg("--desk"), AND.as_bytes()).has("E 7 0\n", 0);
    // Once more, over what is there.
    installed(&desk, &[home.join("prefix").to_str().unwrap()]).has("", 0);
}

#[test]
fn the_flags_read_by_hand_are_those_of_pkg_config() {
    let text = "prefix=/a/b\nincludedir=${prefix}/include\nlibdir=${prefix}/lib\n\nName: x\nCflags: -I${includedir}\nLibs: -L${libdir} -lx\n";
    assert_eq!(flags_by_hand(text), " -I/a/b/include -L/a/b/lib -lx");
}

#[test]
fn misuse_installs_nothing() {
    let home = folder("install-misuse");
    let desk = script(home.join("desk"), "");
    for words in [&[][..], &["a", "b"], &["--help"], &[""]] {
        installed(&desk, words)
            .has("", 4)
            .tells("install: one folder is wanted");
    }
    let blank = home.join("a b");
    installed(&desk, &[blank.to_str().unwrap()])
        .has("", 4)
        .tells("no white space");
    installed(&desk, &["/proc/nowhere"])
        .has("", 4)
        .tells("name a folder that may be written");
    let block = file(&home, "block.aag", AND);
    installed(&desk, &[&block])
        .has("", 4)
        .tells("name a folder that may be written");
    let prefix = home.join("prefix");
    installed(Path::new("no such desk"), &[prefix.to_str().unwrap()])
        .has("", 4)
        .tells("there is no no such desk");
    assert_eq!(names_in(&home), ["block.aag", "desk"]);
}
