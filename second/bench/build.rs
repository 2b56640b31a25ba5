//! Compiles the C programs that the proved program is timed against.

use std::env;
use std::path::{Path, PathBuf};
use std::process::Command;

fn main() {
    println!("cargo::rerun-if-changed=build.rs");
    let package = PathBuf::from(variable("CARGO_MANIFEST_DIR"));
    link_c(&package.join("c"), &["hash_judge", "try_pairs"]);
}

fn variable(name: &str) -> String {
    env::var(name).expect("cargo sets it for a build script")
}

fn link_c(folder: &Path, names: &[&str]) {
    let built = PathBuf::from(variable("OUT_DIR"));
    let archive = built.join("libplain.a");
    // ar would keep what an earlier build put in.
    let _ = std::fs::remove_file(&archive);
    for name in names {
        let source = folder.join(name).with_extension("c");
        let object = built.join(name).with_extension("o");
        println!("cargo::rerun-if-changed={}", source.display());
        let flags = ["-std=c99", "-O2", "-Wall", "-Wextra", "-Werror", "-c"];
        must_run(
            Command::new("gcc")
                .args(flags)
                .arg(&source)
                .arg("-o")
                .arg(&object),
        );
        must_run(Command::new("ar").arg("rcs").arg(&archive).arg(&object));
    }
    println!("cargo::rustc-link-search=native={}", built.display());
    println!("cargo::rustc-link-lib=static=plain");
}

fn must_run(command: &mut Command) {
    match command.status() {
        Ok(status) if status.success() => {}
        Ok(status) => println!("cargo::error={command:?}: {status}"),
        Err(error) => println!("cargo::error={command:?}: {error}"),
    }
}
