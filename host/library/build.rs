//! Links the static library of the proved program.

use std::env;
use std::path::{Path, PathBuf};

/// The folder of the archive, seen from this package, where HRASKELL_LIB does not name another.
const BUILT_HERE: &str = "../../crates/exports/out";

fn main() {
    println!("cargo::rerun-if-env-changed=HRASKELL_LIB");
    let package = env::var_os("CARGO_MANIFEST_DIR").expect("cargo names the package's folder");
    let named = env::var_os("HRASKELL_LIB").unwrap_or(BUILT_HERE.into());
    // A relative folder is taken from this package, wherever cargo was called from.
    let folder: PathBuf = Path::new(&package).join(named);
    let archive = folder.join("libexports.a");
    // A new archive has to be linked anew.
    println!("cargo::rerun-if-changed={}", archive.display());
    if !archive.is_file() {
        let path = archive.display();
        println!("cargo::error=there is no static library to link: {path} is missing");
        println!(
            "cargo::error=build it with `rt lib` in crates/exports, or name its folder in HRASKELL_LIB"
        );
        return;
    }
    println!("cargo::rustc-link-search=native={}", folder.display());
    println!("cargo::rustc-link-lib=static=exports");
}
