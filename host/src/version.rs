//! Which program and library answered.

/// The program's version and, where the build was told, what it was built from: the revision of the repository and the kit
/// that proved the library.
pub fn version() -> String {
    let version = env!("CARGO_PKG_VERSION");
    match option_env!("HRASKELL_BUILT_FROM") {
        Some(from) if !from.is_empty() => format!("{version} ({from})"),
        _ => version.into(),
    }
}
