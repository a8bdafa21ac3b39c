//! Real compilers, for tests that need one.

use std::path::Path;
use std::process::Command;

/// The flags for the text of a sheet, but for the standard. A symbol has `$` in
/// it.
pub const CXX_FLAGS: [&str; 4] = [
    "-Wall",
    "-Wextra",
    "-Werror",
    "-Wno-dollar-in-identifier-extension",
];

pub const CXX_17: &str = "-std=c++17";
pub const CXX_20: &str = "-std=c++20";

/// The flag for the standard of an edition.
pub fn standard(edition: u8) -> &'static str {
    match edition {
        1 => CXX_17,
        2 => CXX_20,
        _ => panic!("no edition {edition}"),
    }
}

/// The compilers of C++ that every text goes through.
pub const CXX: [&str; 2] = ["g++", "clang++"];

/// Runs a compiler; to be missing, or to say anything against a file, is a
/// failure.
pub fn run(command: &mut Command) {
    let output = command
        .output()
        .unwrap_or_else(|error| panic!("{command:?}: {error}"));
    assert!(
        output.status.success(),
        "{command:?}\n{}",
        String::from_utf8_lossy(&output.stderr)
    );
}

/// The folder `cxx/`: headers and programs for the tests.
pub fn folder() -> &'static Path {
    Path::new(concat!(env!("CARGO_MANIFEST_DIR"), "/cxx"))
}

/// The folder of `bridgetext.h`.
pub fn include() -> &'static Path {
    Path::new(concat!(env!("CARGO_MANIFEST_DIR"), "/../../include"))
}
