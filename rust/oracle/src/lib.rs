//! The crate as judge: cxx-build 1.0.205's own source, compiled unchanged, says
//! for an accepted sheet what its text and its struct order are.
//!
//! `build.rs` looks for the source in the folder `CXX_BUILD_SRC`, else in
//! `../shared/docs/src` beside the repository. Without it everything builds,
//! [`HAVE_SOURCE`] is false, and asking the oracle panics; but with `CI=true`,
//! or where the folder is there and lacks a file, nothing builds.

use std::env;
use std::fs::File;
use std::io::{self, Write};
use std::panic::Location;
use std::thread;

#[cfg(cxx_build_source)]
include!(concat!(env!("OUT_DIR"), "/cxx-build.rs"));

#[cfg(cxx_build_source)]
mod judge;

#[cfg(not(cxx_build_source))]
mod absent;
#[cfg(not(cxx_build_source))]
use absent as judge;

pub mod compare;
pub mod vectors;

pub use judge::{Facts, facts, struct_order, text, with_sort};

/// The crate's version.
pub const VERSION: &str = env!("CARGO_PKG_VERSION");

/// Whether the crate's source was found.
pub const HAVE_SOURCE: bool = cfg!(cxx_build_source);

const ABSENT: &str = "no cxx-build source (set CXX_BUILD_SRC)";

/// For tests: whether there is no source to compare with. What is skipped is
/// said aloud, past the capture of a test's output, and goes into the file
/// `SKIPPED_LOG`, if there is such a variable. With `CI=true` it is a failure.
#[track_caller]
pub fn skipped() -> bool {
    if HAVE_SOURCE {
        return false;
    }
    let (caller, thread) = (Location::caller(), thread::current());
    let (file, line) = (caller.file(), caller.line());
    let test = thread.name().unwrap_or("?");
    let line = format!("skipped: {file}:{line}: {test}: {ABSENT}\n");
    let ci = env::var_os("CI").is_some_and(|value| value == "true");
    assert!(!ci, "{line}");
    let _ = io::stderr().write_all(line.as_bytes());
    if let Some(path) = env::var_os("SKIPPED_LOG") {
        let mut log = File::options()
            .append(true)
            .create(true)
            .open(path)
            .unwrap();
        log.write_all(line.as_bytes()).unwrap();
    }
    true
}
