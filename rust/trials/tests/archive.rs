//! What the header says of threads and re-entrancy: the archive has nothing that
//! can be written to and names nothing but `memcpy` and `memset`; and calls that
//! overlap do not disturb each other.

use std::collections::BTreeSet;
use std::path::Path;
use std::process::Command;
use trials::compilers::{self, folder, include};

const ARCHIVE: &str = env!("BRIDGETEXT_ARCHIVE");

fn output(program: &str, arg: &str) -> String {
    let output = Command::new(program).args([arg, ARCHIVE]).output().unwrap();
    assert!(output.status.success(), "{program} {arg}");
    String::from_utf8(output.stdout).unwrap()
}

#[test]
fn it_has_no_state_and_no_heap() {
    // Columns: text, data, bss, ...; the first line is their heads.
    let sizes = output("size", "--format=berkeley");
    for line in sizes.lines().skip(1) {
        let sizes: Vec<&str> = line.split_whitespace().collect();
        assert_eq!(sizes[1..3], ["0", "0"], "{line}");
    }
    let names = output("nm", "--undefined-only");
    let names = names
        .lines()
        .filter_map(|line| line.trim().strip_prefix("U "));
    let names: BTreeSet<&str> = names.collect();
    assert_eq!(names, BTreeSet::from(["memcpy", "memset"]));
}

/// Threads, and signal handlers within the calls of threads.
#[test]
fn calls_may_overlap() {
    let program = Path::new(env!("CARGO_TARGET_TMPDIR")).join("overlap");
    compilers::run(
        Command::new("gcc")
            .args([
                "-std=c99", "-Wall", "-Wextra", "-Werror", "-O2", "-pthread", "-I",
            ])
            .arg(include())
            .arg(folder().join("overlap.c"))
            .arg(ARCHIVE)
            .arg("-o")
            .arg(&program),
    );
    let sheet = concat!(
        env!("CARGO_MANIFEST_DIR"),
        "/../../vectors/examples/mill.sheet"
    );
    let output = Command::new(&program).arg(sheet).output().unwrap();
    assert!(output.status.success(), "{output:?}");
}
