//! `bridgetext-cli`: what it writes, and its exit codes.

use bridgetext::Refusal;
use sheet::{desc, encode, with_edition};
use std::fs::{self, File};
use std::io::Write;
use std::path::{Path, PathBuf};
use std::process::{Command, Stdio};

/// Exit code, standard output, standard error.
type Outcome = (i32, Vec<u8>, String);

fn command(args: &[&str]) -> Command {
    let mut command = Command::new(env!("CARGO_BIN_EXE_bridgetext-cli"));
    command
        .args(args)
        .stdin(Stdio::null())
        .stdout(Stdio::piped())
        .stderr(Stdio::piped());
    command
}

fn outcome(command: &mut Command, input: &[u8]) -> Outcome {
    let mut child = command.spawn().unwrap();
    if let Some(mut stdin) = child.stdin.take() {
        // It need not read to the end of what is too long.
        let _ = stdin.write_all(input);
    }
    let output = child.wait_with_output().unwrap();
    let stderr = String::from_utf8(output.stderr).unwrap();
    (output.status.code().unwrap(), output.stdout, stderr)
}

fn ask(args: &[&str], sheet: &[u8]) -> Outcome {
    outcome(command(args).stdin(Stdio::piped()), sheet)
}

fn example(name: &str) -> PathBuf {
    Path::new(env!("CARGO_MANIFEST_DIR"))
        .join("../../vectors/examples")
        .join(name)
}

fn done(output: &[u8]) -> Outcome {
    (0, output.to_vec(), String::new())
}

#[test]
fn the_text() {
    let path = example("mill.sheet");
    let sheet = fs::read(&path).unwrap();
    let text = fs::read(example("mill.text")).unwrap();
    for args in [&[][..], &["-"], &["write"], &["write", "-"]] {
        assert_eq!(ask(args, &sheet), done(&text), "{args:?}");
    }
    let path = path.to_str().unwrap();
    for args in [&[path][..], &["write", path]] {
        assert_eq!(ask(args, b""), done(&text), "{args:?}");
    }
}

#[test]
fn check_and_order() {
    let path = example("structs.sheet");
    let sheet = fs::read(&path).unwrap();
    assert_eq!(ask(&["check"], &sheet), done(b"accepted\n"));
    assert_eq!(ask(&["order"], &sheet), done(b"2\n1\n3\n0\n"));
    let path = path.to_str().unwrap();
    assert_eq!(ask(&["check", path], b""), done(b"accepted\n"));
    assert_eq!(ask(&["order", path], b""), done(b"2\n1\n3\n0\n"));
}

/// The other edition has the same answers.
#[test]
fn edition_2() {
    let sheet = with_edition(&fs::read(example("structs.sheet")).unwrap(), 2);
    let text = fs::read(example("structs.text")).unwrap();
    assert_eq!(ask(&[], &sheet), done(&text));
    assert_eq!(ask(&["check"], &sheet), done(b"accepted\n"));
    assert_eq!(ask(&["order"], &sheet), done(b"2\n1\n3\n0\n"));
    assert_eq!(ask(&[], &[0x20, 0, 0]), done(b""));
}

/// Longer than the first buffers.
#[test]
fn a_long_text() {
    let functions = (0..255).map(|number| {
        let args: Vec<String> = (0..31).map(|arg| format!("a{arg}: Vec<String>")).collect();
        format!("fn f{number}({})\n", args.join(", "))
    });
    let sheet = encode(&desc::parse(&functions.collect::<String>()).unwrap());
    let mut buf = vec![0; 4 << 20];
    assert_eq!(
        bridgetext::write(&sheet, &mut buf[..524_288]),
        Err(Refusal::Overrun)
    );
    let length = bridgetext::write(&sheet, &mut buf).unwrap();
    let (code, text, error) = ask(&[], &sheet);
    assert_eq!((code, error.as_str()), (0, ""));
    assert!(text == buf[..length]);
}

#[test]
fn refusals() {
    for (sheet, error) in [
        (vec![], Refusal::CutSheet),
        (vec![0x10], Refusal::CutSheet),
        (vec![0; 32_769], Refusal::CutSheet),
        (vec![0; 4 << 20], Refusal::CutSheet),
        (vec![0x20], Refusal::CutSheet),
        (vec![0x00, 0, 0], Refusal::Edition),
        (vec![0x30, 0, 0], Refusal::Edition),
        (vec![0x10, 0, 0, 0], Refusal::Tail),
    ] {
        for args in [&[][..], &["check"], &["order"]] {
            let wanted = (1, Vec::new(), format!("{error}\n"));
            assert_eq!(ask(args, &sheet), wanted, "{args:?}");
        }
    }
    for bad_name in [
        "fn class()",
        "fn _Tool()",
        "names a__b",
        "edition 2\nfn concept()",
    ] {
        let sheet = encode(&desc::parse(bad_name).unwrap());
        let said = "refused 3, bad name: breaks the name rule, as keywords (of C++17 in edition \
                    1, of C++20 in edition 2) and reserved identifiers (`a__b`, `_Tool`) do\n";
        assert_eq!(ask(&[], &sheet), (1, Vec::new(), said.to_string()));
    }
}

fn failed(outcome: Outcome, said: &str) {
    let (code, output, error) = outcome;
    assert_eq!((code, output), (2, Vec::new()), "{error}");
    assert!(error.starts_with(said), "{error}");
}

#[test]
fn wrong_use() {
    for args in [
        &["--order"][..],
        &["-x"],
        &["check", "order", "x"],
        &["a", "b"],
        &["--help", "x"],
    ] {
        failed(ask(args, &[0x10, 0, 0]), "usage: bridgetext-cli ");
    }
}

#[test]
fn input_and_output_errors() {
    failed(
        ask(&["no such file"], b""),
        "bridgetext-cli: no such file: ",
    );
    failed(ask(&["check", "/"], b""), "bridgetext-cli: /: ");
    let directory = File::open("/").unwrap();
    failed(
        outcome(command(&["check"]).stdin(directory), b""),
        "bridgetext-cli: standard input: ",
    );
    let full = File::options().write(true).open("/dev/full").unwrap();
    let mill = example("mill.sheet");
    let args = [mill.to_str().unwrap()];
    failed(
        outcome(command(&args).stdout(full), b""),
        "bridgetext-cli: standard output: ",
    );
}

/// The exit code tells a refusal even where standard error cannot.
#[test]
fn no_standard_error() {
    let full = File::options().write(true).open("/dev/full").unwrap();
    assert_eq!(outcome(command(&[]).stderr(full), b"").0, 1);
}

#[test]
fn help_and_version() {
    let (code, output, error) = ask(&["--help"], b"");
    assert_eq!((code, error.as_str()), (0, ""));
    assert!(output.starts_with(b"usage: bridgetext-cli "));
    let version = format!("bridgetext-cli {}\n", bridgetext::VERSION);
    assert_eq!(ask(&["--version"], b""), done(version.as_bytes()));
}
