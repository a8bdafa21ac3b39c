//! `tools/install`: a C program that is built with what it installs gets the
//! answers that Rust gets.

use bridgetext::Refusal;
use sheet::{Rng, encode, generate};
use std::fmt::Write as _;
use std::fs;
use std::io::Write as _;
use std::path::{Path, PathBuf};
use std::process::{Command, Output, Stdio};
use trials::compilers::{self, folder};
use trials::sheets;

/// A folder that is not there.
fn place(name: &str) -> PathBuf {
    let place = Path::new(env!("CARGO_TARGET_TMPDIR")).join(name);
    if place.exists() {
        fs::remove_dir_all(&place).unwrap();
    }
    place
}

fn install(prefix: &Path, destdir: &Path) -> Output {
    let archive = Path::new(env!("BRIDGETEXT_ARCHIVE"));
    Command::new(concat!(env!("CARGO_MANIFEST_DIR"), "/../../tools/install"))
        .env("PREFIX", prefix)
        .env("DESTDIR", destdir)
        .env("BRIDGETEXT_LIB_DIR", archive.parent().unwrap())
        .output()
        .unwrap()
}

/// A field of a pkg-config file.
fn field(config: &str, name: &str) -> String {
    let mut value = String::new();
    // A variable stands behind those that it names.
    for line in config.lines().rev() {
        if let Some(rest) = line
            .strip_prefix(name)
            .and_then(|rest| rest.strip_prefix(": "))
        {
            value = rest.to_string();
        } else if let Some((variable, is)) = line.split_once('=') {
            value = value.replace(&format!("${{{variable}}}"), is);
        }
    }
    assert!(!value.is_empty() && !value.contains('$'), "{name}: {value}");
    value
}

#[test]
fn a_c_program_gets_the_same_answers() {
    let prefix = place("installed");
    let output = install(&prefix, Path::new(""));
    assert!(output.status.success(), "{output:?}");
    let config = fs::read_to_string(prefix.join("lib/pkgconfig/bridgetext.pc")).unwrap();
    assert_eq!(field(&config, "Version"), bridgetext::VERSION);

    let program = prefix.join("ask");
    compilers::run(
        Command::new("gcc")
            .args(["-std=c99", "-Wall", "-Wextra", "-Werror"])
            .args(field(&config, "Cflags").split(' '))
            .arg(folder().join("ask.c"))
            .args(field(&config, "Libs").split(' '))
            .arg("-o")
            .arg(&program),
    );

    let mut rng = Rng::new(7);
    let mut all = vec![Vec::new(), vec![0x10, 0, 0], vec![0; 32_769]];
    all.extend((0..30).map(|_| generate::any(&mut rng)));
    all.extend((0..10).map(|_| encode(&sheets::structs(&mut rng))));
    for sheet in all {
        for length in [0, 10, 65_536] {
            let mut child = Command::new(&program)
                .arg(length.to_string())
                .stdin(Stdio::piped())
                .stdout(Stdio::piped())
                .spawn()
                .unwrap();
            child.stdin.take().unwrap().write_all(&sheet).unwrap();
            let output = child.wait_with_output().unwrap();
            assert!(output.status.success());
            let printed = String::from_utf8(output.stdout).unwrap();
            assert_eq!(printed, answers(&sheet, length));
        }
    }
}

/// What `ask.c` must print.
fn answers(sheet: &[u8], length: usize) -> String {
    type Service = fn(&[u8], &mut [u8]) -> Result<usize, Refusal>;
    let services: [(&str, Service); 2] = [
        ("order", bridgetext::struct_order),
        ("write", bridgetext::write),
    ];
    let check = bridgetext::check(sheet).map(|()| 0);
    let mut lines = format!("check {} \n", number(check));
    for (word, service) in services {
        let mut buf = vec![b'Z'; length];
        let answer = service(sheet, &mut buf);
        let overrun = match answer {
            Err(Refusal::Overrun) => " overrun",
            _ => "",
        };
        write!(lines, "{word} {}{overrun} ", number(answer)).unwrap();
        for byte in buf {
            write!(lines, "{byte:02x}").unwrap();
        }
        lines.push('\n');
    }
    lines
}

fn number(answer: Result<usize, Refusal>) -> i64 {
    match answer {
        Ok(length) => length as i64,
        Err(refusal) => -i64::from(refusal.number()),
    }
}

/// The files lie below it, and name only the prefix.
#[test]
fn destdir() {
    let destdir = place("staged");
    let output = install(Path::new("/opt/mill"), &destdir);
    assert!(output.status.success(), "{output:?}");
    let installed = destdir.join("opt/mill");
    let config = fs::read_to_string(installed.join("lib/pkgconfig/bridgetext.pc")).unwrap();
    assert_eq!(field(&config, "Cflags"), "-I/opt/mill/include");
    assert_eq!(field(&config, "Libs"), "-L/opt/mill/lib -lbridgetext");
    let same = |one: PathBuf, two: &Path| assert!(fs::read(one).unwrap() == fs::read(two).unwrap());
    same(
        installed.join("lib/libbridgetext.a"),
        Path::new(env!("BRIDGETEXT_ARCHIVE")),
    );
    same(
        installed.join("include/bridgetext.h"),
        &compilers::include().join("bridgetext.h"),
    );
}

#[test]
fn a_prefix_is_an_absolute_path() {
    let output = install(Path::new("opt/mill"), &place("relative"));
    assert_eq!(output.status.code(), Some(2));
    assert!(output.stdout.is_empty());
    assert!(
        !Path::new(env!("CARGO_TARGET_TMPDIR"))
            .join("relative")
            .exists()
    );
}
