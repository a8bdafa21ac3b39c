//! The text of sheets whose types C++ can form compiles, with a small header in
//! front: of edition 1 as C++17, of edition 2 as C++20 and some as C++17 too. And
//! the compilers have the keywords that C++20 added.

use sheet::name::ADDED_KEYWORDS;
use sheet::{EDITIONS, Rng};
use std::fs;
use std::path::{Path, PathBuf};
use std::process::{Command, Stdio};
use std::thread;
use trials::compilers::{self, CXX, CXX_17, CXX_20, CXX_FLAGS, folder};
use trials::{compare, formed};

/// Sheets in a file. The first may use the root namespace, each other has a
/// namespace of its own.
const SHEETS: usize = 12;

#[test]
fn texts_compile() {
    texts(1, 4);
}

#[test]
#[ignore = "720 sheets"]
fn more_texts_compile() {
    texts(2, 30);
}

/// So many files of each edition; of edition 2 every fourth as C++17 too.
fn texts(seed: u64, files: usize) {
    let mut rng = Rng::new(seed);
    for number in 0..files {
        for edition in EDITIONS {
            let path = file(&mut rng, edition, &format!("texts-{seed}-{number}"));
            // g++ 12.2 warns that `constinit` is a keyword of the next standard.
            let standards: &[&[&str]] = match edition {
                1 => &[&[CXX_17, "-Wno-c++20-compat"]],
                _ if number % 4 == 0 => &[&[CXX_20], &[CXX_17]],
                _ => &[&[CXX_20]],
            };
            for standard in standards {
                compile(standard, &path);
            }
        }
    }
}

fn compile(standard: &[&str], path: &Path) {
    let compile = |compiler| {
        compilers::run(
            Command::new(compiler)
                .args(standard)
                .args(CXX_FLAGS)
                .args(["-fsyntax-only", "-I"])
                .arg(folder())
                .arg(path),
        );
    };
    thread::scope(|scope| {
        for compiler in CXX {
            scope.spawn(move || compile(compiler));
        }
    });
}

fn file(rng: &mut Rng, edition: u8, name: &str) -> PathBuf {
    let mut out = b"#include \"cxx.h\"\n".to_vec();
    for number in 0..SHEETS {
        let outer = format!("sheet_{number}");
        let sheet = formed::sheet(rng, edition, (number > 0).then_some(outer.as_str()));
        let order = compare::order(&sheet);
        out.extend(formed::declarations(&sheet, &order).into_bytes());
        out.extend(compare::text(&sheet));
        out.extend(formed::assertions(&sheet).into_bytes());
    }
    let path = Path::new(env!("CARGO_TARGET_TMPDIR")).join(format!("{name}-edition-{edition}.cc"));
    fs::write(&path, out).unwrap();
    path
}

/// Whether the compiler takes it for the name of a function, in either standard.
fn is_name(compiler: &str, word: &str) -> [bool; 2] {
    let path = Path::new(env!("CARGO_TARGET_TMPDIR")).join(format!("word-{compiler}-{word}.cc"));
    fs::write(&path, format!("void {word}();\n")).unwrap();
    [CXX_17, CXX_20].map(|standard| {
        let mut command = Command::new(compiler);
        command.args([standard, "-fsyntax-only"]).arg(&path);
        command.stderr(Stdio::null()).status().unwrap().success()
    })
}

#[test]
fn keywords_of_cxx20() {
    for compiler in CXX {
        for word in ADDED_KEYWORDS {
            assert_eq!(is_name(compiler, word), [true, false], "{compiler}: {word}");
        }
        for word in ["import", "module", "final", "override"] {
            assert_eq!(is_name(compiler, word), [true, true], "{compiler}: {word}");
        }
        for word in ["while", "and_eq"] {
            let found = is_name(compiler, word);
            assert_eq!(found, [false, false], "{compiler}: {word}");
        }
    }
}
