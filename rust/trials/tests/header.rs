//! `include/bridgetext.h`: it compiles as C99, C++17 and C++20, and its refusals
//! and versions are those of `bridgetext`.

use bridgetext::Refusal;
use std::fs;
use std::process::Command;
use trials::compilers::{self, folder, include};

fn header() -> String {
    fs::read_to_string(include().join("bridgetext.h")).unwrap()
}

#[test]
fn it_compiles() {
    for (compiler, standard, language) in [
        ("gcc", "-std=c99", "c"),
        ("g++", "-std=c++17", "c++"),
        ("g++", "-std=c++20", "c++"),
        ("clang", "-std=c99", "c"),
        ("clang++", "-std=c++17", "c++"),
        ("clang++", "-std=c++20", "c++"),
    ] {
        compilers::run(
            Command::new(compiler)
                .args([standard, "-Wall", "-Wextra", "-Werror", "-pedantic"])
                .args(["-fsyntax-only", "-x", language, "-I"])
                .arg(include())
                .arg(folder().join("ask.c")),
        );
    }
}

/// Each with its number, and its condition as the comment before it.
#[test]
fn refusals() {
    let header = header();
    let (_, rest) = header.split_once("enum bridgetext_refusal {").unwrap();
    let (body, _) = rest.split_once("};").unwrap();
    let words = body.split_whitespace().filter(|word| *word != "*");
    let body = words.collect::<Vec<_>>().join(" ");
    let wanted = Refusal::ALL.map(|refusal| {
        let mut name = String::new();
        for c in format!("{refusal:?}").chars() {
            if c.is_uppercase() {
                name.push('_');
            }
            name.push(c.to_ascii_uppercase());
        }
        let condition = refusal.condition();
        format!("/* {condition} */ BRIDGETEXT{name} = {}", refusal.number())
    });
    assert_eq!(body, wanted.join(", "));
}

#[test]
fn versions() {
    let header = header();
    let defined = |name: &str| {
        let mut values = header.lines().filter_map(|line| {
            let line = line.strip_prefix("#define ")?;
            line.strip_prefix(name)?.strip_prefix(' ')
        });
        values.next().unwrap().to_string()
    };
    let version = bridgetext::VERSION;
    assert_eq!(defined("BRIDGETEXT_VERSION"), format!("{version:?}"));
    let parts =
        ["MAJOR", "MINOR", "PATCH"].map(|part| defined(&format!("BRIDGETEXT_VERSION_{part}")));
    assert_eq!(parts.join("."), version);
    let of_crate = defined("BRIDGETEXT_CXX_BUILD_VERSION");
    assert_eq!(of_crate, format!("{:?}", oracle::VERSION));
}
