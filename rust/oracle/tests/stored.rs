//! What is stored in `vectors/` is what the commands make.

use oracle::vectors::{SEED, make, parse};
use sheet::name::ADDED_KEYWORDS;
use sheet::{EDITIONS, check, decode_base, desc, encode, read};
use std::fs;
use std::path::{Path, PathBuf};

fn vectors() -> PathBuf {
    Path::new(env!("CARGO_MANIFEST_DIR")).join("../../vectors")
}

#[test]
fn the_stored_file_is_what_make_vectors_makes() {
    if oracle::skipped() {
        return;
    }
    let stored = fs::read(vectors().join("vectors.bin")).unwrap();
    assert!(
        make(SEED).unwrap() == stored,
        "make vectors/vectors.bin again"
    );
}

#[test]
fn the_stored_file_covers_every_answer() {
    let stored = fs::read(vectors().join("vectors.bin")).unwrap();
    // Small enough to be kept. It was below 600,000 before there were two
    // editions; sheets of both take the rest.
    assert!(stored.len() < 620_000);
    let mut answers = [0; 13];
    for record in parse(&stored).unwrap() {
        assert_eq!(check(&record.sheet), record.answer);
        let plain = read(&record.sheet)
            .err()
            .map_or(0, |refusal| refusal.number());
        assert_eq!(plain, record.answer);
        if record.answer != 0 {
            assert!(record.text.is_empty() && record.order.is_empty());
        }
        answers[usize::from(record.answer)] += 1;
    }
    assert!(answers.iter().all(|count| *count >= 20), "{answers:?}");
}

/// Every edition, and each keyword that C++20 added in both that are accepted.
#[test]
fn the_stored_file_has_editions() {
    let stored = fs::read(vectors().join("vectors.bin")).unwrap();
    let mut answers = [[0; 13]; 16];
    let mut keywords = Vec::new();
    for record in parse(&stored).unwrap() {
        let Some(first) = record.sheet.first() else {
            continue;
        };
        answers[usize::from(first >> 4)][usize::from(record.answer)] += 1;
        if let Ok(sheet) = decode_base(&record.sheet)
            && let [name] = &sheet.names[..]
            && ADDED_KEYWORDS.iter().any(|word| word.as_bytes() == name)
        {
            let wanted = if sheet.edition == 1 { 0 } else { 3 };
            assert_eq!(record.answer, wanted);
            keywords.push((sheet.edition, name.clone()));
        }
    }
    for (edition, answers) in (0..).zip(answers) {
        if EDITIONS.contains(&edition) {
            assert!(answers[0] > 50 && answers[2] == 0, "{edition}");
        } else {
            // Only excess length comes first.
            let [accepted, cut, edition, rest @ ..] = answers;
            assert!(edition > 2 && accepted == 0 && cut < 3 && rest == [0; 10]);
        }
    }
    for edition in EDITIONS {
        for word in ADDED_KEYWORDS {
            assert!(keywords.contains(&(edition, word.into())), "{word}");
        }
    }
}

#[test]
fn the_examples_are_what_the_crate_writes() {
    let skipped = oracle::skipped();
    for name in [
        "mill",
        "header",
        "doxygen1",
        "doxygen2",
        "method",
        "reopen",
        "structs",
        "underscores",
    ] {
        let read = |end: &str| {
            let path = vectors().join("examples").join(format!("{name}.{end}"));
            fs::read_to_string(path).unwrap()
        };
        let sheet = desc::parse(&read("desc")).unwrap();
        let bytes = encode(&sheet);
        assert_eq!(check(&bytes), 0);
        assert_eq!(desc::unhex(&read("sheet.hex")).unwrap(), bytes, "{name}");
        assert_eq!(read("sheet.hex"), desc::hex(&bytes), "{name}");
        if !skipped {
            assert_eq!(oracle::text(&sheet), read("text").into_bytes(), "{name}");
        }
    }
}
