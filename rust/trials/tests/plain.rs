//! Crate `plain` refuses what `sheet` refuses, and writes what the crate's own
//! source does.

use oracle::vectors::parse;
use sheet::{Refusal, Rng, desc, encode, generate};
use std::fs;
use std::path::Path;
use trials::sheets;

/// Both entry points refuse as `sheet` does and write one text, which is the
/// answer.
fn one(bytes: &[u8]) -> Result<Vec<u8>, u8> {
    let hex = || desc::hex(bytes);
    let text = plain::text(bytes);
    let refusal = sheet::check(bytes);
    match &text {
        Ok(text) => {
            assert_eq!(refusal, 0, "{}", hex());
            for length in [text.len(), text.len().saturating_sub(1)] {
                let wanted = match length {
                    length if length < text.len() => Err(13),
                    length => Ok(length),
                };
                for write in [plain::write, plain::write_without_rules] {
                    let mut buf = vec![0; length];
                    assert_eq!(write(bytes, &mut buf), wanted, "{}", hex());
                    assert!(wanted.is_err() || buf == *text, "{}", hex());
                }
            }
        }
        Err(number) => {
            assert_eq!(refusal, *number, "{}", hex());
            let mut buf = [0; 4_096];
            assert_eq!(plain::write(bytes, &mut buf), Err(refusal), "{}", hex());
            let answer = plain::write_without_rules(bytes, &mut buf);
            match sheet::decode(bytes) {
                Err(refusal) => assert_eq!(answer, Err(refusal.number()), "{}", hex()),
                Ok(_) => assert!(matches!(answer, Ok(_) | Err(13)), "{}", hex()),
            }
        }
    }
    text
}

/// The text is that of the crate's own source too.
fn one_of_the_crate(bytes: &[u8]) -> Result<Vec<u8>, u8> {
    let answer = one(bytes);
    if let Ok(text) = &answer {
        let wanted = oracle::text(&sheet::decode(bytes).unwrap());
        assert!(*text == wanted, "{}", desc::hex(bytes));
    }
    answer
}

#[test]
fn limits_and_signatures() {
    if oracle::skipped() {
        return;
    }
    let fixed = generate::boundaries().into_iter();
    for (_, sheet) in fixed.chain(generate::signatures()) {
        let _ = one_of_the_crate(&sheet);
    }
}

#[test]
fn generated_sheets() {
    if oracle::skipped() {
        return;
    }
    let mut rng = Rng::new(4);
    let mut accepted = 0;
    for _ in 0..10_000 {
        accepted += u32::from(one_of_the_crate(&generate::any(&mut rng)).is_ok());
    }
    assert!(accepted > 5_000, "{accepted}");
}

#[test]
fn sheets_that_are_timed() {
    if oracle::skipped() {
        return;
    }
    for sheet in [
        sheets::functions(8),
        sheets::functions(31),
        sheets::long_names(),
        sheets::deep_arguments(),
        sheets::throwing(),
    ] {
        assert!(one_of_the_crate(&encode(&sheet)).is_ok());
    }
}

#[test]
fn stored_list() {
    let path = Path::new(env!("CARGO_MANIFEST_DIR")).join("../../vectors/vectors.bin");
    for (number, record) in parse(&fs::read(path).unwrap()).unwrap().iter().enumerate() {
        let wanted = match record.answer {
            0 => Ok(record.text.clone()),
            refusal => Err(refusal),
        };
        assert!(one(&record.sheet) == wanted, "record {number}");
    }
}

#[test]
fn refusals() {
    let mut rng = Rng::new(10);
    for first in Refusal::ALL {
        for second in Refusal::ALL {
            for _ in 0..20 {
                let sheet = generate::faulty(&mut rng, &[first, second]);
                assert_eq!(one(&sheet), Err(sheet::check(&sheet)));
            }
        }
        for _ in 0..200 {
            let sheet = generate::faulty(&mut rng, &[first]);
            assert_eq!(one(&sheet), Err(first.number()));
        }
    }
    for _ in 0..5_000 {
        let _ = one(&generate::damaged(&mut rng));
    }
}

#[test]
fn up_to_two_bytes() {
    let _ = one(&[]);
    for number in 0..=u16::MAX {
        let [first, second] = number.to_be_bytes();
        let _ = one(&[second]);
        let _ = one(&[first, second]);
    }
}
