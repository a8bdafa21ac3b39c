//! Every entry of the stored list, and the stored sheet that is timed.

use oracle::vectors::{Record, parse};
use sheet::encode;
use std::fs;
use std::path::Path;
use trials::{compare, sheets};

fn records() -> Vec<Record> {
    let path = Path::new(env!("CARGO_MANIFEST_DIR")).join("../../vectors/vectors.bin");
    let records = parse(&fs::read(path).unwrap()).unwrap();
    assert!(records.len() > 1_000, "{}", records.len());
    records
}

#[test]
fn stored_answers_and_orders() {
    let mut overruns = 0;
    for (number, record) in records().iter().enumerate() {
        let answer = bridgetext::check(&record.sheet).err();
        let answer = answer.map_or(0, |refusal| refusal.number());
        assert_eq!(answer, record.answer, "record {number}");
        let order = match record.answer {
            0 => Ok(record.order.clone()),
            refusal => Err(refusal),
        };
        let lengths = compare::lengths(&order, 65_536);
        match compare::struct_order(&record.sheet, &order, &lengths) {
            Ok(count) => overruns += count,
            Err(error) => panic!("record {number}: {error}"),
        }
    }
    assert!(overruns > 100, "{overruns}");
}

#[test]
fn stored_texts() {
    let mut overruns = 0;
    for (number, record) in records().iter().enumerate() {
        let text = match record.answer {
            0 => Ok(record.text.clone()),
            refusal => Err(refusal),
        };
        let lengths = compare::lengths(&text, 65_536);
        match compare::write(&record.sheet, &text, &lengths) {
            Ok(count) => overruns += count,
            Err(error) => panic!("record {number}: {error}"),
        }
    }
    assert!(overruns > 1_000, "{overruns}");
}

#[test]
fn stored_functions() {
    let sheet = sheets::functions(8);
    assert_eq!(sheets::STORED_FUNCTIONS.len(), 8_705);
    assert_eq!(sheets::STORED_FUNCTIONS, encode(&sheet));
    let text = bridgetext::text(sheets::STORED_FUNCTIONS).unwrap();
    assert_eq!(text.len(), 232_078);
    assert!(plain::text(sheets::STORED_FUNCTIONS).as_ref() == Ok(&text));
    if !oracle::skipped() {
        assert!(oracle::text(&sheet) == text);
    }
}
