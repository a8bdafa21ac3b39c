//! The stored list: sheets with their answers, for replay without Rust.
//!
//! The file is a row of records, numbers with the high byte first:
//! sheet length (4 bytes), sheet, answer of a check (1 byte), text length
//! (4 bytes), text, order length (1 byte), order. A refused sheet has an empty
//! text and an empty order.

use crate::compare::{Outcome, compare};
use sheet::generate::{boundaries, damaged, faulty, good, graph, signatures};
use sheet::{Refusal, Rng, encode};

/// The seed of the stored file.
pub const SEED: u64 = 205;

/// Sheets at the limits that would make the file much longer.
const TOO_LONG: [&str; 4] = [
    "amplified",
    "32,768 bytes and one more",
    "32,768 bytes of edition 0",
    "32,769 bytes of edition 0",
];

pub struct Record {
    pub sheet: Vec<u8>,
    pub answer: u8,
    pub text: Vec<u8>,
    pub order: Vec<u8>,
}

/// The whole file; an error is a sheet on which the judges disagree.
pub fn make(seed: u64) -> Result<Vec<u8>, String> {
    let mut file = Vec::new();
    let mut rng = Rng::new(seed);
    let mut fixed = boundaries();
    fixed.retain(|(label, _)| !TOO_LONG.contains(&label.as_str()));
    for (label, sheet) in fixed.into_iter().chain(signatures()) {
        push(&mut file, &sheet).map_err(|error| format!("{label}: {error}"))?;
    }
    for refusal in Refusal::ALL {
        for _ in 0..24 {
            small(&mut file, || faulty(&mut rng, &[refusal]))?;
        }
    }
    for one in Refusal::ALL {
        for two in Refusal::ALL {
            for _ in 0..2 {
                small(&mut file, || faulty(&mut rng, &[one, two]))?;
            }
        }
    }
    for _ in 0..120 {
        small(&mut file, || damaged(&mut rng))?;
    }
    for _ in 0..40 {
        small(&mut file, || encode(&graph(&mut rng)))?;
    }
    for _ in 0..100 {
        small(&mut file, || encode(&good(&mut rng)))?;
    }
    Ok(file)
}

/// Appends the first sheet that is small and has a small text.
fn small(file: &mut Vec<u8>, mut sheet: impl FnMut() -> Vec<u8>) -> Result<(), String> {
    loop {
        let sheet = sheet();
        if sheet.len() <= 600 && compare(&sheet)?.text.len() <= 2_000 {
            return push(file, &sheet);
        }
    }
}

fn push(file: &mut Vec<u8>, sheet: &[u8]) -> Result<(), String> {
    let Outcome {
        answer,
        text,
        order,
        ..
    } = compare(sheet)?;
    file.extend((sheet.len() as u32).to_be_bytes());
    file.extend(sheet);
    file.push(answer);
    file.extend((text.len() as u32).to_be_bytes());
    file.extend(text);
    file.push(order.len() as u8);
    file.extend(order);
    Ok(())
}

/// The records of a file; `None` if it ends within one.
pub fn parse(file: &[u8]) -> Option<Vec<Record>> {
    let mut rest = file;
    let mut records = Vec::new();
    while !rest.is_empty() {
        let len = u32::from_be_bytes(rest.split_off(..4)?.try_into().ok()?);
        let sheet = rest.split_off(..len as usize)?.to_vec();
        let answer = *rest.split_off_first()?;
        let len = u32::from_be_bytes(rest.split_off(..4)?.try_into().ok()?);
        let text = rest.split_off(..len as usize)?.to_vec();
        let len = *rest.split_off_first()?;
        let order = rest.split_off(..usize::from(len))?.to_vec();
        records.push(Record {
            sheet,
            answer,
            text,
            order,
        });
    }
    Some(records)
}
