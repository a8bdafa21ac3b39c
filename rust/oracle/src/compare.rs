//! One sheet, judged from every side at hand.

use crate::{Facts, facts, struct_order, text};
use sheet::{Blame, Kind, RUST_STRING, Refusal, Sheet, Type};
use std::collections::HashSet;

/// What was found out about a sheet.
pub struct Outcome {
    /// The check's answer.
    pub answer: u8,
    /// Whether reserved identifiers are why, or keywords that C++20 added, or
    /// either or both; the crate, which knows of neither, is not asked then.
    pub reserved: Blame,
    pub keyword: Blame,
    pub orders: Blame,
    /// The crate's text and struct order, for an accepted sheet.
    pub text: Vec<u8>,
    pub order: Vec<u8>,
}

/// The check, the plain reader and the crate agree on these bytes; an error
/// says where they do not.
pub fn compare(bytes: &[u8]) -> Result<Outcome, String> {
    let answer = sheet::check(bytes);
    let plain = match sheet::read(bytes) {
        Ok(_) => 0,
        Err(refusal) => refusal.number(),
    };
    agree("check and plain reader", answer, plain)?;
    let mut outcome = Outcome {
        answer,
        reserved: Blame::reserved(bytes),
        keyword: Blame::keyword(bytes),
        orders: Blame::orders(bytes),
        text: Vec::new(),
        order: Vec::new(),
    };
    let Ok(sheet) = sheet::decode(bytes) else {
        return Ok(outcome);
    };
    if sheet::encode(&sheet) != bytes {
        return Err("the decoded value has other bytes".into());
    }
    if answer == Refusal::WrongPart.number() {
        return Ok(outcome);
    }
    let facts = facts(&sheet);
    if facts.indirect != indirect_arguments(&sheet) {
        return Err("needs_indirect_abi has other answers".into());
    }
    let by_facts = answer_by_facts(&sheet, &facts);
    agree("check and crate", answer, by_facts)?;
    if answer == 0 {
        outcome.text = text(&sheet);
        outcome.order = struct_order(&sheet);
        legal_order(&sheet, &outcome.order)?;
    }
    Ok(outcome)
}

fn agree(who: &str, one: u8, two: u8) -> Result<(), String> {
    if one == two {
        return Ok(());
    }
    Err(format!("{who} disagree: {one} and {two}"))
}

/// Document 01's rule for each argument, function by function.
fn indirect_arguments(sheet: &Sheet) -> Vec<bool> {
    let functions = sheet.items.iter().filter_map(|item| match &item.kind {
        Kind::Function(function) => Some(function),
        _ => None,
    });
    let args = functions.flat_map(|function| &function.args);
    args.map(|arg| sheet::indirect(sheet, &arg.ty)).collect()
}

/// Rules 10 to 12 once more, with the crate's symbols, its answers of
/// `needs_indirect_abi` and its search for cycles.
fn answer_by_facts(sheet: &Sheet, facts: &Facts) -> u8 {
    let mut full_names = HashSet::new();
    let mut symbols = HashSet::new();
    let mut taken = facts.symbols.iter().any(|symbol| !symbols.insert(symbol));
    let mut unfit = false;
    let mut indirect = facts.indirect.iter();
    for item in &sheet.items {
        let path: Vec<&[u8]> = item
            .namespace
            .iter()
            .map(|name| sheet.name(*name))
            .collect();
        taken |= path
            .first()
            .is_some_and(|first| [b"std".as_slice(), b"rust"].contains(first));
        let Kind::Function(function) = &item.kind else {
            let full_name = [path.join(b"::".as_slice()), sheet.name(item.name).to_vec()];
            taken |= !full_names.insert(full_name.join(b"::".as_slice()));
            continue;
        };
        let mut names = HashSet::new();
        for arg in &function.args {
            let name = sheet.name(arg.name);
            let held = *indirect.next().unwrap() && arg.ty != Type::Atom(RUST_STRING);
            taken |= !names.insert(name);
            unfit |= matches!(arg.ty, Type::CxxVector(_))
                || name == b"self" && function.form.is_method()
                || name == b"error" && function.throws && held;
        }
    }
    match (taken, unfit, facts.cyclic) {
        (true, _, _) => 10,
        (_, true, _) => 11,
        (_, _, true) => 12,
        _ => 0,
    }
}

/// Each struct once, and what it holds by name before it.
fn legal_order(sheet: &Sheet, order: &[u8]) -> Result<(), String> {
    let mut out = vec![false; sheet.items.len()];
    let is_struct = |index: u8| matches!(sheet.item(index).kind, Kind::Struct { .. });
    for number in order {
        if !is_struct(*number) || out[usize::from(*number)] {
            return Err(format!(
                "item {number} does not belong into the struct order"
            ));
        }
        if let Kind::Struct { fields, .. } = &sheet.item(*number).kind {
            for field in fields {
                if let Type::Named(held) = field
                    && is_struct(*held)
                    && !out[usize::from(*held)]
                {
                    return Err(format!(
                        "struct {number} comes before {held}, which it holds"
                    ));
                }
            }
        }
        out[usize::from(*number)] = true;
    }
    let structs = (0..sheet.items.len()).filter(|index| is_struct(*index as u8));
    if structs.count() != order.len() {
        return Err("a struct is missing from the order".into());
    }
    Ok(())
}
