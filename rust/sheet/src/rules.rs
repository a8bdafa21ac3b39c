//! Refusals 9 to 12 on a decoded sheet, the lowest number first.

use crate::Refusal::{self, *};
use crate::value::*;
use std::collections::HashSet;

pub fn rules(sheet: &Sheet) -> Result<(), Refusal> {
    let broken = [
        (WrongPart, wrong_part as fn(&Sheet) -> bool),
        (Taken, taken),
        (UnfitArgument, unfit_argument),
        (Ring, ring),
    ];
    match broken.iter().find(|(_, is_broken)| is_broken(sheet)) {
        Some((refusal, _)) => Err(*refusal),
        None => Ok(()),
    }
}

/// `needs_indirect_abi`: a named type has it from its pointer bit.
pub fn indirect(sheet: &Sheet, ty: &Type) -> bool {
    match ty {
        Type::Atom(atom) => matches!(*atom, CXX_STRING | RUST_STRING),
        Type::Named(item) => match sheet.item(*item).kind {
            Kind::Struct { pointer, .. }
            | Kind::Enum { pointer, .. }
            | Kind::CxxType { pointer }
            | Kind::RustType { pointer } => pointer,
            Kind::Function(_) | Kind::Unknown(_) => false,
        },
        Type::RustVec(_)
        | Type::SharedPtr(_)
        | Type::WeakPtr(_)
        | Type::CxxVector(_)
        | Type::Array { .. } => true,
        Type::RustBox(_)
        | Type::UniquePtr(_)
        | Type::Ref { .. }
        | Type::Ptr { .. }
        | Type::Str
        | Type::Fn { .. }
        | Type::SliceRef { .. }
        | Type::Unknown(_) => false,
    }
}

fn functions(sheet: &Sheet) -> impl Iterator<Item = (&Item, &Function)> {
    sheet.items.iter().filter_map(|item| match &item.kind {
        Kind::Function(function) => Some((item, function)),
        _ => None,
    })
}

/// 9: an item index names a function.
fn wrong_part(sheet: &Sheet) -> bool {
    let mut wrong = false;
    let mut visit = |item: ItemIndex| wrong |= sheet.item(item).is_function();
    for item in &sheet.items {
        match &item.kind {
            Kind::Struct { fields, .. } => fields.iter().for_each(|ty| ty.each_item(&mut visit)),
            Kind::Function(function) => {
                function.form.self_item().into_iter().for_each(&mut visit);
                if let Some(ret) = &function.ret {
                    ret.each_item(&mut visit);
                }
                for arg in &function.args {
                    arg.ty.each_item(&mut visit);
                }
            }
            _ => {}
        }
    }
    wrong
}

/// 10: a name is taken. Names are compared by their characters.
fn taken(sheet: &Sheet) -> bool {
    let path = |item: &Item| -> Vec<&[u8]> {
        item.namespace
            .iter()
            .map(|index| sheet.name(*index))
            .collect()
    };
    let first_namespace_taken = sheet.items.iter().any(|item| {
        let first = item.namespace.first().map(|index| sheet.name(*index));
        matches!(first, Some(b"std" | b"rust"))
    });

    let mut full_names = HashSet::new();
    let two_types = sheet
        .items
        .iter()
        .any(|item| !item.is_function() && !full_names.insert((path(item), sheet.name(item.name))));

    // A name has no `$` and does not begin with a digit, so two symbols are
    // equal when their namespaces, self types' C++ names and Rust names are.
    let mut symbols = HashSet::new();
    let two_symbols = functions(sheet).any(|(item, function)| {
        let self_item = function.form.self_item();
        let self_name = self_item.map(|index| sheet.name(sheet.item(index).name));
        !symbols.insert((path(item), self_name, sheet.name(function.rust_name)))
    });

    let two_arguments = functions(sheet).any(|(_, function)| {
        let mut names = HashSet::new();
        function
            .args
            .iter()
            .any(|arg| !names.insert(sheet.name(arg.name)))
    });

    first_namespace_taken || two_types || two_symbols || two_arguments
}

/// 11: an argument does not fit.
fn unfit_argument(sheet: &Sheet) -> bool {
    functions(sheet).any(|(_, function)| {
        function.args.iter().any(|arg| {
            let vector = matches!(arg.ty, Type::CxxVector(_));
            let receiver = function.form.is_method() && sheet.name(arg.name) == b"self";
            let held_error = function.throws
                && sheet.name(arg.name) == b"error"
                && arg.ty != Type::Atom(RUST_STRING)
                && indirect(sheet, &arg.ty);
            vector || receiver || held_error
        })
    })
}

/// 12: a struct holds itself by named fields, over any number of structs.
fn ring(sheet: &Sheet) -> bool {
    let holds = |item: usize| -> Vec<usize> {
        match &sheet.items[item].kind {
            Kind::Struct { fields, .. } => fields
                .iter()
                .filter_map(|field| match field {
                    Type::Named(inner) => Some(usize::from(*inner)),
                    _ => None,
                })
                .collect(),
            _ => Vec::new(),
        }
    };
    // From each struct, everything it holds at any remove.
    (0..sheet.items.len()).any(|start| {
        let mut reached = vec![false; sheet.items.len()];
        let mut open = holds(start);
        while let Some(item) = open.pop() {
            if !std::mem::replace(&mut reached[item], true) {
                open.extend(holds(item));
            }
        }
        reached[start]
    })
}
