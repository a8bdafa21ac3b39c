//! nested.rs: items grouped by namespace, level by level.

use crate::flat::{Item, Sheet};

pub struct NamespaceEntries<'s> {
    pub direct: Vec<&'s Item>,
    pub nested: Vec<(&'s [u8], NamespaceEntries<'s>)>,
}

impl<'s> NamespaceEntries<'s> {
    pub fn new(sheet: &'s Sheet, items: Vec<&'s Item>) -> Self {
        sort_by_inner_namespace(sheet, items, 0)
    }
}

fn sort_by_inner_namespace<'s>(
    sheet: &'s Sheet,
    items: Vec<&'s Item>,
    depth: usize,
) -> NamespaceEntries<'s> {
    let mut direct = Vec::new();
    let mut nested: Vec<(&[u8], Vec<&Item>)> = Vec::new();
    for item in items {
        let Some(name) = sheet.namespace(item).get(depth) else {
            direct.push(item);
            continue;
        };
        let name = sheet.name(*name);
        match nested.iter_mut().find(|(other, _)| *other == name) {
            Some((_, items)) => items.push(item),
            None => nested.push((name, vec![item])),
        }
    }
    let nested = nested
        .into_iter()
        .map(|(name, items)| (name, sort_by_inner_namespace(sheet, items, depth + 1)))
        .collect();
    NamespaceEntries { direct, nested }
}
