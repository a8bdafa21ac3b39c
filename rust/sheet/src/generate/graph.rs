//! Structs that hold one another: chains, diamonds, stars and rings.

use super::edition;
use crate::{Item, ItemIndex, Kind, NameIndex, Rng, Sheet, Type};

/// A sheet of structs; one shape in four is a ring, which a check refuses.
pub fn graph(rng: &mut Rng) -> Sheet {
    let count = match rng.below(12) {
        0 => 255,
        1 => rng.between(20, 60),
        _ => rng.between(1, 12),
    };
    let mut edges: Vec<(usize, usize)> = match rng.below(8) {
        // A chain.
        0 => (1..count).map(|i| (i - 1, i)).collect(),
        // Diamonds one behind the other.
        1 => (0..count)
            .flat_map(|i| [(i, i + 1), (i, i + 2)])
            .filter(|(_, held)| *held < count)
            .collect(),
        // A star, seen from its centre or from its points.
        2 => (1..count.min(60)).map(|i| (0, i)).collect(),
        3 => (1..count).map(|i| (i, 0)).collect(),
        // A ring, alone or with a chain before it.
        4 => (0..count).map(|i| (i, (i + 1) % count)).collect(),
        5 => {
            let back = rng.below(count);
            let chain = (1..count).map(|i| (i - 1, i));
            chain.chain([(count - 1, back)]).collect()
        }
        // Anything that goes upwards.
        _ => (0..count * 2)
            .map(|_| (rng.below(count), rng.below(count)))
            .filter(|(holder, held)| holder < held)
            .collect(),
    };
    // The sheet's order of the structs and of their fields is any order.
    let place = shuffled(rng, count);
    let order = shuffled(rng, edges.len());
    edges = order.into_iter().map(|i| edges[i]).collect();

    let mut sheet = Sheet::empty();
    sheet.edition = edition(rng);
    sheet.names = (0..count).map(|i| format!("S{i}").into_bytes()).collect();
    sheet.names.push(b"n".to_vec());
    sheet.items = (0..count)
        .map(|i| Item {
            namespace: if rng.one_in(3) {
                vec![count as NameIndex]
            } else {
                Vec::new()
            },
            name: i as NameIndex,
            kind: Kind::Struct {
                pointer: rng.bit(),
                fields: Vec::new(),
            },
        })
        .collect();
    for (holder, held) in edges {
        let Kind::Struct { fields, .. } = &mut sheet.items[place[holder]].kind else {
            unreachable!("only structs here");
        };
        // Behind a box, an array or any other type nothing is held by name.
        if fields.len() < 60 {
            if rng.one_in(8) {
                let inner = Box::new(Type::Named(place[holder] as ItemIndex));
                fields.push(if rng.bit() {
                    Type::RustBox(inner)
                } else {
                    Type::Array { inner, len: 2 }
                });
            }
            if rng.one_in(4) {
                fields.push(Type::Atom(rng.below(16) as u8));
            }
            fields.push(Type::Named(place[held] as ItemIndex));
        }
    }
    sheet
}

fn shuffled(rng: &mut Rng, count: usize) -> Vec<usize> {
    let mut order: Vec<usize> = (0..count).collect();
    for i in (1..count).rev() {
        order.swap(i, rng.below(i + 1));
    }
    order
}
