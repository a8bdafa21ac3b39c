//! Sheets for the trials: many structs or functions from a seed, and fixed
//! large ones.

use sheet::{
    Arg, Form, Function, Item, ItemIndex, Kind, NameIndex, Rng, Sheet, Type, encode, generate,
    limit,
};

/// Any sheet for the write service; one in 2,000 is full of functions.
pub fn texts(rng: &mut Rng) -> Vec<u8> {
    if rng.one_in(2_000) {
        encode(&many_functions(rng))
    } else {
        generate::any(rng)
    }
}

/// 255 functions, or a few types and functions of every form.
pub fn many_functions(rng: &mut Rng) -> Sheet {
    let mut sheet = Sheet::empty();
    sheet.edition = generate::edition(rng);
    sheet.header = rng.one_in(4);
    sheet.doxygen = rng.bit();
    let words = (0..limit::ITEMS + limit::ARGUMENTS).map(|i| format!("f{i}").into_bytes());
    sheet.names = words.collect();
    let types: Vec<ItemIndex> = (0..rng.below(2) * rng.between(1, 6))
        .map(|i| i as ItemIndex)
        .collect();
    for i in 0..limit::ITEMS {
        let kind = match types.get(i) {
            Some(_) => a_type(rng),
            None => Kind::Function(a_function(rng, i, &types)),
        };
        let depth = rng.below(3);
        sheet.items.push(Item {
            namespace: (0..depth).map(|_| rng.below(2) as NameIndex).collect(),
            name: i as NameIndex,
            kind,
        });
    }
    sheet
}

fn a_type(rng: &mut Rng) -> Kind {
    let pointer = rng.bit();
    match rng.below(3) {
        0 => struct_of(Vec::new()),
        1 => Kind::CxxType { pointer },
        _ => Kind::RustType { pointer },
    }
}

fn a_function(rng: &mut Rng, number: usize, types: &[ItemIndex]) -> Function {
    let form = match (rng.below(4), types) {
        (0, _) | (_, []) => Form::Free,
        (1, types) => Form::ConstMethod(*rng.pick(types)),
        (2, types) => Form::MutMethod(*rng.pick(types)),
        (_, types) => Form::Associated(*rng.pick(types)),
    };
    let arguments = match rng.below(16) {
        0 => limit::ARGUMENTS,
        _ => rng.below(5),
    };
    let args = (0..arguments).map(|i| Arg {
        name: (number + i) as NameIndex,
        ty: match a_signature_type(rng, types) {
            Type::CxxVector(inner) => Type::RustVec(inner),
            ty => ty,
        },
    });
    let args = args.collect();
    Function {
        rust_name: number as NameIndex,
        form,
        throws: rng.one_in(3),
        ret: rng.bit().then(|| a_signature_type(rng, types)),
        args,
        comment: vec![b" line".to_vec(); rng.below(3)],
    }
}

fn a_signature_type(rng: &mut Rng, types: &[ItemIndex]) -> Type {
    let depth = match rng.below(100) {
        0 => rng.between(4, limit::TYPE_DEPTH),
        1..=10 => 3,
        11..=40 => 2,
        _ => 1,
    };
    generate::type_of_depth(rng, types, depth)
}

/// A sheet of structs that hold one another, among other items: chains,
/// diamonds, stars, forests, many fields; one in twelve may have a ring.
pub fn structs(rng: &mut Rng) -> Sheet {
    let (count, others) = match rng.below(60) {
        0 => (limit::ITEMS, 0),
        1 => (rng.between(100, 200), rng.below(50)),
        2..=9 => (rng.between(16, 60), rng.below(20)),
        _ => (rng.between(1, 15), rng.below(6)),
    };
    let mut held: Vec<Vec<usize>> = vec![Vec::new(); count];
    match rng.below(8) {
        // A chain, and diamonds one behind the other.
        0 => (1..count).for_each(|i| held[i - 1].push(i)),
        1 => (0..count).for_each(|i| held[i].extend([i + 1, i + 2].iter().filter(|j| **j < count))),
        // A star, seen from its centre or from its points.
        2 => held[0].extend(1..count.min(limit::FIELDS)),
        3 => (1..count).for_each(|i| held[i - 1].push(count - 1)),
        // A forest: each is held by at most one that comes before it.
        4 => {
            for i in 1..count {
                if !rng.one_in(5) {
                    held[rng.below(i)].push(i);
                }
            }
        }
        // Anything that goes upwards, with few fields, with any number of them,
        // and with as many as there can be.
        shape => {
            for (i, held) in held.iter_mut().enumerate().take(count - 1) {
                let fields = match shape {
                    5 => rng.below(5),
                    6 => rng.below(limit::FIELDS + 1),
                    _ => limit::FIELDS,
                };
                held.extend((0..fields).map(|_| rng.between(i + 1, count - 1)));
            }
        }
    }
    if rng.one_in(12) {
        let low = rng.below(count);
        held[rng.between(low, count - 1)].push(low);
    }

    let place = shuffled(rng, count + others);
    let named = |item: usize| Type::Named(place[item] as ItemIndex);
    let mut sheet = Sheet::empty();
    sheet.edition = generate::edition(rng);
    let words = (0..count + others).map(|i| format!("S{i}").into_bytes());
    sheet.names = words.collect();
    let mut items = vec![None; count + others];
    for i in 0..count + others {
        let kind = match held.get(i) {
            Some(held) => {
                let mut fields = Vec::new();
                for other in held {
                    // Behind a box or an array nothing is held by name.
                    match rng.below(16) {
                        0 => fields.push(Type::RustBox(Box::new(named(rng.below(count))))),
                        1 => fields.push(array(named(rng.below(count)))),
                        2 => fields.push(Type::Atom(rng.below(16) as u8)),
                        _ => {}
                    }
                    fields.push(named(*other));
                }
                fields.truncate(limit::FIELDS);
                struct_of(fields)
            }
            None => other(rng, i as NameIndex),
        };
        let namespace = if rng.one_in(3) { vec![0] } else { Vec::new() };
        items[place[i]] = Some(Item {
            namespace,
            name: i as NameIndex,
            kind,
        });
    }
    sheet.items = items.into_iter().flatten().collect();
    sheet
}

fn other(rng: &mut Rng, name: NameIndex) -> Kind {
    let pointer = rng.bit();
    match rng.below(4) {
        0 => Kind::Enum {
            pointer,
            atom: 2,
            cxx: rng.bit(),
        },
        1 => Kind::CxxType { pointer },
        2 => Kind::RustType { pointer },
        _ => function(name, Vec::new()),
    }
}

fn array(inner: Type) -> Type {
    Type::Array {
        inner: Box::new(inner),
        len: 2,
    }
}

fn struct_of(fields: Vec<Type>) -> Kind {
    Kind::Struct {
        pointer: true,
        fields,
    }
}

fn function(rust_name: NameIndex, args: Vec<Arg>) -> Kind {
    Kind::Function(Function {
        rust_name,
        form: Form::Free,
        throws: false,
        ret: Some(Type::Atom(4)),
        args,
        comment: Vec::new(),
    })
}

fn shuffled(rng: &mut Rng, count: usize) -> Vec<usize> {
    let mut order: Vec<usize> = (0..count).collect();
    for i in (1..count).rev() {
        order.swap(i, rng.below(i + 1));
    }
    order
}

/// A sheet at the limits, by its label in `sheet`.
pub fn boundary(label: &str) -> Vec<u8> {
    let mut all = generate::boundaries().into_iter();
    all.find(|(other, _)| other == label).unwrap().1
}

/// So many names of 20 characters, nearly all in use: types, of the 1,023 names
/// 255, each in three namespaces of its own.
pub fn many_names(count: usize) -> Sheet {
    let mut sheet = Sheet::empty();
    let words = (0..count).map(|i| format!("part_no_of_mill_{i:04}").into_bytes());
    sheet.names = words.collect();
    let items = (0..(count / 4).min(limit::ITEMS) as NameIndex).map(|i| Item {
        namespace: vec![4 * i, 4 * i + 1, 4 * i + 2],
        name: 4 * i + 3,
        kind: Kind::CxxType { pointer: true },
    });
    sheet.items = items.collect();
    sheet
}

/// The 1,023 as names of 8 small letters and underscores. Neither its length nor
/// an end of it tells that such a name is no keyword.
pub fn word_names() -> Sheet {
    let mut sheet = many_names(limit::NAMES);
    for (number, name) in (0..).zip(&mut sheet.names) {
        let digits = [number / 676, number / 26 % 26, number % 26].map(|digit| b'a' + digit as u8);
        *name = [&b"mill_"[..], &digits].concat();
    }
    sheet
}

/// The bytes of `functions(8)`, kept so that what is timed stays the same.
pub const STORED_FUNCTIONS: &[u8] = include_bytes!("../../../vectors/bench/functions-8.sheet");

/// 255 functions with this many arguments.
pub fn functions(arguments: usize) -> Sheet {
    let types = signature_types().into_iter().cycle();
    all_functions(&types.take(arguments).collect::<Vec<_>>())
}

/// `functions(8)` with names of 63 characters, in seven namespaces.
pub fn long_names() -> Sheet {
    let mut sheet = functions(8);
    let namespace: Vec<NameIndex> = (limit::ITEMS..limit::ITEMS + limit::NAMESPACES)
        .map(|i| i as NameIndex)
        .collect();
    let words = (0..limit::ITEMS + limit::NAMESPACES).map(|i| format!("spindle_{i:055}"));
    sheet.names = words.map(String::into_bytes).collect();
    for item in &mut sheet.items {
        item.namespace = namespace.clone();
    }
    sheet
}

/// 255 functions with eight arguments, whose types have depth 8.
pub fn deep_arguments() -> Sheet {
    let wrappers: [fn(Box<Type>) -> Type; limit::TYPE_DEPTH - 1] = [
        Type::RustVec,
        Type::RustBox,
        Type::UniquePtr,
        |inner| Type::Ref {
            mutable: false,
            inner,
        },
        Type::SharedPtr,
        Type::WeakPtr,
        |inner| Type::SliceRef {
            mutable: true,
            inner,
        },
    ];
    let deep = |argument| {
        let wrappers = wrappers.iter().cycle().skip(argument);
        let wrappers = wrappers.take(limit::TYPE_DEPTH - 1);
        wrappers.fold(Type::Atom(4), |inner, wrapper| wrapper(Box::new(inner)))
    };
    all_functions(&(0..8).map(deep).collect::<Vec<_>>())
}

/// `functions(8)` where all throw, and return types of all sorts by a slot.
pub fn throwing() -> Sheet {
    let mut sheet = functions(8);
    let returns = signature_types().into_iter().cycle();
    for (item, ret) in sheet.items.iter_mut().zip(returns) {
        if let Kind::Function(function) = &mut item.kind {
            function.throws = true;
            function.ret = Some(ret);
        }
    }
    sheet
}

fn signature_types() -> [Type; 8] {
    let inner = |atom| Box::new(Type::Atom(atom));
    [
        Type::Atom(4),
        Type::Str,
        Type::Ref {
            mutable: false,
            inner: inner(14),
        },
        Type::RustVec(inner(5)),
        Type::SliceRef {
            mutable: true,
            inner: inner(2),
        },
        Type::RustBox(inner(15)),
        Type::UniquePtr(inner(14)),
        Type::Atom(15),
    ]
}

/// 255 functions with arguments of these types.
fn all_functions(types: &[Type]) -> Sheet {
    let mut sheet = Sheet::empty();
    let words = (0..limit::ITEMS).map(|i| format!("spindle_{i:03}").into_bytes());
    sheet.names = words.collect();
    let items = (0..limit::ITEMS).map(|i| {
        let args = types.iter().enumerate().map(|(number, ty)| Arg {
            name: ((i + number) % limit::ITEMS) as NameIndex,
            ty: ty.clone(),
        });
        Item {
            namespace: Vec::new(),
            name: i as NameIndex,
            kind: function(i as NameIndex, args.collect()),
        }
    });
    sheet.items = items.collect();
    sheet
}

/// 255 structs; `held` says which ones a struct holds.
fn all_structs(held: impl Fn(usize) -> Vec<usize>) -> Sheet {
    let mut sheet = Sheet::empty();
    let words = (0..limit::ITEMS).map(|i| format!("block_{i:03}").into_bytes());
    sheet.names = words.collect();
    let items = (0..limit::ITEMS).map(|i| Item {
        namespace: Vec::new(),
        name: i as NameIndex,
        kind: struct_of(
            held(i)
                .into_iter()
                .map(|j| Type::Named(j as ItemIndex))
                .collect(),
        ),
    });
    sheet.items = items.collect();
    sheet
}

/// 255 structs, each holding the next: the deepest walk.
pub fn chain() -> Sheet {
    all_structs(|i| (i + 1..limit::ITEMS).take(1).collect())
}

/// 255 structs, each holding the one before: no walk goes deeper than one step.
pub fn chain_backwards() -> Sheet {
    all_structs(|i| (0..i).rev().take(1).collect())
}

/// 255 structs, each holding the next two.
pub fn diamonds() -> Sheet {
    all_structs(|i| (i + 1..limit::ITEMS).take(2).collect())
}

/// 255 structs that hold none.
pub fn apart() -> Sheet {
    all_structs(|_| Vec::new())
}

/// 255 structs, each holding the next 63, those near the end fewer.
pub fn dense() -> Sheet {
    all_structs(|i| (i + 1..limit::ITEMS).take(limit::FIELDS).collect())
}

/// As much text as this way gives: one argument, whose type is written three
/// times and names a type with a long full name in every slot.
pub fn longest_text() -> Sheet {
    // The most names that fit; a sheet grows with their number.
    let (mut fits, mut too_many) = (1, 1 << 17);
    while fits + 1 < too_many {
        let names = (fits + too_many) / 2;
        if encode(&of_names(names)).len() <= limit::SHEET_BYTES {
            fits = names;
        } else {
            too_many = names;
        }
    }
    of_names(fits)
}

fn of_names(count: usize) -> Sheet {
    let mut types = vec![Type::Named(0); count];
    while types.len() > 1 {
        let slots = types.chunks(limit::SLOTS + 1).map(|part| Type::Fn {
            ret: part.first().cloned().map(Box::new),
            args: part[1..].to_vec(),
        });
        types = slots.collect();
    }
    let args = types.into_iter().map(|ty| Arg {
        name: 0,
        ty: Type::RustVec(Box::new(ty)),
    });
    let mut sheet = Sheet::empty();
    sheet.names = vec![vec![b'n'; limit::NAME_CHARS]];
    sheet.items = vec![
        Item {
            namespace: vec![0; limit::NAMESPACES],
            name: 0,
            kind: Kind::CxxType { pointer: true },
        },
        Item {
            namespace: Vec::new(),
            name: 0,
            kind: function(0, args.collect()),
        },
    ];
    sheet
}
