//! Sheets at document 01's limits, the same for every seed.

use crate::name::ADDED_KEYWORDS;
use crate::{
    Arg, EDITIONS, Form, Function, Item, ItemIndex, Kind, NameIndex, Sheet, Type, encode,
    encode_bits, limit,
};

/// Each with what it shows.
pub fn boundaries() -> Vec<(String, Vec<u8>)> {
    let mut out = Vec::new();
    let mut add = |label: String, bytes: Vec<u8>| out.push((label, bytes));

    for flags in 0..4 {
        let mut sheet = Sheet::empty();
        sheet.header = flags & 2 != 0;
        sheet.doxygen = flags & 1 != 0;
        let bytes = encode(&sheet);
        for len in 0..bytes.len() {
            add(
                format!("empty, flags {flags}, cut at {len}"),
                bytes[..len].to_vec(),
            );
        }
        add(format!("empty, flags {flags}"), bytes);
    }
    for edition in 0..16 {
        let mut sheet = Sheet::empty();
        sheet.edition = edition;
        let bytes = encode(&sheet);
        add(format!("edition {edition}, cut"), bytes[..1].to_vec());
        add(format!("edition {edition}"), bytes);
        sheet.header = true;
        sheet.doxygen = true;
        add(format!("edition {edition}, both bits"), encode(&sheet));
    }
    for count in [0, 1, 2, 3, 4, 5, 8, 9, 16, 17, 512, 513, 1_022, 1_023] {
        add(format!("{count} names"), encode(&names(count, count)));
        if count > 0 && !count.is_power_of_two() {
            add(
                format!("{count} names, index past the end"),
                encode(&names(count, count + 1)),
            );
        }
    }
    add("no name, but an item".into(), encode(&names(0, 1)));
    for count in [1, 2, 3, 4, 5, 128, 129, 254, 255] {
        add(format!("{count} items"), encode(&items(count)));
    }
    for len in [1, 2, 62, 63] {
        let mut sheet = names(1, 1);
        sheet.names[0] = vec![b'q'; len];
        add(format!("name of {len} characters"), encode(&sheet));
    }
    for word in RESERVED {
        add(format!("reserved {word}"), encode(&named(word)));
        let mut sheet = names(2, 1);
        sheet.names[1] = word.into();
        add(format!("reserved {word}, not used"), encode(&sheet));
    }
    for word in NOT_RESERVED {
        add(format!("not reserved {word}"), encode(&named(word)));
    }
    for edition in EDITIONS {
        for word in ADDED_KEYWORDS {
            let mut sheet = named(word);
            sheet.edition = edition;
            let label = format!("keyword {word} in edition {edition}");
            add(label, encode(&sheet));
            let mut sheet = names(2, 1);
            sheet.edition = edition;
            sheet.names[1] = word.into();
            let label = format!("keyword {word} in edition {edition}, not used");
            add(label, encode(&sheet));
        }
        for word in NOT_KEYWORDS {
            let mut sheet = named(word);
            sheet.edition = edition;
            let label = format!("no keyword {word} in edition {edition}");
            add(label, encode(&sheet));
        }
    }
    for word in ["int", "xor_eq", "_Tool", "a__b", "__concept"] {
        let mut sheet = named(word);
        sheet.edition = 2;
        add(format!("reserved {word} in edition 2"), encode(&sheet));
    }
    // The third character is not whole.
    let mut cut = encode(&named("__x"));
    cut.truncate(5);
    add("reserved __x, cut".into(), cut);
    for depth in 0..=limit::NAMESPACES {
        add(format!("{depth} namespaces"), encode(&namespaces(depth)));
    }
    for count in [0, 1, 30, 31] {
        add(
            format!("{count} arguments"),
            encode(&arguments(count, Form::Free)),
        );
        add(
            format!("{count} arguments of a method"),
            encode(&arguments(count, Form::MutMethod(0))),
        );
    }
    for count in [0, 1, 62, 63] {
        add(format!("{count} fields"), encode(&fields(count)));
    }
    for (lines, chars) in [
        (0, 0),
        (1, 0),
        (2, 0),
        (31, 0),
        (1, 1),
        (1, 127),
        (2, 127),
        (31, 127),
    ] {
        for doxygen in [false, true] {
            let mut sheet = comment(lines, chars);
            sheet.doxygen = doxygen;
            let label = format!("{lines} comment lines of {chars}, Doxygen {doxygen}");
            add(label, encode(&sheet));
        }
    }
    for slots in [0, 1, 14, 15] {
        for ret in [None, Some(Box::new(Type::Str))] {
            let args = vec![Type::Atom(2); slots];
            add(
                format!("{slots} slots in a Fn"),
                encode(&returns(Type::Fn { ret, args })),
            );
        }
    }
    for len in [0, 1, 9, 10, u32::MAX] {
        let inner = Box::new(Type::Atom(0));
        add(
            format!("array of {len}"),
            encode(&returns(Type::Array { inner, len })),
        );
    }
    for kind in 0..WRAPPERS {
        for depth in [8, 9] {
            let mut ty = Type::Str;
            for _ in 1..depth {
                ty = wrap(kind, ty);
            }
            add(
                format!("wrapper {kind} at depth {depth}"),
                encode(&returns(ty)),
            );
        }
        for unknown in [12, 15] {
            for depth in [8, 9, 10] {
                let mut ty = Type::Unknown(unknown);
                for _ in 1..depth {
                    ty = wrap(kind, ty);
                }
                let label = format!("wrapper {kind}, type kind {unknown} at depth {depth}");
                add(label, encode(&returns(ty)));
            }
        }
    }
    for atom in 0..16 {
        let mut sheet = names(1, 1);
        sheet.items[0].kind = Kind::Enum {
            pointer: false,
            atom,
            cxx: false,
        };
        add(format!("enum of atom {atom}"), encode(&sheet));
        add(format!("atom {atom}"), encode(&returns(Type::Atom(atom))));
    }
    add("amplified".into(), amplified());
    let longest = of_length(limit::SHEET_BYTES);
    let mut grown = longest.clone();
    grown.push(0);
    add("32,768 bytes".into(), longest);
    add("32,768 bytes and one more".into(), grown);
    add("32,769 bytes".into(), of_length(limit::SHEET_BYTES + 1));
    add(
        "32,769 bytes of edition 0".into(),
        vec![0; limit::SHEET_BYTES + 1],
    );
    add(
        "32,768 bytes of edition 0".into(),
        vec![0; limit::SHEET_BYTES],
    );
    out
}

/// Names that ISO C++ [lex.name] reserves, and some that come close.
const RESERVED: [&str; 10] = [
    "_Tool", "a__b", "__", "x__", "__x", "___", "_A", "_Z", "_A_", "a_b__",
];
const NOT_RESERVED: [&str; 8] = ["_", "_t", "_1", "a_B", "_1T", "a_", "T_", "_a_B_1_"];

/// Names that no keyword table has, though C++20 gives some a meaning.
const NOT_KEYWORDS: [&str; 8] = [
    "import",
    "module",
    "final",
    "override",
    "concept_",
    "Requires",
    "char8",
    "co_yields",
];

/// For each sort of type one sheet: a function of each form, throwing and not,
/// that takes and returns it.
pub fn signatures() -> Vec<(String, Vec<u8>)> {
    let named = || Box::new(Type::Named(0));
    let mut types: Vec<Type> = [0, 14, 15].map(Type::Atom).to_vec();
    types.extend((0..WRAPPERS).map(|kind| wrap(kind, Type::Named(0))));
    types.extend([
        Type::Named(0),
        Type::Str,
        Type::Ref {
            mutable: true,
            inner: named(),
        },
        Type::Ptr {
            mutable: true,
            inner: named(),
        },
        Type::SliceRef {
            mutable: true,
            inner: named(),
        },
    ]);
    let mut out = Vec::new();
    for ty in types {
        let pointers: &[bool] = match ty {
            Type::Named(_) => &[false, true],
            _ => &[false],
        };
        for pointer in pointers {
            let sheet = signatures_of(&ty, *pointer);
            out.push((format!("signatures with {ty:?}"), encode(&sheet)));
        }
    }
    out
}

fn signatures_of(ty: &Type, pointer: bool) -> Sheet {
    let forms = [
        Form::Free,
        Form::ConstMethod(0),
        Form::MutMethod(0),
        Form::Associated(0),
    ];
    let mut sheet = names(9, 1);
    sheet.items[0].namespace = vec![8];
    sheet.items[0].kind = Kind::CxxType { pointer };
    for number in 0..8 {
        let mut args = vec![ty.clone(), Type::Atom(2)];
        args.retain(|arg| !matches!(arg, Type::CxxVector(_)));
        let args = args.into_iter().enumerate().map(|(name, ty)| Arg {
            name: name as NameIndex,
            ty,
        });
        let kind = Kind::Function(Function {
            rust_name: number as NameIndex,
            form: forms[number / 2],
            throws: number % 2 == 1,
            ret: Some(ty.clone()),
            args: args.collect(),
            comment: Vec::new(),
        });
        sheet.items.push(Item {
            namespace: Vec::new(),
            name: 1,
            kind,
        });
    }
    sheet
}

/// Names `a0`, `a1` and so on, and an opaque type for the first and last used.
fn names(count: usize, used: usize) -> Sheet {
    let mut sheet = Sheet::empty();
    sheet.names = (0..count).map(|i| format!("a{i}").into_bytes()).collect();
    let mut indexes: Vec<usize> = vec![0, used.saturating_sub(1)];
    indexes.dedup();
    if used > 0 {
        sheet.items = indexes
            .into_iter()
            .map(|index| Item {
                namespace: Vec::new(),
                name: index as NameIndex,
                kind: Kind::RustType { pointer: true },
            })
            .collect();
    }
    sheet
}

/// An opaque type of this name.
fn named(name: &str) -> Sheet {
    let mut sheet = names(1, 1);
    sheet.names[0] = name.into();
    sheet
}

/// C++ types, and as the last item a function that names the first and the last of them.
fn items(count: usize) -> Sheet {
    let mut sheet = names(count, 1);
    let mut item = sheet.items.remove(0);
    for index in 1..count {
        item.name = index as NameIndex;
        item.kind = Kind::CxxType { pointer: true };
        sheet.items.push(item.clone());
    }
    let mut function = function();
    if count > 1 {
        function.form = Form::ConstMethod((count - 2) as ItemIndex);
        function.ret = Some(Type::Named(0));
    }
    item.name = 0;
    item.kind = Kind::Function(function);
    sheet.items.push(item);
    sheet
}

fn function() -> Function {
    Function {
        rust_name: 0,
        form: Form::Free,
        throws: false,
        ret: None,
        args: Vec::new(),
        comment: Vec::new(),
    }
}

fn with_function(names: usize, function: Function) -> Sheet {
    let mut sheet = self::names(names, 1);
    let kind = Kind::Function(function);
    sheet.items.push(Item {
        namespace: Vec::new(),
        name: 0,
        kind,
    });
    sheet
}

fn namespaces(depth: usize) -> Sheet {
    let mut sheet = with_function(limit::NAMESPACES + 1, function());
    for item in &mut sheet.items {
        item.namespace = (1..=depth).map(|i| i as NameIndex).collect();
    }
    sheet
}

fn arguments(count: usize, form: Form) -> Sheet {
    let types = [
        Type::Atom(15),
        Type::Named(0),
        Type::RustBox(Box::new(Type::Named(0))),
        Type::UniquePtr(Box::new(Type::Named(0))),
        Type::RustVec(Box::new(Type::Str)),
        Type::Str,
    ];
    let mut function = function();
    function.form = form;
    function.throws = true;
    function.args = (0..count)
        .map(|i| Arg {
            name: i as NameIndex,
            ty: types[i % types.len()].clone(),
        })
        .collect();
    with_function(count.max(1), function)
}

fn fields(count: usize) -> Sheet {
    let mut sheet = names(2, 2);
    sheet.items[1].kind = Kind::Struct {
        pointer: true,
        fields: vec![Type::Named(0); count],
    };
    sheet
}

fn comment(lines: usize, chars: usize) -> Sheet {
    let mut function = function();
    function.comment = vec![vec![b'!'; chars]; lines];
    with_function(1, function)
}

fn returns(ty: Type) -> Sheet {
    let mut function = function();
    function.ret = Some(ty);
    with_function(1, function)
}

const WRAPPERS: usize = 12;

fn wrap(kind: usize, ty: Type) -> Type {
    let inner = Box::new(ty);
    let mutable = false;
    match kind {
        0 => Type::RustBox(inner),
        1 => Type::RustVec(inner),
        2 => Type::UniquePtr(inner),
        3 => Type::SharedPtr(inner),
        4 => Type::WeakPtr(inner),
        5 => Type::Ref { mutable, inner },
        6 => Type::Ptr { mutable, inner },
        7 => Type::CxxVector(inner),
        8 => Type::SliceRef { mutable, inner },
        9 => Type::Array { inner, len: 7 },
        10 => Type::Fn {
            ret: Some(inner),
            args: vec![Type::Str],
        },
        _ => Type::Fn {
            ret: None,
            args: vec![*inner, Type::Str],
        },
    }
}

/// An otherwise good sheet of exactly this many bytes, filled with comments.
fn of_length(bytes: usize) -> Vec<u8> {
    let mut sheet = with_function(16, function());
    loop {
        let (encoded, bits) = encode_bits(&sheet);
        if encoded.len() == bytes {
            return encoded;
        }
        let functions = sheet.items.len() - 1;
        let Kind::Function(function) = &mut sheet.items.last_mut().unwrap().kind else {
            unreachable!("the last item is a function");
        };
        if function.comment.len() < limit::COMMENT_LINES {
            // A line takes 7 bits for its length and 7 for each character.
            let room = (bytes * 8 - bits) / 7 - 1;
            let line = vec![b'/'; room.min(limit::COMMENT_CHARS)];
            function.comment.push(line);
        } else {
            let mut next = sheet.items[1].clone();
            if let Kind::Function(function) = &mut next.kind {
                function.rust_name = functions as NameIndex;
                function.comment.clear();
            }
            sheet.items.push(next);
        }
    }
}

/// A sheet within the limit with as much text as this way gives: a type with a
/// long full name, named over and over.
fn amplified() -> Vec<u8> {
    let mut sheet = names(64, 1);
    sheet.names[63] = vec![b'n'; limit::NAME_CHARS];
    sheet.items[0].namespace = vec![63; limit::NAMESPACES];
    sheet.items[0].name = 63;
    let slots = vec![Type::Named(0); limit::SLOTS];
    let mut encoded = encode(&sheet);
    for rust_name in 0..63 {
        let mut function = function();
        function.rust_name = rust_name;
        function.args = (0..limit::ARGUMENTS)
            .map(|argument| Arg {
                name: argument as NameIndex,
                ty: Type::Fn {
                    ret: Some(Box::new(Type::Named(0))),
                    args: slots.clone(),
                },
            })
            .collect();
        sheet.items.push(Item {
            namespace: Vec::new(),
            name: rust_name,
            kind: Kind::Function(function),
        });
        let longer = encode(&sheet);
        if longer.len() > limit::SHEET_BYTES {
            break;
        }
        encoded = longer;
    }
    encoded
}
