//! Accepted sheets with rich contents.

use super::edition;
use crate::name::{self, ADDED_KEYWORDS, is_name};
use crate::{
    Arg, Form, Function, Item, ItemIndex, Kind, NameIndex, RUST_STRING, Rng, Sheet, Type, encode,
    indirect, limit, rules,
};

/// Words that the rules, the crate, the grammar or a keyword table could trip
/// over. Each is a name in both editions.
#[rustfmt::skip]
const WORDS: [&str; 51] = [
    "a", "b", "c", "x", "_", "_x", "_1", "_1T", "a_B", "x_", "mill", "Job", "count", "main",
    "main", "self", "self", "error", "error", "std", "rust", "u8", "String", "CxxString", "bool_",
    "T0", "T1", "Self", "return_", "cxxbridge1", "operator_", "size", "layout", "namespace_",
    "f64", "f", "g", "value", "ptr", "Vec", "Box", "Result", "void_", "import", "module", "final",
    "override", "concept_", "Requires", "co_awai", "char8",
];

/// A sheet that a check accepts.
pub fn good(rng: &mut Rng) -> Sheet {
    loop {
        let items = match rng.below(24) {
            0 => 0,
            1 => rng.between(11, 40),
            _ => rng.between(1, 10),
        };
        let sheet = attempt(rng, items);
        if rules(&sheet).is_ok() {
            return sheet;
        }
    }
}

/// A sheet with many items that a check accepts.
pub fn large(rng: &mut Rng) -> Sheet {
    loop {
        let items = rng.between(60, limit::ITEMS);
        let sheet = attempt(rng, items);
        if rules(&sheet).is_ok() && encode(&sheet).len() <= limit::SHEET_BYTES {
            return sheet;
        }
    }
}

fn attempt(rng: &mut Rng, items: usize) -> Sheet {
    let edition = edition(rng);
    let sheet = Sheet {
        edition,
        header: rng.one_in(4),
        doxygen: rng.one_in(3),
        names: name_table(rng, edition, items),
        items: Vec::new(),
    };
    let mut draft = Draft {
        rng,
        sheet,
        paths: vec![Vec::new()],
        types: Vec::new(),
    };
    draft.paths();
    draft.heads(items);
    for index in 0..items {
        draft.body(index);
    }
    draft.sheet
}

fn name_table(rng: &mut Rng, edition: u8, items: usize) -> Vec<Vec<u8>> {
    let count = match rng.below(30) {
        0 if items == 0 => 0,
        1 if items <= 40 => rng.between(1, 2),
        2 if items <= 40 => rng.between(60, 200),
        _ if items > 40 => items + rng.between(100, 400),
        _ => items + rng.between(3, 24),
    };
    // One sheet of edition 1 in three may have names that edition 2 refuses.
    let older = edition == 1 && rng.one_in(3);
    let mut names: Vec<Vec<u8>> = Vec::new();
    for _ in 0..count {
        let name = match rng.below(12) {
            0 if !names.is_empty() => rng.pick(&names).clone(),
            1..=5 => rng.pick(&WORDS).as_bytes().to_vec(),
            6 if older => rng.pick(&ADDED_KEYWORDS).as_bytes().to_vec(),
            _ => random_name(rng),
        };
        names.push(name);
    }
    names
}

const FIRST: &[u8] = b"abcdefghijklmnopqrstuvwxyzABCDEFGHIJKLMNOPQRSTUVWXYZ_";
const REST: &[u8] = b"abcdefghijklmnopqrstuvwxyzABCDEFGHIJKLMNOPQRSTUVWXYZ_0123456789";

/// A name in both editions.
pub fn random_name(rng: &mut Rng) -> Vec<u8> {
    let len = match rng.below(16) {
        0 => limit::NAME_CHARS,
        1 => rng.between(12, limit::NAME_CHARS),
        _ => rng.between(1, 9),
    };
    loop {
        let mut chars = vec![*rng.pick(FIRST)];
        chars.extend((1..len).map(|_| *rng.pick(REST)));
        if is_name(2, &chars) {
            return chars;
        }
    }
}

/// A name in both editions that comes close to a keyword of one: but for a
/// character it is one, or one begins with it, or it begins or ends with one.
pub fn near_keyword(rng: &mut Rng) -> Vec<u8> {
    let words: Vec<&str> = name::words(2).collect();
    loop {
        let mut chars = rng.pick(&words).as_bytes().to_vec();
        let at = rng.below(chars.len());
        match rng.below(8) {
            0 | 1 => chars[at] = *rng.pick(REST),
            2 => chars[at] ^= b'a' ^ b'A',
            3 | 4 => chars.insert(at + rng.below(2), *rng.pick(REST)),
            5 => drop(chars.remove(at)),
            6 => chars.truncate(at),
            _ => {
                let mut other = random_name(rng);
                other.truncate(limit::NAME_CHARS - chars.len());
                let at = if rng.bit() { 0 } else { chars.len() };
                chars.splice(at..at, other);
            }
        }
        if is_name(2, &chars) {
            return chars;
        }
    }
}

pub fn comment_line(rng: &mut Rng) -> Vec<u8> {
    let len = match rng.below(10) {
        0 => 0,
        1 => limit::COMMENT_CHARS,
        _ => rng.between(1, 30),
    };
    let mut chars: Vec<u8> = (0..len).map(|_| rng.between(32, 126) as u8).collect();
    if rng.bit()
        && let Some(first) = chars.first_mut()
    {
        *first = b' ';
    }
    if let Some(last) = chars.last_mut()
        && *last == b'\\'
    {
        *last = b'/';
    }
    chars
}

struct Draft<'r> {
    rng: &'r mut Rng,
    sheet: Sheet,
    /// The namespaces in use; few, so that items reopen them.
    paths: Vec<Vec<NameIndex>>,
    types: Vec<ItemIndex>,
}

impl Draft<'_> {
    fn name(&mut self) -> NameIndex {
        self.rng.below(self.sheet.names.len()) as NameIndex
    }

    fn find(&self, chars: &[u8]) -> Option<NameIndex> {
        let at = self.sheet.names.iter().position(|name| name == chars)?;
        Some(at as NameIndex)
    }

    /// Paths that share beginnings with one another.
    fn paths(&mut self) {
        if self.sheet.names.is_empty() {
            return;
        }
        for _ in 0..self.rng.below(6) {
            let mut path = self.rng.pick(&self.paths).clone();
            path.truncate(self.rng.below(path.len() + 1));
            let depth = match self.rng.one_in(8) {
                true => limit::NAMESPACES,
                false => limit::NAMESPACES.min(path.len() + self.rng.between(1, 2)),
            };
            while path.len() < depth {
                let name = self.name();
                path.push(name);
            }
            let first = path.first().map(|index| self.sheet.name(*index));
            if !matches!(first, Some(b"std" | b"rust")) {
                self.paths.push(path);
            }
        }
    }

    /// Kinds, namespaces and C++ names, so that bodies may name any item.
    fn heads(&mut self, items: usize) {
        for index in 0..items {
            let pointer = self.rng.bit();
            let kind = match self.rng.below(20) {
                0..=2 => Kind::Struct {
                    pointer,
                    fields: Vec::new(),
                },
                3..=4 => Kind::Enum {
                    pointer,
                    atom: self.rng.between(2, 11) as u8,
                    cxx: self.rng.one_in(3),
                },
                5..=6 => Kind::CxxType { pointer },
                7..=9 => Kind::RustType { pointer },
                _ => Kind::Function(Function {
                    rust_name: self.name(),
                    form: Form::Free,
                    throws: false,
                    ret: None,
                    args: Vec::new(),
                    comment: Vec::new(),
                }),
            };
            if !matches!(kind, Kind::Function(_)) {
                self.types.push(index as ItemIndex);
            }
            let mut item = Item {
                namespace: self.rng.pick(&self.paths).clone(),
                name: self.name(),
                kind,
            };
            // In a large sheet two items would often be alike.
            for _ in 0..20 {
                if items <= 40 || !self.is_alike(&item) {
                    break;
                }
                item.name = self.name();
                if let Kind::Function(function) = &mut item.kind {
                    function.rust_name = item.name;
                }
            }
            self.sheet.items.push(item);
        }
    }

    /// Whether an earlier item has the same namespace and the same name, for
    /// functions the same Rust name.
    fn is_alike(&self, item: &Item) -> bool {
        let key = |item: &Item| match &item.kind {
            Kind::Function(function) => (true, self.sheet.name(function.rust_name)),
            _ => (false, self.sheet.name(item.name)),
        };
        let mut earlier = self.sheet.items.iter();
        earlier.any(|other| other.namespace == item.namespace && key(other) == key(item))
    }

    fn body(&mut self, index: usize) {
        match self.sheet.items[index].kind {
            Kind::Struct { pointer, .. } => {
                let count = if self.rng.one_in(40) {
                    limit::FIELDS
                } else {
                    self.rng.below(6)
                };
                let fields = (0..count).map(|_| self.field(index)).collect();
                self.sheet.items[index].kind = Kind::Struct { pointer, fields };
            }
            Kind::Function(_) => {
                if self.rng.one_in(8)
                    && let Some(main) = self.find(b"main")
                {
                    let item = &mut self.sheet.items[index];
                    item.name = main;
                    item.namespace.clear();
                    if self.rng.bit() {
                        self.comment(index);
                        return;
                    }
                }
                self.signature(index);
                self.comment(index);
            }
            _ => {}
        }
    }

    /// A field; plain structs in it come later in the sheet, so there is no ring.
    fn field(&mut self, holder: usize) -> Type {
        match self.ty() {
            Type::Named(held) if usize::from(held) <= holder && self.is_struct(held) => {
                Type::RustBox(Box::new(Type::Named(held)))
            }
            ty => ty,
        }
    }

    fn is_struct(&self, index: ItemIndex) -> bool {
        matches!(self.sheet.item(index).kind, Kind::Struct { .. })
    }

    fn function(&mut self, index: usize) -> &mut Function {
        match &mut self.sheet.items[index].kind {
            Kind::Function(function) => function,
            _ => unreachable!("not a function"),
        }
    }

    fn signature(&mut self, index: usize) {
        let form = if self.types.is_empty() || self.rng.bit() {
            Form::Free
        } else {
            let item = *self.rng.pick(&self.types);
            match self.rng.below(3) {
                0 => Form::ConstMethod(item),
                1 => Form::MutMethod(item),
                _ => Form::Associated(item),
            }
        };
        let throws = self.rng.one_in(3);
        let ret = self.rng.bit().then(|| self.ty());
        let count = match self.rng.below(40) {
            0 => limit::ARGUMENTS,
            1..=10 => 0,
            _ => self.rng.between(1, 5),
        };
        let mut args: Vec<Arg> = Vec::new();
        for _ in 0..count {
            let name = self.name();
            let chars = self.sheet.name(name).to_vec();
            let ty = match self.ty() {
                Type::CxxVector(inner) => Type::UniquePtr(inner),
                ty => ty,
            };
            let held = ty != Type::Atom(RUST_STRING) && indirect(&self.sheet, &ty);
            let repeated = args.iter().any(|arg| self.sheet.name(arg.name) == chars);
            let receiver = form.is_method() && chars == b"self";
            let held_error = throws && chars == b"error" && held;
            if !(repeated || receiver || held_error) {
                args.push(Arg { name, ty });
            }
        }
        let function = self.function(index);
        function.form = form;
        function.throws = throws;
        function.ret = ret;
        function.args = args;
    }

    fn comment(&mut self, index: usize) {
        let lines = match self.rng.below(24) {
            0..=11 => 0,
            12..=16 => 1,
            17..=19 => 2,
            20..=22 => self.rng.between(3, 5),
            _ if self.rng.one_in(4) => limit::COMMENT_LINES,
            _ => 6,
        };
        let comment = (0..lines).map(|_| comment_line(self.rng)).collect();
        self.function(index).comment = comment;
    }

    fn ty(&mut self) -> Type {
        let depth = match self.rng.below(20) {
            0..=9 => 1,
            10..=14 => 2,
            15..=16 => 3,
            17 => 4,
            18 => self.rng.between(5, 7),
            _ => limit::TYPE_DEPTH,
        };
        type_of_depth(self.rng, &self.types, depth)
    }
}

/// A type whose deepest inner type has exactly the given depth.
pub fn type_of_depth(rng: &mut Rng, types: &[ItemIndex], depth: usize) -> Type {
    if depth == 1 {
        return leaf(rng, types);
    }
    let mutable = rng.bit();
    let kind = rng.below(11);
    if kind == 0 {
        return function_type(rng, types, depth);
    }
    let inner = Box::new(type_of_depth(rng, types, depth - 1));
    match kind {
        1 => Type::RustBox(inner),
        2 => Type::RustVec(inner),
        3 => Type::UniquePtr(inner),
        4 => Type::SharedPtr(inner),
        5 => Type::WeakPtr(inner),
        6 => Type::Ref { mutable, inner },
        7 => Type::Ptr { mutable, inner },
        8 => Type::CxxVector(inner),
        9 => Type::SliceRef { mutable, inner },
        _ => Type::Array {
            inner,
            len: match rng.below(4) {
                0 => 0,
                1 => u32::MAX,
                2 => rng.below(100) as u32,
                _ => rng.next_u64() as u32,
            },
        },
    }
}

fn leaf(rng: &mut Rng, types: &[ItemIndex]) -> Type {
    match rng.below(20) {
        0..=1 => Type::Str,
        2 => Type::Fn {
            ret: None,
            args: Vec::new(),
        },
        3..=9 if !types.is_empty() => Type::Named(*rng.pick(types)),
        _ => Type::Atom(rng.below(16) as u8),
    }
}

fn function_type(rng: &mut Rng, types: &[ItemIndex], depth: usize) -> Type {
    let slots = match rng.below(20) {
        0 if depth == 2 => limit::SLOTS,
        _ => rng.between(1, 3),
    };
    // One of the slots and the return has the full depth.
    let deepest = rng.below(slots + 1);
    let mut slot = |number: usize| {
        let inside = if number == deepest {
            depth - 1
        } else {
            rng.between(1, depth - 1)
        };
        type_of_depth(rng, types, inside)
    };
    let args = (0..slots).map(&mut slot).collect();
    let ret = slot(slots);
    let ret = (deepest == slots || rng.bit()).then(|| Box::new(ret));
    Type::Fn { ret, args }
}
