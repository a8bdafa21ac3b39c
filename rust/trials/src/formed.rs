//! Sheets whose types C++ can form, and what their text needs around it.
//!
//! References are arguments, returns and slots of a Fn, and nothing else; opaque
//! Rust types stand behind a pointer; methods stand in their type's namespace,
//! and enums have none; a scope has a name once; C++ copies a type with pointer
//! bit 0 bit by bit.

use sheet::name::ADDED_KEYWORDS;
use sheet::{
    Arg, Form, Function, Item, ItemIndex, Kind, NameIndex, RUST_STRING, Rng, Sheet, Type, indirect,
    limit,
};
use std::collections::HashSet;

const NAMESPACES: [&str; 6] = ["mill", "pack", "driver", "detail", "std", "rust"];
const TYPES: [&str; 5] = ["Job", "Tool", "Axis", "Blank", "Spindle"];
#[rustfmt::skip]
const FUNCTIONS: [&str; 8] = [
    "count", "spin", "feed", "retract", "probe", "park", "f", "override",
];
#[rustfmt::skip]
const ARGUMENTS: [&str; 14] = [
    "x", "y", "job", "self", "error", "value", "std", "rust", "count", "size", "return_", "_",
    "final", "override",
];
/// Words of C++20's modules, which no keyword table has.
const MODULES: [&str; 2] = ["import", "module"];
const COMMENTS: [&str; 8] = [
    "",
    " counts the jobs",
    " /* not a comment",
    " */ either",
    "/",
    " \"quoted\" '",
    "#define x y",
    " a \\ within ??/ the line",
];

/// Which items a type may name as values.
#[derive(Clone, Copy, PartialEq)]
enum Named {
    /// All but opaque Rust types.
    Values,
    /// No structs either: in a field they may not be complete yet.
    NoStructs,
}

/// A sheet of this edition; with an outer namespace, every item stands in it.
/// One of edition 1 uses the keywords that C++20 added.
pub fn sheet(rng: &mut Rng, edition: u8, outer: Option<&str>) -> Sheet {
    let mut draft = Draft {
        rng,
        sheet: Sheet::empty(),
        paths: Vec::new(),
        taken: HashSet::new(),
        symbols: HashSet::new(),
    };
    draft.sheet.edition = edition;
    draft.sheet.header = draft.rng.one_in(6);
    draft.sheet.doxygen = draft.rng.one_in(3);
    let outer = outer.map(|name| draft.name(name));
    draft.paths.push(Vec::from_iter(outer));
    for _ in 0..draft.rng.below(4) {
        draft.path();
    }
    let items = draft.rng.between(6, 24);
    draft.heads(items);
    let mut structs = draft.items(|kind| matches!(kind, Kind::Struct { .. }));
    if draft.rng.bit() {
        structs.reverse();
    }
    for number in 0..structs.len() {
        draft.fields(structs[number], &structs[..number]);
    }
    for item in 0..items {
        draft.signature(item);
    }
    if outer.is_none() {
        draft.main();
    }
    draft.sheet
}

struct Draft<'r> {
    rng: &'r mut Rng,
    sheet: Sheet,
    paths: Vec<Vec<NameIndex>>,
    /// Scopes with the names in them.
    taken: HashSet<(Vec<NameIndex>, NameIndex)>,
    /// Namespaces, self types and Rust names of the functions.
    symbols: HashSet<(Vec<NameIndex>, Option<NameIndex>, NameIndex)>,
}

impl Draft<'_> {
    fn name(&mut self, chars: &str) -> NameIndex {
        let mut names = self.sheet.names.iter();
        let at = names.position(|name| name == chars.as_bytes());
        let at = at.unwrap_or_else(|| {
            self.sheet.names.push(chars.as_bytes().to_vec());
            self.sheet.names.len() - 1
        });
        at as NameIndex
    }

    /// One of the words, or one that another standard could keep.
    fn word<'w>(&mut self, words: &[&'w str]) -> &'w str {
        let words = match self.rng.below(8) {
            0 if self.sheet.edition == 1 => &ADDED_KEYWORDS[..],
            1 => &MODULES,
            _ => words,
        };
        words[self.rng.below(words.len())]
    }

    /// Such a word, with a number behind it if it must have one.
    fn free(&mut self, words: &[&str], is_free: impl Fn(&Self, NameIndex) -> bool) -> NameIndex {
        let word = self.word(words);
        let mut name = self.name(word);
        let mut number = 1;
        while !is_free(self, name) {
            name = self.name(&format!("{word}{number}"));
            number += 1;
        }
        name
    }

    /// A name that the scope has not, and now has.
    fn entity(&mut self, scope: &[NameIndex], words: &[&str]) -> NameIndex {
        let name = self.free(words, |draft, name| {
            !draft.taken.contains(&(scope.to_vec(), name))
        });
        self.taken.insert((scope.to_vec(), name));
        name
    }

    fn path(&mut self) {
        let mut path = self.rng.pick(&self.paths).clone();
        let depth = match self.rng.one_in(6) {
            true => limit::NAMESPACES,
            false => limit::NAMESPACES.min(path.len() + 1),
        };
        while path.len() < depth {
            let words = match path.is_empty() {
                true => &NAMESPACES[..4],
                false => &NAMESPACES,
            };
            path.push(self.entity(&path, words));
        }
        self.paths.push(path);
    }

    fn heads(&mut self, items: usize) {
        for _ in 0..items {
            let pointer = self.rng.bit();
            let kind = match self.rng.below(12) {
                0..=1 => Kind::Struct {
                    pointer,
                    fields: Vec::new(),
                },
                2 => Kind::Enum {
                    pointer,
                    atom: self.rng.between(2, 11) as u8,
                    cxx: self.rng.bit(),
                },
                3 => Kind::CxxType { pointer },
                4 => Kind::RustType { pointer: true },
                _ => Kind::Function(Function {
                    rust_name: 0,
                    form: Form::Free,
                    throws: self.rng.one_in(3),
                    ret: None,
                    args: Vec::new(),
                    comment: Vec::new(),
                }),
            };
            let namespace = self.rng.pick(&self.paths).clone();
            let name = match kind {
                Kind::Function(_) => 0,
                _ => {
                    let name = self.entity(&namespace, &TYPES);
                    // A member of the type's name would be a constructor.
                    let scope = [&namespace[..], &[name]].concat();
                    self.taken.insert((scope, name));
                    name
                }
            };
            self.sheet.items.push(Item {
                namespace,
                name,
                kind,
            });
        }
    }

    /// Held structs are among those that have their fields, so there is no ring.
    fn fields(&mut self, item: ItemIndex, done: &[ItemIndex]) {
        let count = self.rng.below(5);
        let fields = (0..count).map(|_| match self.rng.below(4) {
            0 if !done.is_empty() => Type::Named(*self.rng.pick(done)),
            1 => Type::RustBox(Box::new(Type::Named(item))),
            2 => Type::Atom(self.rng.below(14) as u8),
            _ => {
                let levels = self.levels();
                self.value(levels, Named::NoStructs)
            }
        });
        let fields: Vec<Type> = fields.collect();
        let copied = fields.iter().all(|ty| self.is_copied(ty));
        let pointer = !copied || self.rng.one_in(4);
        self.sheet.items[usize::from(item)].kind = Kind::Struct { pointer, fields };
    }

    /// Whether C++ copies a value bit by bit.
    fn is_copied(&self, ty: &Type) -> bool {
        match ty {
            Type::Atom(_) => !indirect(&self.sheet, ty),
            Type::Named(item) => match self.sheet.item(*item).kind {
                Kind::Enum { .. } => true,
                _ => !indirect(&self.sheet, ty),
            },
            Type::Array { inner, .. } => self.is_copied(inner),
            Type::Ptr { .. } => true,
            _ => false,
        }
    }

    fn signature(&mut self, index: usize) {
        let Kind::Function(mut function) = self.sheet.items[index].kind.clone() else {
            return;
        };
        let types = self.items(|kind| {
            matches!(
                kind,
                Kind::Struct { .. } | Kind::CxxType { .. } | Kind::RustType { .. }
            )
        });
        if !types.is_empty() && self.rng.bit() {
            let item = *self.rng.pick(&types);
            function.form = match self.rng.below(3) {
                0 => Form::ConstMethod(item),
                1 => Form::MutMethod(item),
                _ => Form::Associated(item),
            };
        }
        let self_type = function.form.self_item();
        let self_name = self_type.map(|item| self.sheet.item(item).name);
        if let Some(item) = self_type {
            self.sheet.items[index].namespace = self.sheet.item(item).namespace.clone();
        }
        let namespace = self.sheet.items[index].namespace.clone();
        let mut scope = namespace.clone();
        scope.extend(self_name);
        let name = self.entity(&scope, &FUNCTIONS);
        self.sheet.items[index].name = name;
        let symbol = |name| (namespace.clone(), self_name, name);
        function.rust_name = self.free(&FUNCTIONS, |draft, name| {
            !draft.symbols.contains(&symbol(name))
        });
        self.symbols.insert(symbol(function.rust_name));

        function.ret = match self.rng.below(6) {
            0..=1 => None,
            _ => Some(self.slot()),
        };
        // By a slot: clang++ warns of a template that C linkage returns by value.
        function.throws |= matches!(function.ret, Some(Type::Fn { .. }));
        let count = match self.rng.below(20) {
            0 => limit::ARGUMENTS,
            _ => self.rng.below(5),
        };
        for _ in 0..count {
            let ty = match self.slot() {
                Type::CxxVector(inner) => Type::RustVec(inner),
                ty => ty,
            };
            let held = indirect(&self.sheet, &ty) && ty != Type::Atom(RUST_STRING);
            let name = self.free(&ARGUMENTS, |draft, name| {
                let chars = draft.sheet.name(name);
                let repeated = function.args.iter().any(|arg| arg.name == name);
                let receiver = function.form.is_method() && chars == b"self";
                let held_error = function.throws && held && chars == b"error";
                !(repeated || receiver || held_error)
            });
            function.args.push(Arg { name, ty });
        }
        let lines = self.rng.below(4);
        let lines = (0..lines).map(|_| self.rng.pick(&COMMENTS).as_bytes().to_vec());
        function.comment = lines.collect();
        self.sheet.items[index].kind = Kind::Function(function);
    }

    fn main(&mut self) {
        let name = self.name("main");
        let kind = Kind::Function(Function {
            rust_name: name,
            form: Form::Free,
            throws: false,
            ret: None,
            args: Vec::new(),
            comment: Vec::new(),
        });
        self.sheet.items.push(Item {
            namespace: Vec::new(),
            name,
            kind,
        });
    }

    fn items(&self, is_wanted: impl Fn(&Kind) -> bool) -> Vec<ItemIndex> {
        let items = 0..self.sheet.items.len() as ItemIndex;
        items
            .filter(|item| is_wanted(&self.sheet.item(*item).kind))
            .collect()
    }

    fn levels(&mut self) -> usize {
        match self.rng.below(10) {
            0..=4 => 1,
            5..=6 => 2,
            7 => 3,
            8 => 4,
            _ => self.rng.between(5, limit::TYPE_DEPTH),
        }
    }

    /// An argument, a return or a slot of a Fn.
    fn slot(&mut self) -> Type {
        let levels = self.levels();
        self.slot_of(levels)
    }

    fn slot_of(&mut self, levels: usize) -> Type {
        if levels > 1 && self.rng.one_in(3) {
            let mutable = self.rng.bit();
            let inner = self.pointee(levels - 1, Named::Values);
            return Type::Ref { mutable, inner };
        }
        self.value(levels, Named::Values)
    }

    fn pointee(&mut self, levels: usize, named: Named) -> Box<Type> {
        let opaque = self.items(|kind| matches!(kind, Kind::RustType { .. }));
        Box::new(match self.rng.one_in(4) && !opaque.is_empty() {
            true => Type::Named(*self.rng.pick(&opaque)),
            false => self.value(levels, named),
        })
    }

    /// A type that C++ can hold by value, of at most so many levels.
    fn value(&mut self, levels: usize, named: Named) -> Type {
        if levels == 1 {
            return self.leaf(named);
        }
        let inside = levels - 1;
        let mutable = self.rng.bit();
        match self.rng.below(10) {
            0 => Type::RustBox(self.pointee(inside, named)),
            1 => Type::RustVec(self.pointee(inside, named)),
            2 => Type::UniquePtr(Box::new(self.value(inside, named))),
            3 => Type::SharedPtr(self.pointee(inside, named)),
            4 => Type::WeakPtr(self.pointee(inside, named)),
            5 => Type::CxxVector(Box::new(self.value(inside, named))),
            6 => Type::Ptr {
                mutable,
                inner: self.pointee(inside, named),
            },
            7 => Type::SliceRef {
                mutable,
                inner: self.pointee(inside, named),
            },
            8 => Type::Array {
                inner: Box::new(self.value(inside, named)),
                len: self.rng.between(1, 4) as u32,
            },
            _ => Type::Fn {
                ret: self.rng.bit().then(|| Box::new(self.slot_of(inside))),
                args: (0..self.rng.below(4))
                    .map(|_| self.slot_of(inside))
                    .collect(),
            },
        }
    }

    fn leaf(&mut self, named: Named) -> Type {
        let types = self.items(|kind| match kind {
            Kind::Struct { .. } => named == Named::Values,
            kind => matches!(kind, Kind::Enum { .. } | Kind::CxxType { .. }),
        });
        match self.rng.below(5) {
            0 => Type::Str,
            1..=2 if !types.is_empty() => Type::Named(*self.rng.pick(&types)),
            _ => Type::Atom(self.rng.below(16) as u8),
        }
    }
}

/// What stands before the text: every type, structs in the given order.
pub fn declarations(sheet: &Sheet, order: &[u8]) -> String {
    let cxx = Cxx { sheet };
    let mut out = String::new();
    for item in &sheet.items {
        let name = cxx.name(item.name);
        let line = match &item.kind {
            Kind::Function(_) => continue,
            Kind::Enum { atom, .. } => {
                format!("enum class {name} : {};", cxx.ty(&Type::Atom(*atom)))
            }
            _ => format!("struct {name};"),
        };
        out += &cxx.within(item, &line);
    }
    let all = 0..sheet.items.len() as ItemIndex;
    let others = all
        .clone()
        .filter(|item| matches!(sheet.item(*item).kind, Kind::CxxType { .. }));
    let opaque = all.filter(|item| matches!(sheet.item(*item).kind, Kind::RustType { .. }));
    for index in others.chain(order.iter().copied()).chain(opaque) {
        let item = sheet.item(index);
        let name = cxx.name(item.name);
        let mut members = cxx.methods(index);
        match &item.kind {
            Kind::Struct { fields, .. } => {
                for (number, field) in fields.iter().enumerate() {
                    members += &format!("  {} field_{number};\n", cxx.ty(field));
                }
            }
            Kind::CxxType { pointer: false } => members += "  int bits;\n",
            Kind::CxxType { .. } => {
                members += &format!("  {name}({name} &&) noexcept;\n  ~{name}();\n");
            }
            _ => {
                members += &format!("  ~{name}() = delete;\n");
                members += "  struct layout {\n    static ::std::size_t size() noexcept;\n    static ::std::size_t align() noexcept;\n  };\n";
            }
        }
        out += &cxx.within(item, &format!("struct {name} final {{\n{members}}};"));
    }
    out
}

/// What stands behind the text: that it has declared every free function.
pub fn assertions(sheet: &Sheet) -> String {
    let cxx = Cxx { sheet };
    let mut out = String::new();
    for item in &sheet.items {
        if let Kind::Function(function) = &item.kind
            && function.form == Form::Free
            && cxx.name(item.name) != "main"
        {
            out += &format!(
                "static_assert(::std::is_same<decltype(&{}), {} (*)({}){}>::value, \"\");\n",
                cxx.full_name(item),
                cxx.ret(function),
                cxx.args(function),
                cxx.noexcept(function),
            );
        }
    }
    out
}

/// C++ as a reader of document 01 would write it.
struct Cxx<'s> {
    sheet: &'s Sheet,
}

impl Cxx<'_> {
    fn name(&self, name: NameIndex) -> &str {
        std::str::from_utf8(self.sheet.name(name)).unwrap()
    }

    fn full_name(&self, item: &Item) -> String {
        let path = item.namespace.iter().chain([&item.name]);
        path.map(|name| format!("::{}", self.name(*name))).collect()
    }

    fn within(&self, item: &Item, line: &str) -> String {
        let names = item.namespace.iter().map(|name| self.name(*name));
        let begin: String = names.map(|name| format!("namespace {name} {{ ")).collect();
        format!("{begin}{line}{}\n", " }".repeat(item.namespace.len()))
    }

    fn methods(&self, index: ItemIndex) -> String {
        let mut out = String::new();
        for item in &self.sheet.items {
            if let Kind::Function(function) = &item.kind
                && function.form.self_item() == Some(index)
            {
                let (before, behind) = match function.form {
                    Form::ConstMethod(_) => ("", " const"),
                    Form::Associated(_) => ("static ", ""),
                    _ => ("", ""),
                };
                out += &format!(
                    "  {before}{} {}({}){behind}{};\n",
                    self.ret(function),
                    self.name(item.name),
                    self.args(function),
                    self.noexcept(function),
                );
            }
        }
        out
    }

    fn ret(&self, function: &Function) -> String {
        let ret = function.ret.as_ref();
        ret.map_or("void".into(), |ret| self.ty(ret))
    }

    fn args(&self, function: &Function) -> String {
        let args = function.args.iter().map(|arg| self.ty(&arg.ty));
        args.collect::<Vec<_>>().join(", ")
    }

    fn noexcept(&self, function: &Function) -> &'static str {
        if function.throws { "" } else { " noexcept" }
    }

    fn ty(&self, ty: &Type) -> String {
        #[rustfmt::skip]
        const ATOMS: [&str; 16] = [
            "bool", "char", "::std::uint8_t", "::std::uint16_t", "::std::uint32_t",
            "::std::uint64_t", "::std::size_t", "::std::int8_t", "::std::int16_t",
            "::std::int32_t", "::std::int64_t", "::rust::isize", "float", "double",
            "::std::string", "::rust::String",
        ];
        let constant = |mutable: &bool| if *mutable { "" } else { " const" };
        match ty {
            Type::Atom(atom) => ATOMS[usize::from(*atom)].into(),
            Type::Named(item) => self.full_name(self.sheet.item(*item)),
            Type::RustBox(inner) => format!("::rust::Box<{}>", self.ty(inner)),
            Type::RustVec(inner) => format!("::rust::Vec<{}>", self.ty(inner)),
            Type::UniquePtr(inner) => format!("::std::unique_ptr<{}>", self.ty(inner)),
            Type::SharedPtr(inner) => format!("::std::shared_ptr<{}>", self.ty(inner)),
            Type::WeakPtr(inner) => format!("::std::weak_ptr<{}>", self.ty(inner)),
            Type::CxxVector(inner) => format!("::std::vector<{}>", self.ty(inner)),
            Type::Str => "::rust::Str".into(),
            Type::Ref { mutable, inner } => format!("{}{} &", self.ty(inner), constant(mutable)),
            Type::Ptr { mutable, inner } => format!("{}{} *", self.ty(inner), constant(mutable)),
            Type::SliceRef { mutable, inner } => {
                format!("::rust::Slice<{}{}>", self.ty(inner), constant(mutable))
            }
            Type::Fn { ret, args } => {
                let ret = ret.as_ref().map_or("void".into(), |ret| self.ty(ret));
                let args: Vec<String> = args.iter().map(|arg| self.ty(arg)).collect();
                format!("::rust::Fn<{ret}({})>", args.join(", "))
            }
            Type::Array { inner, len } => format!("::std::array<{}, {len}>", self.ty(inner)),
            Type::Unknown(_) => unreachable!("never decoded"),
        }
    }
}
