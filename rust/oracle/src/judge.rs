//! From a sheet to the crate's syntax tree, and from there to its answers.

use crate::bridge::{Opt, write};
use crate::syntax::attrs::OtherAttrs;
use crate::syntax::cfg::CfgExpr;
use crate::syntax::check::sort;
use crate::syntax::namespace::Namespace;
use crate::syntax::report::Errors;
use crate::syntax::{
    Api, Array, Atom, Doc, Enum, EnumRepr, ExternFn, ExternType, FnKind, ForeignName, Lang,
    Lifetimes, NamedType, Pair, Ptr, Receiver, Ref, Signature, SliceRef, Struct, Ty1, Type, Types,
    Var, mangle,
};
use proc_macro2::{Ident, Span};
use sheet::{Form, Function, Item, ItemIndex, Kind, NameIndex, Sheet, Type as SheetType};
use syn::token::{Brace, Bracket, Paren};
use syn::{Generics, LitInt, LitStr, PointerMutability, Token};

/// The crate's text for a sheet: forward declarations, functions, `flush`. It is
/// that of document 01's reference, and of `write_functions` with all its arms.
pub fn text(sheet: &Sheet) -> Vec<u8> {
    let options = Opt {
        doxygen: sheet.doxygen,
        ..Opt::default()
    };
    with_types(sheet, |apis, types, _| {
        let text = write::text(apis, types, &options, sheet.header);
        let unchanged = write::text_by_write_functions(apis, types, &options, sheet.header);
        assert!(
            text == unchanged,
            "write_functions writes another text than its arms"
        );
        text
    })
}

/// The item numbers of the structs, as toposort.rs' `sort` orders them.
pub fn struct_order(sheet: &Sheet) -> Vec<u8> {
    with_types(sheet, |apis, types, _| {
        let number = |strct: &Struct| {
            let is_it = |api: &Api| matches!(api, Api::Struct(other) if std::ptr::eq(other, strct));
            apis.iter().position(is_it).unwrap() as u8
        };
        types
            .toposorted_structs
            .iter()
            .map(|strct| number(strct))
            .collect()
    })
}

/// For measurements: hands over a run of `sort` alone, on the sheet's finished
/// syntax tree; the run says how many structs it has sorted.
pub fn with_sort<T>(sheet: &Sheet, measure: impl FnOnce(&dyn Fn() -> usize) -> T) -> T {
    with_types(sheet, |apis, types, _| {
        measure(&|| sort(&mut Errors::new(), apis, types).len())
    })
}

/// What the crate itself says where document 01's rules lean on it.
pub struct Facts {
    /// mangle.rs' symbol of each function, in sheet order.
    pub symbols: Vec<String>,
    /// `needs_indirect_abi` of each argument, function by function.
    pub indirect: Vec<bool>,
    /// Whether `sort` found a cyclic data structure.
    pub cyclic: bool,
    /// All that types.rs reported, a cycle included.
    pub complaint: Option<String>,
}

/// For a sheet that keeps the rules 1 to 9.
pub fn facts(sheet: &Sheet) -> Facts {
    with_types(sheet, |apis, types, complaint| {
        let functions = || {
            apis.iter().filter_map(|api| match api {
                Api::RustFunction(efn) => Some(efn),
                _ => None,
            })
        };
        Facts {
            symbols: functions()
                .map(|efn| mangle::extern_fn(efn, types).to_string())
                .collect(),
            indirect: functions()
                .flat_map(|efn| &efn.args)
                .map(|arg| types.needs_indirect_abi(&arg.ty))
                .collect(),
            cyclic: complaint
                .as_deref()
                .is_some_and(|text| text.contains(CYCLE)),
            complaint,
        }
    })
}

/// toposort.rs' words for a cycle. types.rs reports one thing more that can be
/// in an accepted sheet: two functions with one Rust name and self type, in
/// different namespaces. The text does not mind, and neither does document 01.
const CYCLE: &str = "unsupported cyclic data structure";

/// Hands over the syntax tree, its types, and what types.rs reports.
fn with_types<T>(sheet: &Sheet, answer: impl FnOnce(&[Api], &Types, Option<String>) -> T) -> T {
    let tree = Tree { sheet };
    let apis: Vec<Api> = (0..sheet.items.len()).map(|item| tree.api(item)).collect();
    let mut errors = Errors::new();
    let mut types = Types::collect(&mut errors, &apis);
    for (item, api) in sheet.items.iter().zip(&apis) {
        if let (Kind::Enum { cxx: true, .. }, Api::Enum(enm)) = (&item.kind, api) {
            types.cxx.insert(&enm.name.rust);
        }
    }
    let complaint = errors.propagate().err().map(|error| error.to_string());
    answer(&apis, &types, complaint)
}

struct Tree<'s> {
    sheet: &'s Sheet,
}

impl Tree<'_> {
    fn chars(&self, name: NameIndex) -> &str {
        std::str::from_utf8(self.sheet.name(name)).unwrap()
    }

    fn ident(&self, name: NameIndex) -> Ident {
        ident(self.chars(name))
    }

    fn pair(&self, item: &Item, rust: Ident) -> Pair {
        let namespace: Vec<Ident> = item
            .namespace
            .iter()
            .map(|name| self.ident(*name))
            .collect();
        Pair {
            namespace: namespace.iter().collect(),
            cxx: ForeignName::new(self.chars(item.name)),
            rust,
        }
    }

    fn api(&self, index: usize) -> Api {
        let item = &self.sheet.items[index];
        let name = || self.pair(item, type_ident(index as ItemIndex));
        match &item.kind {
            Kind::Struct { pointer, fields } => Api::Struct(Struct {
                cfg: CfgExpr::Unconditional,
                doc: Doc::new(),
                derives: Vec::new(),
                align: None,
                attrs: OtherAttrs { pointer: *pointer },
                visibility: TOKEN,
                struct_token: TOKEN,
                name: name(),
                generics: Lifetimes::default(),
                brace_token: Brace,
                fields: fields.iter().map(|ty| self.var("field", ty)).collect(),
            }),
            Kind::Enum { pointer, atom, .. } => Api::Enum(Enum {
                cfg: CfgExpr::Unconditional,
                doc: Doc::new(),
                derives: Vec::new(),
                attrs: OtherAttrs { pointer: *pointer },
                visibility: TOKEN,
                enum_token: TOKEN,
                name: name(),
                generics: Lifetimes::default(),
                brace_token: Brace,
                variants: Vec::new(),
                repr: EnumRepr {
                    atom: ATOMS[usize::from(*atom)],
                    repr_type: named(ident(ATOMS[usize::from(*atom)].as_ref())),
                },
                explicit_repr: true,
            }),
            Kind::CxxType { pointer } => Api::CxxType(extern_type(Lang::Cxx, name(), *pointer)),
            Kind::RustType { pointer } => Api::RustType(extern_type(Lang::Rust, name(), *pointer)),
            Kind::Function(function) => Api::RustFunction(self.function(item, function)),
            Kind::Unknown(_) => unreachable!("never decoded"),
        }
    }

    fn function(&self, item: &Item, function: &Function) -> ExternFn {
        let mut doc = Doc::new();
        for line in &function.comment {
            doc.push(LitStr::new(std::str::from_utf8(line).unwrap(), Span));
        }
        let kind = match function.form {
            Form::Free => FnKind::Free,
            Form::ConstMethod(item) => FnKind::Method(receiver(item, false)),
            Form::MutMethod(item) => FnKind::Method(receiver(item, true)),
            Form::Associated(item) => FnKind::Assoc(type_ident(item)),
        };
        let args = function.args.iter();
        let args = args.map(|arg| self.var(self.chars(arg.name), &arg.ty));
        ExternFn {
            cfg: CfgExpr::Unconditional,
            lang: Lang::Rust,
            doc,
            attrs: OtherAttrs::default(),
            visibility: TOKEN,
            name: self.pair(item, self.ident(function.rust_name)),
            sig: Signature {
                throws: function.throws,
                ..signature(kind, args, function.ret.as_ref().map(|ret| self.ty(ret)))
            },
            semi_token: TOKEN,
            trusted: false,
        }
    }

    fn var(&self, name: &str, ty: &SheetType) -> Var {
        Var {
            cfg: CfgExpr::Unconditional,
            doc: Doc::new(),
            attrs: OtherAttrs::default(),
            visibility: TOKEN,
            name: Pair {
                namespace: Namespace::ROOT,
                cxx: ForeignName::new(name),
                rust: ident(name),
            },
            colon_token: TOKEN,
            ty: self.ty(ty),
        }
    }

    fn ty(&self, ty: &SheetType) -> Type {
        match ty {
            SheetType::Atom(atom) => named(ident(ATOMS[usize::from(*atom)].as_ref())),
            SheetType::Named(item) => named(type_ident(*item)),
            SheetType::RustBox(inner) => Type::RustBox(self.ty1("Box", inner)),
            SheetType::RustVec(inner) => Type::RustVec(self.ty1("Vec", inner)),
            SheetType::UniquePtr(inner) => Type::UniquePtr(self.ty1("UniquePtr", inner)),
            SheetType::SharedPtr(inner) => Type::SharedPtr(self.ty1("SharedPtr", inner)),
            SheetType::WeakPtr(inner) => Type::WeakPtr(self.ty1("WeakPtr", inner)),
            SheetType::CxxVector(inner) => Type::CxxVector(self.ty1("CxxVector", inner)),
            SheetType::Ref { mutable, inner } => Type::Ref(reference(*mutable, self.ty(inner))),
            SheetType::Str => Type::Str(reference(false, named(ident("str")))),
            SheetType::Ptr { mutable, inner } => Type::Ptr(Box::new(Ptr {
                star: TOKEN,
                mutable: *mutable,
                inner: self.ty(inner),
                mutability: match mutable {
                    true => PointerMutability::Mut(TOKEN),
                    false => PointerMutability::Const(TOKEN),
                },
            })),
            SheetType::SliceRef { mutable, inner } => Type::SliceRef(Box::new(SliceRef {
                ampersand: TOKEN,
                lifetime: None,
                mutable: *mutable,
                bracket: Bracket,
                inner: self.ty(inner),
                mutability: mutable.then_some(TOKEN),
            })),
            SheetType::Array { inner, len } => Type::Array(Box::new(Array {
                bracket: Bracket,
                inner: self.ty(inner),
                semi_token: TOKEN,
                len: *len as usize,
                len_token: LitInt::new(&len.to_string(), Span),
            })),
            SheetType::Fn { ret, args } => {
                let args = args.iter().map(|arg| self.var("arg", arg));
                let ret = ret.as_ref().map(|ret| self.ty(ret));
                Type::Fn(Box::new(signature(FnKind::Free, args, ret)))
            }
            SheetType::Unknown(_) => unreachable!("never decoded"),
        }
    }

    fn ty1(&self, name: &str, inner: &SheetType) -> Box<Ty1> {
        Box::new(Ty1 {
            name: ident(name),
            langle: TOKEN,
            inner: self.ty(inner),
            rangle: TOKEN,
        })
    }
}

const TOKEN: Token = syn::Token(Span);

/// `Atom` in its order.
const ATOMS: [Atom; 16] = [
    Atom::Bool,
    Atom::Char,
    Atom::U8,
    Atom::U16,
    Atom::U32,
    Atom::U64,
    Atom::Usize,
    Atom::I8,
    Atom::I16,
    Atom::I32,
    Atom::I64,
    Atom::Isize,
    Atom::F32,
    Atom::F64,
    Atom::CxxString,
    Atom::RustString,
];

fn ident(text: &str) -> Ident {
    Ident::new(text, Span)
}

/// A type's Rust name. It is made from the item number, because a type that is
/// called `u8` in C++ would be taken for the atom.
fn type_ident(item: ItemIndex) -> Ident {
    ident(&format!("T{item}"))
}

fn named_type(rust: Ident) -> NamedType {
    NamedType {
        rust,
        generics: Lifetimes::default(),
    }
}

fn named(rust: Ident) -> Type {
    Type::Ident(named_type(rust))
}

fn reference(mutable: bool, inner: Type) -> Box<Ref> {
    Box::new(Ref {
        pinned: false,
        ampersand: TOKEN,
        lifetime: None,
        mutable,
        inner,
        pin_tokens: None,
        mutability: mutable.then_some(TOKEN),
    })
}

fn receiver(item: ItemIndex, mutable: bool) -> Receiver {
    Receiver {
        pinned: false,
        ampersand: TOKEN,
        lifetime: None,
        mutable,
        var: TOKEN,
        ty: named_type(type_ident(item)),
        colon_token: TOKEN,
        shorthand: true,
        pin_tokens: None,
        mutability: mutable.then_some(TOKEN),
    }
}

fn signature(kind: FnKind, args: impl Iterator<Item = Var>, ret: Option<Type>) -> Signature {
    Signature {
        asyncness: None,
        unsafety: None,
        fn_token: TOKEN,
        generics: Generics,
        kind,
        args: args.collect(),
        ret,
        throws: false,
        paren_token: Paren,
        throws_tokens: None,
    }
}

fn extern_type(lang: Lang, name: Pair, pointer: bool) -> ExternType {
    ExternType {
        cfg: CfgExpr::Unconditional,
        lang,
        doc: Doc::new(),
        derives: Vec::new(),
        attrs: OtherAttrs { pointer },
        visibility: TOKEN,
        type_token: TOKEN,
        name,
        generics: Lifetimes::default(),
        colon_token: None,
        bounds: Vec::new(),
        semi_token: TOKEN,
        trusted: false,
    }
}
