//! The value of a sheet. It keeps the name table and its indexes, so that a
//! value has exactly one encoding. Values that no sheet may have can be built
//! too: tests encode them to make damaged sheets.

use std::ops::RangeInclusive;

/// The editions of accepted sheets: 1 is ISO C++17, 2 is ISO C++20. They differ
/// in the keywords that are no names, and in nothing else.
pub const EDITIONS: RangeInclusive<u8> = 1..=2;

/// An index into the name table.
pub type NameIndex = u16;
/// An index into the items, counted from 0.
pub type ItemIndex = u8;
/// An atom's number: its place in `Atom`, from 0.
pub type AtomNumber = u8;

pub const RUST_STRING: AtomNumber = 15;
pub const CXX_STRING: AtomNumber = 14;

#[derive(Clone, PartialEq, Eq, Debug)]
pub struct Sheet {
    /// 1 or 2 in every decoded sheet.
    pub edition: u8,
    pub header: bool,
    pub doxygen: bool,
    pub names: Vec<Vec<u8>>,
    pub items: Vec<Item>,
}

#[derive(Clone, PartialEq, Eq, Debug)]
pub struct Item {
    pub namespace: Vec<NameIndex>,
    /// The C++ name.
    pub name: NameIndex,
    pub kind: Kind,
}

#[derive(Clone, PartialEq, Eq, Debug)]
pub enum Kind {
    Struct {
        pointer: bool,
        fields: Vec<Type>,
    },
    Enum {
        pointer: bool,
        atom: AtomNumber,
        cxx: bool,
    },
    CxxType {
        pointer: bool,
    },
    RustType {
        pointer: bool,
    },
    Function(Function),
    /// Kinds 5 to 7; never decoded.
    Unknown(u8),
}

#[derive(Clone, PartialEq, Eq, Debug)]
pub struct Function {
    pub rust_name: NameIndex,
    pub form: Form,
    pub throws: bool,
    pub ret: Option<Type>,
    pub args: Vec<Arg>,
    pub comment: Vec<Vec<u8>>,
}

#[derive(Clone, Copy, PartialEq, Eq, Debug)]
pub enum Form {
    Free,
    ConstMethod(ItemIndex),
    MutMethod(ItemIndex),
    Associated(ItemIndex),
}

#[derive(Clone, PartialEq, Eq, Debug)]
pub struct Arg {
    pub name: NameIndex,
    pub ty: Type,
}

#[derive(Clone, PartialEq, Eq, Debug)]
pub enum Type {
    Atom(AtomNumber),
    Named(ItemIndex),
    RustBox(Box<Type>),
    RustVec(Box<Type>),
    UniquePtr(Box<Type>),
    SharedPtr(Box<Type>),
    WeakPtr(Box<Type>),
    Ref {
        mutable: bool,
        inner: Box<Type>,
    },
    Ptr {
        mutable: bool,
        inner: Box<Type>,
    },
    Str,
    CxxVector(Box<Type>),
    Fn {
        ret: Option<Box<Type>>,
        args: Vec<Type>,
    },
    SliceRef {
        mutable: bool,
        inner: Box<Type>,
    },
    Array {
        inner: Box<Type>,
        len: u32,
    },
    /// Kinds 12 and 15; never decoded.
    Unknown(u8),
}

impl Sheet {
    /// An empty sheet of edition 1.
    pub fn empty() -> Self {
        Sheet {
            edition: 1,
            header: false,
            doxygen: false,
            names: Vec::new(),
            items: Vec::new(),
        }
    }

    /// The characters of a name.
    pub fn name(&self, index: NameIndex) -> &[u8] {
        &self.names[usize::from(index)]
    }

    pub fn item(&self, index: ItemIndex) -> &Item {
        &self.items[usize::from(index)]
    }
}

impl Item {
    pub fn is_function(&self) -> bool {
        matches!(self.kind, Kind::Function(_))
    }
}

impl Kind {
    pub fn number(&self) -> u8 {
        match self {
            Kind::Struct { .. } => 0,
            Kind::Enum { .. } => 1,
            Kind::CxxType { .. } => 2,
            Kind::RustType { .. } => 3,
            Kind::Function(_) => 4,
            Kind::Unknown(kind) => *kind,
        }
    }
}

impl Form {
    pub fn number(self) -> u8 {
        match self {
            Form::Free => 0,
            Form::ConstMethod(_) => 1,
            Form::MutMethod(_) => 2,
            Form::Associated(_) => 3,
        }
    }

    pub fn self_item(self) -> Option<ItemIndex> {
        match self {
            Form::Free => None,
            Form::ConstMethod(item) | Form::MutMethod(item) | Form::Associated(item) => Some(item),
        }
    }

    pub fn is_method(self) -> bool {
        matches!(self, Form::ConstMethod(_) | Form::MutMethod(_))
    }
}

impl Type {
    pub fn number(&self) -> u8 {
        match self {
            Type::Atom(_) => 0,
            Type::Named(_) => 1,
            Type::RustBox(_) => 2,
            Type::RustVec(_) => 3,
            Type::UniquePtr(_) => 4,
            Type::SharedPtr(_) => 5,
            Type::WeakPtr(_) => 6,
            Type::Ref { .. } => 7,
            Type::Ptr { .. } => 8,
            Type::Str => 9,
            Type::CxxVector(_) => 10,
            Type::Fn { .. } => 11,
            Type::SliceRef { .. } => 13,
            Type::Array { .. } => 14,
            Type::Unknown(kind) => *kind,
        }
    }

    /// Calls `f` with each type directly inside this one, in sheet order.
    pub fn each_inner(&self, f: &mut impl FnMut(&Type)) {
        match self {
            Type::Atom(_) | Type::Named(_) | Type::Str | Type::Unknown(_) => {}
            Type::RustBox(inner)
            | Type::RustVec(inner)
            | Type::UniquePtr(inner)
            | Type::SharedPtr(inner)
            | Type::WeakPtr(inner)
            | Type::CxxVector(inner)
            | Type::Ref { inner, .. }
            | Type::Ptr { inner, .. }
            | Type::SliceRef { inner, .. }
            | Type::Array { inner, .. } => f(inner),
            Type::Fn { ret, args } => {
                ret.iter().for_each(|ret| f(ret));
                args.iter().for_each(f);
            }
        }
    }

    /// Calls `f` with each item index of the type, in sheet order.
    pub fn each_item(&self, f: &mut dyn FnMut(ItemIndex)) {
        if let Type::Named(item) = self {
            f(*item);
        }
        self.each_inner(&mut |inner| inner.each_item(f));
    }
}
