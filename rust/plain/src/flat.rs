//! A sheet in flat storage: a list for each sort of part, and ranges or indexes
//! from one into another.

use sheet::{AtomNumber, CXX_STRING, Form, ItemIndex, NameIndex, RUST_STRING};

/// A range of one of the lists.
#[derive(Clone, Copy)]
pub struct Span {
    pub start: u32,
    pub end: u32,
}

#[derive(Default)]
pub struct Sheet {
    pub header: bool,
    pub doxygen: bool,
    /// The characters of all names and comment lines.
    pub chars: Vec<u8>,
    /// Of `chars`.
    pub names: Vec<Span>,
    /// Of `chars`.
    pub lines: Vec<Span>,
    /// The namespaces of all items.
    pub namespaces: Vec<NameIndex>,
    /// Each type is in front of those inside it.
    pub types: Vec<Type>,
    pub args: Vec<Arg>,
    pub items: Vec<Item>,
}

pub struct Item {
    /// Of `namespaces`.
    pub namespace: Span,
    /// The C++ name.
    pub name: NameIndex,
    pub kind: Kind,
}

pub enum Kind {
    Struct {
        pointer: bool,
    },
    Enum {
        pointer: bool,
        atom: AtomNumber,
        cxx: bool,
    },
    CxxType {
        pointer: bool,
    },
    RustType {
        pointer: bool,
    },
    Function(Function),
}

pub struct Function {
    pub rust_name: NameIndex,
    pub form: Form,
    pub throws: bool,
    /// Where it begins in `types`.
    pub ret: Option<u32>,
    /// Of `args`.
    pub args: Span,
    /// Of `lines`.
    pub comment: Span,
}

pub struct Arg {
    pub name: NameIndex,
    /// Where it begins in `types`.
    pub ty: u32,
}

/// The types inside it follow it.
#[derive(Clone, Copy)]
pub enum Type {
    Atom(AtomNumber),
    Named(ItemIndex),
    RustBox,
    RustVec,
    UniquePtr,
    SharedPtr,
    WeakPtr,
    Ref { mutable: bool },
    Ptr { mutable: bool },
    Str,
    CxxVector,
    Fn { ret: bool, args: u32 },
    SliceRef { mutable: bool },
    Array { len: u32 },
}

impl Sheet {
    /// The characters of a name.
    pub fn name(&self, index: NameIndex) -> &[u8] {
        self.chars(self.names[usize::from(index)])
    }

    pub fn chars(&self, span: Span) -> &[u8] {
        part(&self.chars, span)
    }

    pub fn item(&self, index: ItemIndex) -> &Item {
        &self.items[usize::from(index)]
    }

    pub fn namespace(&self, item: &Item) -> &[NameIndex] {
        part(&self.namespaces, item.namespace)
    }

    pub fn args(&self, function: &Function) -> &[Arg] {
        part(&self.args, function.args)
    }

    pub fn comment(&self, function: &Function) -> &[Span] {
        part(&self.lines, function.comment)
    }

    /// A type, and whatever is behind it.
    pub fn types(&self, start: u32) -> &[Type] {
        &self.types[start as usize..]
    }

    /// The type that an argument is, without those inside it.
    pub fn outermost(&self, arg: &Arg) -> Type {
        self.types[arg.ty as usize]
    }
}

/// A range of a list.
fn part<T>(list: &[T], span: Span) -> &[T] {
    &list[span.start as usize..span.end as usize]
}

/// `needs_indirect_abi`: a named type has it from its pointer bit.
pub fn indirect(sheet: &Sheet, ty: Type) -> bool {
    match ty {
        Type::Atom(atom) => matches!(atom, CXX_STRING | RUST_STRING),
        Type::Named(item) => match sheet.item(item).kind {
            Kind::Struct { pointer }
            | Kind::Enum { pointer, .. }
            | Kind::CxxType { pointer }
            | Kind::RustType { pointer } => pointer,
            Kind::Function(_) => false,
        },
        Type::RustVec | Type::SharedPtr | Type::WeakPtr | Type::CxxVector | Type::Array { .. } => {
            true
        }
        Type::RustBox
        | Type::UniquePtr
        | Type::Ref { .. }
        | Type::Ptr { .. }
        | Type::Str
        | Type::Fn { .. }
        | Type::SliceRef { .. } => false,
    }
}
