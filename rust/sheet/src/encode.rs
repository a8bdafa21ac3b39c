//! From a value to the bytes of its sheet. Values that document 01 refuses are
//! encoded too: an index is cut to its width, and an unknown kind has no fields.

use crate::bits::{BitWriter, index_width};
use crate::value::*;

pub fn encode(sheet: &Sheet) -> Vec<u8> {
    encode_bits(sheet).0
}

/// The bytes, and the number of bits in front of the tail.
pub fn encode_bits(sheet: &Sheet) -> (Vec<u8>, usize) {
    let mut encoder = Encoder {
        out: BitWriter::default(),
        name_width: index_width(sheet.names.len()),
        item_width: index_width(sheet.items.len()),
    };
    encoder.sheet(sheet);
    encoder.out.finish()
}

/// The bytes of a sheet, with another edition in their first four bits. There
/// is a first byte.
pub fn with_edition(bytes: &[u8], edition: u8) -> Vec<u8> {
    assert!(edition < 16);
    let mut bytes = bytes.to_vec();
    bytes[0] = edition << 4 | bytes[0] & 0x0f;
    bytes
}

struct Encoder {
    out: BitWriter,
    name_width: u32,
    item_width: u32,
}

impl Encoder {
    fn number(&mut self, width: u32, value: usize) {
        assert!(value < 1 << width, "{value} does not fit {width} bits");
        self.out.write(width, value as u32);
    }

    fn bit(&mut self, bit: bool) {
        self.out.write(1, bit.into());
    }

    fn name_index(&mut self, index: NameIndex) {
        self.out.write(self.name_width, index.into());
    }

    fn item_index(&mut self, index: ItemIndex) {
        self.out.write(self.item_width, index.into());
    }

    fn chars(&mut self, chars: &[u8]) {
        chars.iter().for_each(|c| self.number(7, usize::from(*c)));
    }

    fn sheet(&mut self, sheet: &Sheet) {
        self.number(4, sheet.edition.into());
        self.bit(sheet.header);
        self.bit(sheet.doxygen);
        self.number(10, sheet.names.len());
        for name in &sheet.names {
            self.number(6, name.len());
            self.chars(name);
        }
        self.number(8, sheet.items.len());
        for item in &sheet.items {
            self.item(item);
        }
    }

    fn item(&mut self, item: &Item) {
        self.number(3, item.kind.number().into());
        self.number(3, item.namespace.len());
        for index in &item.namespace {
            self.name_index(*index);
        }
        self.name_index(item.name);
        match &item.kind {
            Kind::Struct { pointer, fields } => {
                self.bit(*pointer);
                self.number(6, fields.len());
                fields.iter().for_each(|ty| self.ty(ty));
            }
            Kind::Enum { pointer, atom, cxx } => {
                self.bit(*pointer);
                self.number(4, (*atom).into());
                self.bit(*cxx);
            }
            Kind::CxxType { pointer } | Kind::RustType { pointer } => self.bit(*pointer),
            Kind::Function(function) => self.function(function),
            Kind::Unknown(_) => {}
        }
    }

    fn function(&mut self, function: &Function) {
        self.name_index(function.rust_name);
        self.number(2, function.form.number().into());
        if let Some(item) = function.form.self_item() {
            self.item_index(item);
        }
        self.bit(function.throws);
        self.optional(function.ret.as_ref());
        self.number(5, function.args.len());
        for arg in &function.args {
            self.name_index(arg.name);
            self.ty(&arg.ty);
        }
        self.number(5, function.comment.len());
        for line in &function.comment {
            self.number(7, line.len());
            self.chars(line);
        }
    }

    fn optional(&mut self, ty: Option<&Type>) {
        self.bit(ty.is_some());
        if let Some(ty) = ty {
            self.ty(ty);
        }
    }

    fn ty(&mut self, ty: &Type) {
        self.number(4, ty.number().into());
        match ty {
            Type::Atom(atom) => self.number(4, (*atom).into()),
            Type::Named(item) => self.item_index(*item),
            Type::RustBox(inner)
            | Type::RustVec(inner)
            | Type::UniquePtr(inner)
            | Type::SharedPtr(inner)
            | Type::WeakPtr(inner)
            | Type::CxxVector(inner) => self.ty(inner),
            Type::Ref { mutable, inner }
            | Type::Ptr { mutable, inner }
            | Type::SliceRef { mutable, inner } => {
                self.bit(*mutable);
                self.ty(inner);
            }
            Type::Str | Type::Unknown(_) => {}
            Type::Fn { ret, args } => {
                self.optional(ret.as_deref());
                self.number(4, args.len());
                args.iter().for_each(|arg| self.ty(arg));
            }
            Type::Array { inner, len } => {
                self.ty(inner);
                self.out.write(32, *len);
            }
        }
    }
}
