//! From bytes to a value, or to the first field at fault: refusals 1 to 8.
//!
//! Every field is read whole before it is judged, so at one field a cut sheet
//! comes before anything else that is wrong there.

use crate::Refusal::{self, *};
use crate::bits::{BitReader, index_width};
use crate::limit;
use crate::name::{is_base_name, is_name};
use crate::value::*;

type Result<T> = std::result::Result<T, Refusal>;

/// A name rule: whether the characters are a name in a sheet of this edition.
pub type NameRule = fn(edition: u8, chars: &[u8]) -> bool;

pub fn decode(bytes: &[u8]) -> Result<Sheet> {
    decode_by(is_name, bytes)
}

/// The same by the base rule of names, which lets reserved identifiers and the
/// keywords that C++20 added through.
pub fn decode_base(bytes: &[u8]) -> Result<Sheet> {
    decode_by(|_, chars| is_base_name(chars), bytes)
}

pub fn decode_by(is_name: NameRule, bytes: &[u8]) -> Result<Sheet> {
    if bytes.len() > limit::SHEET_BYTES {
        return Err(CutSheet);
    }
    let mut decoder = Decoder {
        input: BitReader::new(bytes),
        is_name,
        edition: 0,
        names: 0,
        items: 0,
    };
    decoder.sheet()
}

struct Decoder<'a> {
    input: BitReader<'a>,
    is_name: NameRule,
    edition: u8,
    names: usize,
    items: usize,
}

impl Decoder<'_> {
    fn number(&mut self, width: u32) -> Result<u32> {
        self.input.read(width).ok_or(CutSheet)
    }

    fn bit(&mut self) -> Result<bool> {
        Ok(self.number(1)? == 1)
    }

    fn index(&mut self, entries: usize) -> Result<usize> {
        let index = self.number(index_width(entries))? as usize;
        if index < entries {
            Ok(index)
        } else {
            Err(LooseIndex)
        }
    }

    fn name_index(&mut self) -> Result<NameIndex> {
        Ok(self.index(self.names)? as NameIndex)
    }

    fn item_index(&mut self) -> Result<ItemIndex> {
        Ok(self.index(self.items)? as ItemIndex)
    }

    fn chars(&mut self, len: u32) -> Result<Vec<u8>> {
        (0..len).map(|_| Ok(self.number(7)? as u8)).collect()
    }

    fn sheet(&mut self) -> Result<Sheet> {
        self.edition = self.number(4)? as u8;
        if !EDITIONS.contains(&self.edition) {
            return Err(Edition);
        }
        let header = self.bit()?;
        let doxygen = self.bit()?;
        self.names = self.number(10)? as usize;
        let names = (0..self.names)
            .map(|_| self.name())
            .collect::<Result<_>>()?;
        self.items = self.number(8)? as usize;
        let items = (0..self.items)
            .map(|_| self.item())
            .collect::<Result<_>>()?;
        self.tail()?;
        Ok(Sheet {
            edition: self.edition,
            header,
            doxygen,
            names,
            items,
        })
    }

    fn name(&mut self) -> Result<Vec<u8>> {
        let len = self.number(6)?;
        let chars = self.chars(len)?;
        if (self.is_name)(self.edition, &chars) {
            Ok(chars)
        } else {
            Err(BadName)
        }
    }

    fn item(&mut self) -> Result<Item> {
        let kind = self.number(3)?;
        if kind > 4 {
            return Err(BadKind);
        }
        let depth = self.number(3)?;
        let namespace = (0..depth)
            .map(|_| self.name_index())
            .collect::<Result<_>>()?;
        let name = self.name_index()?;
        let kind = match kind {
            0 => self.structure()?,
            1 => self.enumeration()?,
            2 => Kind::CxxType {
                pointer: self.bit()?,
            },
            3 => Kind::RustType {
                pointer: self.bit()?,
            },
            _ => Kind::Function(self.function()?),
        };
        Ok(Item {
            namespace,
            name,
            kind,
        })
    }

    fn structure(&mut self) -> Result<Kind> {
        let pointer = self.bit()?;
        let count = self.number(6)?;
        let fields = (0..count).map(|_| self.ty(1)).collect::<Result<_>>()?;
        Ok(Kind::Struct { pointer, fields })
    }

    fn enumeration(&mut self) -> Result<Kind> {
        let pointer = self.bit()?;
        let atom = self.number(4)? as AtomNumber;
        if !(2..=11).contains(&atom) {
            return Err(BadKind);
        }
        let cxx = self.bit()?;
        Ok(Kind::Enum { pointer, atom, cxx })
    }

    fn function(&mut self) -> Result<Function> {
        let rust_name = self.name_index()?;
        let form = match self.number(2)? {
            0 => Form::Free,
            1 => Form::ConstMethod(self.item_index()?),
            2 => Form::MutMethod(self.item_index()?),
            _ => Form::Associated(self.item_index()?),
        };
        let throws = self.bit()?;
        let ret = self.optional(1)?;
        let count = self.number(5)?;
        let args = (0..count)
            .map(|_| {
                let name = self.name_index()?;
                let ty = self.ty(1)?;
                Ok(Arg { name, ty })
            })
            .collect::<Result<_>>()?;
        let count = self.number(5)?;
        let comment = (0..count)
            .map(|_| self.comment_line())
            .collect::<Result<_>>()?;
        Ok(Function {
            rust_name,
            form,
            throws,
            ret,
            args,
            comment,
        })
    }

    fn comment_line(&mut self) -> Result<Vec<u8>> {
        let len = self.number(7)?;
        let chars = self.chars(len)?;
        if chars.iter().all(|c| (32..=126).contains(c)) && chars.last() != Some(&b'\\') {
            Ok(chars)
        } else {
            Err(BadComment)
        }
    }

    fn optional(&mut self, depth: usize) -> Result<Option<Type>> {
        if self.bit()? {
            Ok(Some(self.ty(depth)?))
        } else {
            Ok(None)
        }
    }

    fn boxed(&mut self, depth: usize) -> Result<Box<Type>> {
        Ok(Box::new(self.ty(depth)?))
    }

    fn ty(&mut self, depth: usize) -> Result<Type> {
        let kind = self.number(4)?;
        if kind == 12 || kind == 15 {
            return Err(BadKind);
        }
        if depth > limit::TYPE_DEPTH {
            return Err(TooDeep);
        }
        let inside = depth + 1;
        Ok(match kind {
            0 => Type::Atom(self.number(4)? as AtomNumber),
            1 => Type::Named(self.item_index()?),
            2 => Type::RustBox(self.boxed(inside)?),
            3 => Type::RustVec(self.boxed(inside)?),
            4 => Type::UniquePtr(self.boxed(inside)?),
            5 => Type::SharedPtr(self.boxed(inside)?),
            6 => Type::WeakPtr(self.boxed(inside)?),
            7 => Type::Ref {
                mutable: self.bit()?,
                inner: self.boxed(inside)?,
            },
            8 => Type::Ptr {
                mutable: self.bit()?,
                inner: self.boxed(inside)?,
            },
            9 => Type::Str,
            10 => Type::CxxVector(self.boxed(inside)?),
            11 => {
                let ret = self.optional(inside)?.map(Box::new);
                let count = self.number(4)?;
                let args = (0..count).map(|_| self.ty(inside)).collect::<Result<_>>()?;
                Type::Fn { ret, args }
            }
            13 => Type::SliceRef {
                mutable: self.bit()?,
                inner: self.boxed(inside)?,
            },
            _ => Type::Array {
                inner: self.boxed(inside)?,
                len: self.number(32)?,
            },
        })
    }

    /// Zero bits up to the byte's end, and no byte more.
    fn tail(&mut self) -> Result<()> {
        let left = self.input.bits_left();
        if left < 8 && self.number(left as u32)? == 0 {
            Ok(())
        } else {
            Err(Tail)
        }
    }
}
