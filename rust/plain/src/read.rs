//! From a sheet's bytes to flat storage, field by field as `sheet::decode`
//! reads them.

use crate::flat::{Arg, Function, Item, Kind, Sheet, Span, Type};
use sheet::Refusal::{self, *};
use sheet::name::is_name;
use sheet::{AtomNumber, BitReader, EDITIONS, Form, ItemIndex, NameIndex, index_width, limit};

type Result<T> = std::result::Result<T, Refusal>;

/// If `CHECKED`, stops at the first field at fault with one of refusals 1 to 8;
/// if not, trusts that there is none.
pub fn read<const CHECKED: bool>(bytes: &[u8]) -> Result<Sheet> {
    if CHECKED && bytes.len() > limit::SHEET_BYTES {
        return Err(CutSheet);
    }
    let mut reader = Reader::<CHECKED> {
        input: BitReader::new(bytes),
        edition: 0,
        names: 0,
        items: 0,
        sheet: Sheet::default(),
    };
    reader.sheet()?;
    Ok(reader.sheet)
}

struct Reader<'a, const CHECKED: bool> {
    input: BitReader<'a>,
    edition: u8,
    names: usize,
    items: usize,
    sheet: Sheet,
}

impl<const CHECKED: bool> Reader<'_, CHECKED> {
    fn number(&mut self, width: u32) -> Result<u32> {
        self.input.read(width).ok_or(CutSheet)
    }

    fn bit(&mut self) -> Result<bool> {
        Ok(self.number(1)? == 1)
    }

    fn index(&mut self, entries: usize) -> Result<usize> {
        let index = self.number(index_width(entries))? as usize;
        if CHECKED && index >= entries {
            return Err(LooseIndex);
        }
        Ok(index)
    }

    fn name_index(&mut self) -> Result<NameIndex> {
        Ok(self.index(self.names)? as NameIndex)
    }

    fn item_index(&mut self) -> Result<ItemIndex> {
        Ok(self.index(self.items)? as ItemIndex)
    }

    fn chars(&mut self, len: u32) -> Result<Span> {
        let start = self.sheet.chars.len();
        for _ in 0..len {
            let c = self.number(7)? as u8;
            self.sheet.chars.push(c);
        }
        Ok(span(start, self.sheet.chars.len()))
    }

    fn sheet(&mut self) -> Result<()> {
        self.edition = self.number(4)? as u8;
        if CHECKED && !EDITIONS.contains(&self.edition) {
            return Err(Edition);
        }
        self.sheet.header = self.bit()?;
        self.sheet.doxygen = self.bit()?;
        self.names = self.number(10)? as usize;
        self.sheet.chars.reserve_exact(self.input.bits_left() / 7);
        self.sheet.names.reserve_exact(self.names);
        for _ in 0..self.names {
            let name = self.name()?;
            self.sheet.names.push(name);
        }
        self.items = self.number(8)? as usize;
        self.reserve();
        for _ in 0..self.items {
            let item = self.item()?;
            self.sheet.items.push(item);
        }
        self.tail()
    }

    /// Gives the items' lists room for as much as there can be.
    fn reserve(&mut self) {
        let (sheet, items) = (&mut self.sheet, self.items);
        sheet.items.reserve_exact(items);
        sheet.namespaces.reserve_exact(items * limit::NAMESPACES);
        sheet.args.reserve_exact(items * limit::ARGUMENTS);
        sheet.lines.reserve_exact(items * limit::COMMENT_LINES);
        sheet.types.reserve_exact(self.input.bits_left() / 4);
    }

    fn name(&mut self) -> Result<Span> {
        let len = self.number(6)?;
        let name = self.chars(len)?;
        if CHECKED && !is_name(self.edition, self.sheet.chars(name)) {
            return Err(BadName);
        }
        Ok(name)
    }

    fn item(&mut self) -> Result<Item> {
        let kind = self.number(3)?;
        if CHECKED && kind > 4 {
            return Err(BadKind);
        }
        let depth = self.number(3)?;
        let start = self.sheet.namespaces.len();
        for _ in 0..depth {
            let name = self.name_index()?;
            self.sheet.namespaces.push(name);
        }
        let namespace = span(start, self.sheet.namespaces.len());
        let name = self.name_index()?;
        let kind = match kind {
            0 => self.structure()?,
            1 => self.enumeration()?,
            2 => Kind::CxxType {
                pointer: self.bit()?,
            },
            3 => Kind::RustType {
                pointer: self.bit()?,
            },
            _ => Kind::Function(self.function()?),
        };
        Ok(Item {
            namespace,
            name,
            kind,
        })
    }

    /// The text says nothing of the fields.
    fn structure(&mut self) -> Result<Kind> {
        let pointer = self.bit()?;
        let count = self.number(6)?;
        for _ in 0..count {
            self.ty(1)?;
        }
        Ok(Kind::Struct { pointer })
    }

    fn enumeration(&mut self) -> Result<Kind> {
        let pointer = self.bit()?;
        let atom = self.number(4)? as AtomNumber;
        if CHECKED && !(2..=11).contains(&atom) {
            return Err(BadKind);
        }
        let cxx = self.bit()?;
        Ok(Kind::Enum { pointer, atom, cxx })
    }

    fn function(&mut self) -> Result<Function> {
        let rust_name = self.name_index()?;
        let form = match self.number(2)? {
            0 => Form::Free,
            1 => Form::ConstMethod(self.item_index()?),
            2 => Form::MutMethod(self.item_index()?),
            _ => Form::Associated(self.item_index()?),
        };
        let throws = self.bit()?;
        let ret = if self.bit()? { Some(self.ty(1)?) } else { None };
        let count = self.number(5)?;
        let start = self.sheet.args.len();
        for _ in 0..count {
            let name = self.name_index()?;
            let ty = self.ty(1)?;
            self.sheet.args.push(Arg { name, ty });
        }
        let args = span(start, self.sheet.args.len());
        let count = self.number(5)?;
        let start = self.sheet.lines.len();
        for _ in 0..count {
            let line = self.comment_line()?;
            self.sheet.lines.push(line);
        }
        let comment = span(start, self.sheet.lines.len());
        Ok(Function {
            rust_name,
            form,
            throws,
            ret,
            args,
            comment,
        })
    }

    fn comment_line(&mut self) -> Result<Span> {
        let len = self.number(7)?;
        let line = self.chars(len)?;
        let chars = self.sheet.chars(line);
        if CHECKED
            && (chars.iter().any(|c| !(32..=126).contains(c)) || chars.last() == Some(&b'\\'))
        {
            return Err(BadComment);
        }
        Ok(line)
    }

    /// Appends a type, and those inside it; says where it begins.
    fn ty(&mut self, depth: usize) -> Result<u32> {
        let kind = self.number(4)?;
        if CHECKED && (kind == 12 || kind == 15) {
            return Err(BadKind);
        }
        if CHECKED && depth > limit::TYPE_DEPTH {
            return Err(TooDeep);
        }
        let inside = depth + 1;
        let start = self.sheet.types.len();
        match kind {
            0 => {
                let atom = self.number(4)? as AtomNumber;
                self.sheet.types.push(Type::Atom(atom));
            }
            1 => {
                let item = self.item_index()?;
                self.sheet.types.push(Type::Named(item));
            }
            2 => self.wrapper(Type::RustBox, inside)?,
            3 => self.wrapper(Type::RustVec, inside)?,
            4 => self.wrapper(Type::UniquePtr, inside)?,
            5 => self.wrapper(Type::SharedPtr, inside)?,
            6 => self.wrapper(Type::WeakPtr, inside)?,
            7 => {
                let mutable = self.bit()?;
                self.wrapper(Type::Ref { mutable }, inside)?;
            }
            8 => {
                let mutable = self.bit()?;
                self.wrapper(Type::Ptr { mutable }, inside)?;
            }
            9 => self.sheet.types.push(Type::Str),
            10 => self.wrapper(Type::CxxVector, inside)?,
            11 => {
                let ret = self.bit()?;
                self.sheet.types.push(Type::Fn { ret, args: 0 });
                if ret {
                    self.ty(inside)?;
                }
                let args = self.number(4)?;
                self.sheet.types[start] = Type::Fn { ret, args };
                for _ in 0..args {
                    self.ty(inside)?;
                }
            }
            13 => {
                let mutable = self.bit()?;
                self.wrapper(Type::SliceRef { mutable }, inside)?;
            }
            _ => {
                self.wrapper(Type::Array { len: 0 }, inside)?;
                let len = self.number(32)?;
                self.sheet.types[start] = Type::Array { len };
            }
        }
        Ok(start as u32)
    }

    fn wrapper(&mut self, ty: Type, inside: usize) -> Result<()> {
        self.sheet.types.push(ty);
        self.ty(inside)?;
        Ok(())
    }

    /// Zero bits up to the byte's end, and no byte more.
    fn tail(&mut self) -> Result<()> {
        let left = self.input.bits_left();
        if CHECKED && (left >= 8 || self.number(left as u32)? != 0) {
            return Err(Tail);
        }
        Ok(())
    }
}

fn span(start: usize, end: usize) -> Span {
    Span {
        start: start as u32,
        end: end as u32,
    }
}
