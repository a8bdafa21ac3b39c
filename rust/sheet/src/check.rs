//! The check in one walk over the bits. Nothing is built but tables: names get
//! the number of the first equal name, and each item leaves the few facts that
//! the rules 9 to 12 ask for.

use crate::Refusal::{self, *};
use crate::bits::{BitReader, index_width};
use crate::limit;
use crate::name::is_name;
use crate::value::EDITIONS;
use std::collections::HashSet;

type Result<T> = std::result::Result<T, Refusal>;

/// 0 for an accepted sheet, else the refusal's number.
pub fn check(bytes: &[u8]) -> u8 {
    match walk(bytes) {
        Ok(()) => 0,
        Err(refusal) => refusal.number(),
    }
}

/// A name as the number of the first equal one.
#[derive(Clone, Copy, PartialEq, Eq, Hash, Default)]
struct NameId(u16);

/// A path of namespaces, filled up behind its depth with the default.
type Path = (u8, [NameId; limit::NAMESPACES]);

/// What an outermost type says about the value that it describes.
#[derive(Clone, Copy)]
enum Outer {
    Direct,
    Indirect,
    RustString,
    CxxVector,
    Named(u8),
}

struct TypeItem {
    path: Path,
    name: NameId,
    pointer: bool,
}

struct FunctionItem {
    path: Path,
    rust_name: NameId,
    self_item: Option<u8>,
}

enum Entry {
    Type(TypeItem),
    Function(FunctionItem),
}

struct Walker<'a> {
    input: BitReader<'a>,
    name_width: u32,
    item_width: u32,
    items: usize,
    names: Vec<NameId>,
    std: Option<NameId>,
    rust: Option<NameId>,
    self_: Option<NameId>,
    error: Option<NameId>,
    entries: Vec<Entry>,
    /// Items that some index names.
    used: [bool; limit::ITEMS],
    /// Named types of arguments `error` in throwing functions.
    held_errors: [bool; limit::ITEMS],
    /// Holder and held, for fields that are plain named types.
    edges: Vec<(u8, u8)>,
    /// For each name the last function with an argument of that name.
    last_function: Vec<u16>,
    taken: bool,
    unfit: bool,
}

fn walk(bytes: &[u8]) -> Result<()> {
    if bytes.len() > limit::SHEET_BYTES {
        return Err(CutSheet);
    }
    let mut walker = Walker {
        input: BitReader::new(bytes),
        name_width: 0,
        item_width: 0,
        items: 0,
        names: Vec::new(),
        std: None,
        rust: None,
        self_: None,
        error: None,
        entries: Vec::new(),
        used: [false; limit::ITEMS],
        held_errors: [false; limit::ITEMS],
        edges: Vec::new(),
        last_function: Vec::new(),
        taken: false,
        unfit: false,
    };
    walker.sheet()?;
    walker.rules()
}

impl Walker<'_> {
    #[inline]
    fn number(&mut self, width: u32) -> Result<u32> {
        self.input.read(width).ok_or(CutSheet)
    }

    #[inline]
    fn bit(&mut self) -> Result<bool> {
        Ok(self.number(1)? == 1)
    }

    #[inline]
    fn name(&mut self) -> Result<NameId> {
        let index = self.number(self.name_width)? as usize;
        self.names.get(index).copied().ok_or(LooseIndex)
    }

    #[inline]
    fn item_index(&mut self) -> Result<u8> {
        let index = self.number(self.item_width)? as usize;
        if index >= self.items {
            return Err(LooseIndex);
        }
        self.used[index] = true;
        Ok(index as u8)
    }

    fn sheet(&mut self) -> Result<()> {
        let edition = self.number(4)? as u8;
        if !EDITIONS.contains(&edition) {
            return Err(Edition);
        }
        self.number(2)?;
        self.name_table(edition)?;
        self.items = self.number(8)? as usize;
        self.item_width = index_width(self.items);
        self.entries.reserve(self.items);
        for item in 0..self.items {
            let entry = self.item(item as u8)?;
            self.entries.push(entry);
        }
        let left = self.input.bits_left();
        if left < 8 && self.number(left as u32)? == 0 {
            Ok(())
        } else {
            Err(Tail)
        }
    }

    fn name_table(&mut self, edition: u8) -> Result<()> {
        let count = self.number(10)? as usize;
        // Buckets by hash, of name numbers plus one.
        let buckets = (2 * count).next_power_of_two();
        let mut first_by_hash = vec![0u16; buckets];
        let mut ends = Vec::with_capacity(count);
        let mut chars = Vec::with_capacity(count * 8);
        for number in 0..count {
            let start = chars.len();
            let len = self.number(6)?;
            let mut hash = 0xcbf2_9ce4_8422_2325u64;
            for _ in 0..len {
                let c = self.number(7)? as u8;
                hash = (hash ^ u64::from(c)).wrapping_mul(0x100_0000_01b3);
                chars.push(c);
            }
            ends.push(chars.len());
            let name = &chars[start..];
            if !is_name(edition, name) {
                return Err(BadName);
            }
            let mut bucket = (hash ^ hash >> 32) as usize & (buckets - 1);
            let id = loop {
                match first_by_hash[bucket] {
                    0 => {
                        first_by_hash[bucket] = number as u16 + 1;
                        break number;
                    }
                    other => {
                        let other = usize::from(other) - 1;
                        let other_start = if other == 0 { 0 } else { ends[other - 1] };
                        if &chars[other_start..ends[other]] == name {
                            break other;
                        }
                        bucket = (bucket + 1) & (buckets - 1);
                    }
                }
            };
            let id = NameId(id as u16);
            match name {
                b"std" => self.std = Some(id),
                b"rust" => self.rust = Some(id),
                b"self" => self.self_ = Some(id),
                b"error" => self.error = Some(id),
                _ => {}
            }
            self.names.push(id);
        }
        self.name_width = index_width(count);
        self.last_function = vec![u16::MAX; count];
        Ok(())
    }

    fn item(&mut self, number: u8) -> Result<Entry> {
        let kind = self.number(3)?;
        if kind > 4 {
            return Err(BadKind);
        }
        let depth = self.number(3)?;
        let mut path = [NameId::default(); limit::NAMESPACES];
        for segment in &mut path[..depth as usize] {
            *segment = self.name()?;
        }
        if depth > 0 {
            let first = Some(path[0]);
            self.taken |= first == self.std || first == self.rust;
        }
        let path = (depth as u8, path);
        let name = self.name()?;
        if kind == 4 {
            return Ok(Entry::Function(self.function(number, path)?));
        }
        let pointer = self.bit()?;
        match kind {
            0 => {
                for _ in 0..self.number(6)? {
                    if let Outer::Named(held) = self.ty(1)? {
                        self.edges.push((number, held));
                    }
                }
            }
            1 => {
                if !(2..=11).contains(&self.number(4)?) {
                    return Err(BadKind);
                }
                self.bit()?;
            }
            _ => {}
        }
        Ok(Entry::Type(TypeItem {
            path,
            name,
            pointer,
        }))
    }

    fn function(&mut self, number: u8, path: Path) -> Result<FunctionItem> {
        let rust_name = self.name()?;
        let form = self.number(2)?;
        let self_item = match form {
            0 => None,
            _ => Some(self.item_index()?),
        };
        let is_method = form == 1 || form == 2;
        let throws = self.bit()?;
        if self.bit()? {
            self.ty(1)?;
        }
        for _ in 0..self.number(5)? {
            let name = self.name()?;
            let last = &mut self.last_function[usize::from(name.0)];
            self.taken |= *last == u16::from(number);
            *last = u16::from(number);
            self.unfit |= is_method && Some(name) == self.self_;
            let holds_error = throws && Some(name) == self.error;
            match self.ty(1)? {
                Outer::CxxVector => self.unfit = true,
                Outer::Indirect => self.unfit |= holds_error,
                Outer::Named(item) => self.held_errors[usize::from(item)] |= holds_error,
                Outer::Direct | Outer::RustString => {}
            }
        }
        for _ in 0..self.number(5)? {
            self.comment_line()?;
        }
        Ok(FunctionItem {
            path,
            rust_name,
            self_item,
        })
    }

    fn comment_line(&mut self) -> Result<()> {
        let mut bad = false;
        let mut last = 0;
        for _ in 0..self.number(7)? {
            last = self.number(7)? as u8;
            bad |= !(32..=126).contains(&last);
        }
        if bad || last == b'\\' {
            return Err(BadComment);
        }
        Ok(())
    }

    fn ty(&mut self, depth: usize) -> Result<Outer> {
        let kind = self.number(4)?;
        if kind == 12 || kind == 15 {
            return Err(BadKind);
        }
        if depth > limit::TYPE_DEPTH {
            return Err(TooDeep);
        }
        match kind {
            0 => {
                return Ok(match self.number(4)? {
                    14 => Outer::Indirect,
                    15 => Outer::RustString,
                    _ => Outer::Direct,
                });
            }
            1 => return Ok(Outer::Named(self.item_index()?)),
            2..=6 | 10 => {
                self.ty(depth + 1)?;
            }
            7 | 8 | 13 => {
                self.bit()?;
                self.ty(depth + 1)?;
            }
            11 => {
                if self.bit()? {
                    self.ty(depth + 1)?;
                }
                for _ in 0..self.number(4)? {
                    self.ty(depth + 1)?;
                }
            }
            14 => {
                self.ty(depth + 1)?;
                self.number(32)?;
            }
            _ => {}
        }
        Ok(match kind {
            3 | 5 | 6 | 14 => Outer::Indirect,
            10 => Outer::CxxVector,
            _ => Outer::Direct,
        })
    }

    fn rules(&self) -> Result<()> {
        if self.wrong_part() {
            return Err(WrongPart);
        }
        if self.taken || self.two_alike() {
            return Err(Taken);
        }
        if self.unfit || self.error_is_held() {
            return Err(UnfitArgument);
        }
        if self.ring() {
            return Err(Ring);
        }
        Ok(())
    }

    fn wrong_part(&self) -> bool {
        let mut uses = self.entries.iter().zip(&self.used);
        uses.any(|(entry, used)| *used && matches!(entry, Entry::Function(_)))
    }

    /// Two types with one full name, or two functions with one symbol.
    fn two_alike(&self) -> bool {
        let mut full_names = HashSet::new();
        let mut symbols = HashSet::new();
        !self.entries.iter().all(|entry| match entry {
            Entry::Type(item) => full_names.insert((item.path, item.name)),
            Entry::Function(item) => {
                let self_name =
                    item.self_item
                        .map(|index| match &self.entries[usize::from(index)] {
                            Entry::Type(self_type) => self_type.name,
                            Entry::Function(_) => unreachable!("rule 9"),
                        });
                symbols.insert((item.path, self_name, item.rust_name))
            }
        })
    }

    fn error_is_held(&self) -> bool {
        let mut held = self.entries.iter().zip(&self.held_errors);
        held.any(|(entry, held)| *held && matches!(entry, Entry::Type(item) if item.pointer))
    }

    /// Takes out, again and again, an item that nothing left holds; a ring is
    /// what cannot be taken out.
    fn ring(&self) -> bool {
        let mut holders = [0u32; limit::ITEMS];
        for (_, held) in &self.edges {
            holders[usize::from(*held)] += 1;
        }
        let mut start = [0; limit::ITEMS + 1];
        for (holder, _) in &self.edges {
            start[usize::from(*holder) + 1] += 1;
        }
        for item in 0..limit::ITEMS {
            start[item + 1] += start[item];
        }
        let mut free: Vec<usize> = (0..self.items).filter(|item| holders[*item] == 0).collect();
        let mut taken_out = 0;
        while let Some(item) = free.pop() {
            taken_out += 1;
            for (_, held) in &self.edges[start[item]..start[item + 1]] {
                let held = usize::from(*held);
                holders[held] -= 1;
                if holders[held] == 0 {
                    free.push(held);
                }
            }
        }
        taken_out < self.items
    }
}
