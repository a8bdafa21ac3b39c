//! Good sheets with chosen faults.

use super::good::{comment_line, good, near_keyword, random_name, type_of_depth};
use crate::name::{ADDED_KEYWORDS, ALTERNATIVE_TOKENS, KEYWORDS};
use crate::{
    Arg, Form, Function, Item, ItemIndex, Kind, NameIndex, Refusal, Rng, Sheet, Type, encode,
    encode_bits, limit,
};

/// A good sheet with each of the faults put into it. With one fault, that is
/// the check's answer; with two, document 01's priorities decide.
pub fn faulty(rng: &mut Rng, faults: &[Refusal]) -> Vec<u8> {
    let mut sheet = good(rng);
    // The lowest number comes last, so that nothing put in later undoes it.
    let mut faults = faults.to_vec();
    faults.sort_by(|one, two| two.cmp(one));
    for fault in &faults {
        let mut draft = Draft {
            rng,
            sheet: &mut sheet,
        };
        match fault {
            Refusal::CutSheet | Refusal::Tail => {}
            Refusal::Edition => draft.edition(),
            Refusal::BadName => draft.bad_name(),
            Refusal::LooseIndex => draft.loose_index(),
            Refusal::BadKind => draft.bad_kind(),
            Refusal::TooDeep => draft.too_deep(),
            Refusal::BadComment => draft.bad_comment(),
            Refusal::WrongPart => draft.wrong_part(),
            Refusal::Taken => draft.taken(),
            Refusal::UnfitArgument => draft.unfit_argument(),
            Refusal::Ring => draft.ring(),
        }
    }
    let (mut bytes, bits) = encode_bits(&sheet);
    let whole = bytes.len();
    if faults.contains(&Refusal::Tail) {
        tail(rng, &mut bytes, bits);
    }
    if faults.contains(&Refusal::CutSheet) {
        if rng.one_in(50) {
            bytes.resize(limit::SHEET_BYTES + 1, 0);
        } else {
            bytes.truncate(rng.below(whole));
        }
    }
    bytes
}

/// A good sheet, but for a name that C++ reserves.
pub fn reserved(rng: &mut Rng) -> Vec<u8> {
    let mut sheet = good(rng);
    reserve(rng, &mut sheet);
    encode(&sheet)
}

/// Gives a name of the sheet a reserved shape, or adds one that nothing uses.
pub fn reserve(rng: &mut Rng, sheet: &mut Sheet) {
    let chars = reserved_name(rng);
    put_name(rng, sheet, chars);
}

/// A good sheet of edition 2, but for a keyword that C++20 added.
pub fn keyword(rng: &mut Rng) -> Vec<u8> {
    let mut sheet = loop {
        let sheet = good(rng);
        if sheet.edition == 2 {
            break sheet;
        }
    };
    put_keyword(rng, &mut sheet);
    encode(&sheet)
}

/// Gives a name of the sheet the characters of a keyword that C++20 added, or
/// adds one that nothing uses. A sheet of edition 1 is still accepted then.
pub fn put_keyword(rng: &mut Rng, sheet: &mut Sheet) {
    let chars = added_keyword(rng);
    put_name(rng, sheet, chars);
}

/// Does the same with some names that come close to keywords; a good sheet is
/// still good then, but where two of its names become one.
pub fn put_near_keywords(rng: &mut Rng, sheet: &mut Sheet) {
    for _ in 0..rng.between(1, 3) {
        let chars = near_keyword(rng);
        put_name(rng, sheet, chars);
    }
}

fn added_keyword(rng: &mut Rng) -> Vec<u8> {
    rng.pick(&ADDED_KEYWORDS).as_bytes().to_vec()
}

/// A base name with two underscores in a row, or with an underscore and a
/// capital in front.
fn reserved_name(rng: &mut Rng) -> Vec<u8> {
    let mut chars = random_name(rng);
    chars.truncate(limit::NAME_CHARS - 2);
    let (at, put) = match rng.below(8) {
        0 => return rng.pick(&["__", "___", "_A", "_Z"]).as_bytes().to_vec(),
        1..=3 => (0, [b'_', rng.between(b'A'.into(), b'Z'.into()) as u8]),
        4 => (0, *b"__"),
        5 => (chars.len(), *b"__"),
        _ => (rng.between(1, chars.len()), *b"__"),
    };
    chars.splice(at..at, put);
    chars
}

/// In the place of any name of the table, or behind the last.
fn put_name(rng: &mut Rng, sheet: &mut Sheet, chars: Vec<u8>) {
    let at = rng.below(sheet.names.len() + 1);
    if at == sheet.names.len() {
        sheet.names.push(chars);
    } else {
        sheet.names[at] = chars;
    }
}

fn tail(rng: &mut Rng, bytes: &mut Vec<u8>, bits: usize) {
    let pad = bytes.len() * 8 - bits;
    if pad > 0 && rng.bit() {
        *bytes.last_mut().unwrap() |= 1 << rng.below(pad);
    } else {
        let fill = if rng.bit() { 0 } else { rng.next_u64() as u8 };
        bytes.resize(bytes.len() + rng.between(1, 3), fill);
    }
}

/// An index of the sheet, of either sort.
enum Slot<'a> {
    Name(&'a mut NameIndex),
    Item(&'a mut ItemIndex),
}

fn each_slot(sheet: &mut Sheet, f: &mut impl FnMut(Slot)) {
    for item in &mut sheet.items {
        item.namespace
            .iter_mut()
            .for_each(|name| f(Slot::Name(name)));
        f(Slot::Name(&mut item.name));
        if let Kind::Function(function) = &mut item.kind {
            f(Slot::Name(&mut function.rust_name));
            match &mut function.form {
                Form::Free => {}
                Form::ConstMethod(item) | Form::MutMethod(item) | Form::Associated(item) => {
                    f(Slot::Item(item));
                }
            }
            for arg in &mut function.args {
                f(Slot::Name(&mut arg.name));
            }
        }
    }
    each_type(sheet, &mut |ty, _| {
        if let Type::Named(item) = ty {
            f(Slot::Item(item));
        }
    });
}

/// Calls `f` with each type and its depth.
fn each_type(sheet: &mut Sheet, f: &mut impl FnMut(&mut Type, usize)) {
    for item in &mut sheet.items {
        match &mut item.kind {
            Kind::Struct { fields, .. } => fields.iter_mut().for_each(|ty| inside(ty, 1, f)),
            Kind::Function(function) => {
                function.ret.iter_mut().for_each(|ty| inside(ty, 1, f));
                function
                    .args
                    .iter_mut()
                    .for_each(|arg| inside(&mut arg.ty, 1, f));
            }
            _ => {}
        }
    }
}

fn inside(ty: &mut Type, depth: usize, f: &mut impl FnMut(&mut Type, usize)) {
    f(ty, depth);
    match ty {
        Type::Atom(_) | Type::Named(_) | Type::Str | Type::Unknown(_) => {}
        Type::RustBox(inner)
        | Type::RustVec(inner)
        | Type::UniquePtr(inner)
        | Type::SharedPtr(inner)
        | Type::WeakPtr(inner)
        | Type::CxxVector(inner)
        | Type::Ref { inner, .. }
        | Type::Ptr { inner, .. }
        | Type::SliceRef { inner, .. }
        | Type::Array { inner, .. } => inside(inner, depth + 1, f),
        Type::Fn { ret, args } => {
            ret.iter_mut().for_each(|ret| inside(ret, depth + 1, f));
            args.iter_mut().for_each(|arg| inside(arg, depth + 1, f));
        }
    }
}

struct Draft<'d> {
    rng: &'d mut Rng,
    sheet: &'d mut Sheet,
}

impl Draft<'_> {
    fn named(&mut self, chars: &[u8]) -> NameIndex {
        // An earlier equal name or a new one: names are compared by characters.
        let known = self.sheet.names.iter().position(|name| name == chars);
        match known {
            Some(index) if self.rng.bit() => index as NameIndex,
            _ => {
                self.sheet.names.push(chars.to_vec());
                (self.sheet.names.len() - 1) as NameIndex
            }
        }
    }

    /// Another index of the same name.
    fn again(&mut self, index: NameIndex) -> NameIndex {
        let chars = self.sheet.names[usize::from(index)].clone();
        self.named(&chars)
    }

    fn fresh(&mut self) -> NameIndex {
        loop {
            let name = random_name(self.rng);
            if name.len() > 4 && !self.sheet.names.contains(&name) {
                return self.named(&name);
            }
        }
    }

    fn push(&mut self, kind: Kind) -> usize {
        let name = self.fresh();
        let namespace = match self.sheet.items.is_empty() {
            true => Vec::new(),
            false => self.rng.pick(&self.sheet.items).namespace.clone(),
        };
        self.sheet.items.push(Item {
            namespace,
            name,
            kind,
        });
        self.sheet.items.len() - 1
    }

    /// Any item of the sort, or a new one.
    fn find(&mut self, sort: fn(&Kind) -> bool, new: fn() -> Kind) -> usize {
        let items = self.sheet.items.iter().enumerate();
        let found: Vec<usize> = items
            .filter(|(_, item)| sort(&item.kind))
            .map(|(i, _)| i)
            .collect();
        if found.is_empty() || self.rng.one_in(4) {
            self.push(new())
        } else {
            *self.rng.pick(&found)
        }
    }

    /// A function; a new one has a symbol and a full name of its own.
    fn function(&mut self) -> usize {
        let index = self.find(|kind| matches!(kind, Kind::Function(_)), plain_function);
        if index + 1 == self.sheet.items.len() {
            let rust_name = self.fresh();
            self.function_at(index).rust_name = rust_name;
        }
        index
    }

    fn function_at(&mut self, index: usize) -> &mut Function {
        match &mut self.sheet.items[index].kind {
            Kind::Function(function) => function,
            _ => unreachable!("not a function"),
        }
    }

    fn structure(&mut self) -> usize {
        self.find(|kind| matches!(kind, Kind::Struct { .. }), plain_struct)
    }

    fn type_item(&mut self) -> usize {
        self.find(
            |kind| !matches!(kind, Kind::Function(_) | Kind::Unknown(_)),
            || Kind::CxxType { pointer: true },
        )
    }

    fn push_field(&mut self, index: usize, field: Type) {
        let Kind::Struct { fields, .. } = &mut self.sheet.items[index].kind else {
            unreachable!("not a struct");
        };
        fields.truncate(limit::FIELDS - 1);
        fields.push(field);
    }

    fn push_arg(&mut self, index: usize, arg: Arg) {
        let args = &mut self.function_at(index).args;
        args.truncate(limit::ARGUMENTS - 1);
        args.push(arg);
    }

    /// Changes one type of the sheet, outermost ones only if asked.
    fn change_type(&mut self, outermost: bool, new: Type) {
        let mut count = 0;
        each_type(self.sheet, &mut |_, depth| {
            count += usize::from(!outermost || depth == 1)
        });
        if count == 0 {
            let index = self.function();
            self.function_at(index).ret = Some(new);
            return;
        }
        let mut chosen = self.rng.below(count);
        let mut new = Some(new);
        each_type(self.sheet, &mut |ty, depth| {
            if !outermost || depth == 1 {
                if chosen == 0
                    && let Some(new) = new.take()
                {
                    *ty = new;
                }
                chosen = chosen.wrapping_sub(1);
            }
        });
    }

    fn edition(&mut self) {
        self.sheet.edition = match self.rng.below(14) {
            0 => 0,
            number => number as u8 + 2,
        };
    }

    fn bad_name(&mut self) {
        let mut chars = random_name(self.rng);
        let last = chars.len() - 1;
        let kinds = if self.sheet.edition == 2 { 10 } else { 8 };
        match self.rng.below(kinds) {
            0 => chars.clear(),
            1 => chars = self.rng.pick(&KEYWORDS).as_bytes().to_vec(),
            2 => chars = self.rng.pick(&ALTERNATIVE_TOKENS).as_bytes().to_vec(),
            3 => chars[0] = *self.rng.pick(b"0189 $.-@[`{/:"),
            4 => chars[last] = *self.rng.pick(b" $.-\0\n\x7f@[`{/:"),
            5 | 6 => chars = reserved_name(self.rng),
            8 | 9 => chars = added_keyword(self.rng),
            _ => chars[last / 2] = *self.rng.pick(b" $.-\0\n\x7f@[`{/:"),
        }
        put_name(self.rng, self.sheet, chars);
    }

    fn loose_index(&mut self) {
        if self.sheet.items.is_empty() {
            // An empty table: the index has no bits.
            self.sheet.names.clear();
            self.sheet.items.push(Item {
                namespace: Vec::new(),
                name: 0,
                kind: Kind::RustType { pointer: false },
            });
            return;
        }
        if self.rng.bit() {
            let index = self.function();
            let item = self.type_item();
            self.function_at(index).form = Form::Associated(item as ItemIndex);
        }
        // With a power of two every index is an entry.
        let tight = |count: usize| count < 3 || count.is_power_of_two();
        while tight(self.sheet.names.len()) {
            self.fresh();
        }
        while tight(self.sheet.items.len()) {
            self.push(Kind::CxxType { pointer: false });
        }
        while tight(self.sheet.names.len()) {
            self.fresh();
        }
        let (names, items) = (self.sheet.names.len(), self.sheet.items.len());
        let mut count = 0;
        each_slot(self.sheet, &mut |_| count += 1);
        let mut chosen = self.rng.below(count);
        let rng = &mut *self.rng;
        let mut loose = |entries: usize| rng.between(entries, entries.next_power_of_two() - 1);
        each_slot(self.sheet, &mut |slot| {
            if chosen == 0 {
                match slot {
                    Slot::Name(index) => *index = loose(names) as NameIndex,
                    Slot::Item(index) => *index = loose(items) as ItemIndex,
                }
            }
            chosen = chosen.wrapping_sub(1);
        });
    }

    fn bad_kind(&mut self) {
        match self.rng.below(3) {
            0 => {
                let kind = Kind::Unknown(self.rng.between(5, 7) as u8);
                if self.sheet.items.is_empty() {
                    self.push(kind);
                } else {
                    let at = self.rng.below(self.sheet.items.len());
                    self.sheet.items[at].kind = kind;
                }
            }
            1 => {
                let kind = *self.rng.pick(&[12, 15]);
                self.change_type(false, Type::Unknown(kind));
            }
            _ => {
                let index = self.find(
                    |kind| matches!(kind, Kind::Enum { .. }),
                    || Kind::Enum {
                        pointer: false,
                        atom: 2,
                        cxx: false,
                    },
                );
                let bad = *self.rng.pick(&[0, 1, 12, 13, 14, 15]);
                if let Kind::Enum { atom, .. } = &mut self.sheet.items[index].kind {
                    *atom = bad;
                }
            }
        }
    }

    fn too_deep(&mut self) {
        let depth = if self.rng.one_in(4) {
            self.rng.between(10, 12)
        } else {
            9
        };
        let deep = type_of_depth(self.rng, &[], depth);
        self.change_type(true, deep);
    }

    fn bad_comment(&mut self) {
        let index = self.function();
        let mut line = comment_line(self.rng);
        line.truncate(limit::COMMENT_CHARS - 1);
        if self.rng.bit() {
            line.push(b'\\');
        } else {
            let at = self.rng.below(line.len() + 1);
            let bad = *self.rng.pick(&[0, 9, 10, 13, 27, 31, 127]);
            line.insert(at, bad);
        }
        let at = self.rng.below(2);
        let comment = &mut self.function_at(index).comment;
        comment.truncate(limit::COMMENT_LINES - 1);
        comment.insert(at.min(comment.len()), line);
    }

    fn wrong_part(&mut self) {
        let function = self.function() as ItemIndex;
        let user = self.function();
        match self.rng.below(4) {
            0 => {
                self.function_at(user).form = match self.rng.below(3) {
                    0 => Form::ConstMethod(function),
                    1 => Form::MutMethod(function),
                    _ => Form::Associated(function),
                }
            }
            1 => {
                let holder = self.structure();
                self.push_field(holder, Type::Named(function));
            }
            2 => self.function_at(user).ret = Some(Type::Named(function)),
            _ => {
                let depth = self.rng.between(1, limit::TYPE_DEPTH);
                let ty = type_of_depth(self.rng, &[function], depth);
                let inner = Box::new(Type::Named(function));
                self.change_type(true, ty);
                self.function_at(user).ret = Some(Type::UniquePtr(inner));
            }
        }
    }

    fn taken(&mut self) {
        match self.rng.below(5) {
            0 => {
                if self.sheet.items.is_empty() {
                    self.push(Kind::RustType { pointer: false });
                }
                let word: &[u8] = if self.rng.bit() { b"std" } else { b"rust" };
                let name = self.named(word);
                let at = self.rng.below(self.sheet.items.len());
                match self.sheet.items[at].namespace.first_mut() {
                    Some(first) => *first = name,
                    None => self.sheet.items[at].namespace.push(name),
                }
            }
            1 => {
                let index = self.type_item();
                let mut copy = self.sheet.items[index].clone();
                copy.name = self.again(copy.name);
                for at in 0..copy.namespace.len() {
                    copy.namespace[at] = self.again(copy.namespace[at]);
                }
                copy.kind = match self.rng.below(4) {
                    0 => plain_struct(),
                    1 => Kind::Enum {
                        pointer: true,
                        atom: 4,
                        cxx: true,
                    },
                    2 => Kind::CxxType { pointer: true },
                    _ => Kind::RustType { pointer: true },
                };
                self.sheet.items.push(copy);
            }
            2 => {
                let index = self.function();
                let mut copy = self.sheet.items[index].clone();
                copy.name = self.fresh();
                self.sheet.items.push(copy);
            }
            3 => {
                // Two self types with one C++ name, in different namespaces.
                let index = self.function();
                let item = self.type_item();
                let mut other = self.sheet.items[item].clone();
                let namespace = self.fresh();
                other.namespace = vec![namespace];
                other.kind = Kind::RustType { pointer: true };
                self.sheet.items.push(other);
                let other = (self.sheet.items.len() - 1) as ItemIndex;
                self.function_at(index).form = Form::ConstMethod(item as ItemIndex);
                let mut copy = self.sheet.items[index].clone();
                if let Kind::Function(function) = &mut copy.kind {
                    function.form = Form::Associated(other);
                }
                self.sheet.items.push(copy);
            }
            _ => {
                let index = self.function();
                let name = self.fresh();
                let again = self.again(name);
                for name in [name, again] {
                    let ty = Type::Atom(self.rng.below(16) as u8);
                    self.function_at(index).args.truncate(limit::ARGUMENTS - 2);
                    self.push_arg(index, Arg { name, ty });
                }
            }
        }
    }

    fn unfit_argument(&mut self) {
        let index = self.function();
        let types = vec![self.type_item() as ItemIndex];
        match self.rng.below(3) {
            0 => {
                let depth = self.rng.between(1, limit::TYPE_DEPTH - 1);
                let inner = Box::new(type_of_depth(self.rng, &types, depth));
                let name = self.fresh();
                let ty = Type::CxxVector(inner);
                self.push_arg(index, Arg { name, ty });
            }
            1 => {
                let rust_name = self.fresh();
                let name = self.named(b"self");
                self.remove_arg(index, b"self");
                let function = self.function_at(index);
                function.rust_name = rust_name;
                function.form = Form::MutMethod(types[0]);
                let ty = type_of_depth(self.rng, &types, 1);
                self.push_arg(index, Arg { name, ty });
            }
            _ => {
                let name = self.named(b"error");
                self.remove_arg(index, b"error");
                self.function_at(index).throws = true;
                let inner = Box::new(type_of_depth(self.rng, &types, 2));
                let ty = match self.rng.below(6) {
                    0 => Type::Atom(crate::CXX_STRING),
                    1 => Type::RustVec(inner),
                    2 => Type::SharedPtr(inner),
                    3 => Type::WeakPtr(inner),
                    4 => Type::Array { inner, len: 3 },
                    _ => {
                        let item = self.push(Kind::RustType { pointer: true });
                        Type::Named(item as ItemIndex)
                    }
                };
                self.push_arg(index, Arg { name, ty });
            }
        }
    }

    fn remove_arg(&mut self, index: usize, chars: &[u8]) {
        let names = self.sheet.names.clone();
        let args = &mut self.function_at(index).args;
        args.retain(|arg| names[usize::from(arg.name)] != chars);
    }

    fn ring(&mut self) {
        let first = self.structure();
        let mut holder = first;
        for _ in 0..self.rng.below(4) {
            let held = self.structure();
            self.push_field(holder, Type::Named(held as ItemIndex));
            holder = held;
        }
        self.push_field(holder, Type::Named(first as ItemIndex));
    }
}

fn plain_function() -> Kind {
    Kind::Function(Function {
        rust_name: 0,
        form: Form::Free,
        throws: false,
        ret: None,
        args: Vec::new(),
        comment: Vec::new(),
    })
}

fn plain_struct() -> Kind {
    Kind::Struct {
        pointer: false,
        fields: Vec::new(),
    }
}
