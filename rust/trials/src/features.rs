//! What occurs in the sheets of a run, so that a report can say so.

use sheet::name::{ADDED_KEYWORDS, is_near, words};
use sheet::{Form, Function, Item, Kind, RUST_STRING, Sheet, Type, indirect, limit};
use std::collections::BTreeSet;
use std::fmt::{self, Display};

/// How many of each were in the sheets.
#[derive(Default)]
pub struct Features {
    counts: Vec<(&'static str, u64)>,
    /// In edition 1 and 2, the keywords from which a name differs in a character.
    near: [BTreeSet<&'static str>; 2],
}

impl Features {
    pub fn count(&mut self, sheet: &Sheet) {
        let functions = sheet.items.iter().filter(|item| item.is_function()).count();
        let keyword = |name: &Vec<u8>| ADDED_KEYWORDS.iter().any(|word| word.as_bytes() == name);
        let older = sheet.names.iter().any(keyword);
        self.add("sheets of edition 1", sheet.edition == 1);
        self.add("sheets of edition 2", sheet.edition == 2);
        self.add("sheets with a keyword of C++20 as a name", older);
        self.names(sheet);
        self.add("sheets with the header bit", sheet.header);
        self.add("sheets with the Doxygen bit", sheet.doxygen);
        self.add("sheets with both", sheet.header && sheet.doxygen);
        self.add("sheets of 255 functions", functions == limit::ITEMS);
        self.add("sheets with 200 functions or more", functions >= 200);
        self.add("sheets that reopen a namespace", reopens(sheet));
        for item in &sheet.items {
            match &item.kind {
                Kind::Function(function) => self.function(sheet, item, function),
                Kind::Enum { cxx, .. } => self.add("enums that C++ owns", *cxx),
                _ => {}
            }
        }
    }

    fn names(&mut self, sheet: &Sheet) {
        let [mut near, mut begins, mut underscore] = [false; 3];
        for name in &sheet.names {
            for word in words(sheet.edition) {
                if is_near(name, word.as_bytes()) {
                    near = true;
                    self.near[usize::from(sheet.edition) - 1].insert(word);
                }
                begins |= word.as_bytes().starts_with(name);
            }
            let places = name.iter().enumerate().skip(7);
            let mut borders = places.filter(|(at, _)| [7, 0].contains(&(at % 8)));
            underscore |= borders.any(|(_, c)| *c == b'_');
        }
        self.add("sheets with a name near a keyword", near);
        self.add("sheets with a name that begins a keyword", begins);
        self.add(
            "sheets with an underscore at an end of eight characters",
            underscore,
        );
    }

    fn function(&mut self, sheet: &Sheet, item: &Item, function: &Function) {
        let form = function.form.number();
        self.add("free functions", form == 0);
        self.add("const methods", form == 1);
        self.add("mutable methods", form == 2);
        self.add("associated functions", form == 3);
        self.add("functions that throw", function.throws);
        let namespaces = item.namespace.len();
        self.add("functions in 7 namespaces", namespaces == limit::NAMESPACES);
        let lines = function.comment.len();
        self.add("functions with one comment line", lines == 1);
        self.add("functions with more lines", lines > 1);
        let arguments = function.args.len();
        self.add("functions with 31 arguments", arguments == limit::ARGUMENTS);
        let types = function.args.iter().map(|arg| &arg.ty);
        let mut signature = types.clone().chain(&function.ret);
        let deep = signature.any(|ty| depth(ty) == limit::TYPE_DEPTH);
        self.add("functions with a type of depth 8", deep);
        let main = sheet.name(item.name) == b"main"
            && item.namespace.is_empty()
            && function.form == Form::Free
            && !function.throws
            && function.ret.is_none()
            && function.args.is_empty();
        self.add("int main", main);

        let ret = function.ret.as_ref();
        let slot = ret.is_some_and(|ret| function.throws || indirect(sheet, ret));
        let reference = matches!(ret, Some(Type::Ref { .. }));
        self.add("returns by a slot", slot && !reference);
        self.add("returns of a reference by a slot", slot && reference);
        self.add("other returns", ret.is_some() && !slot);
        for ty in types {
            let pointer = matches!(ty, Type::RustBox(_) | Type::UniquePtr(_));
            let string = *ty == Type::Atom(RUST_STRING);
            let indirect = indirect(sheet, ty);
            self.add("Box and UniquePtr arguments", pointer);
            self.add("String arguments", string);
            self.add("other indirect arguments", indirect && !string);
            self.add("other arguments", !pointer && !indirect);
        }
    }

    fn add(&mut self, label: &'static str, occurs: bool) {
        let count = u64::from(occurs);
        match self.counts.iter_mut().find(|(other, _)| *other == label) {
            Some((_, sum)) => *sum += count,
            None => self.counts.push((label, count)),
        }
    }
}

impl Display for Features {
    fn fmt(&self, out: &mut fmt::Formatter) -> fmt::Result {
        for (label, count) in &self.counts {
            writeln!(out, "{count:9} {label}")?;
        }
        if self.counts.is_empty() {
            return Ok(());
        }
        for (edition, near) in (1..).zip(&self.near) {
            let count = near.len();
            writeln!(
                out,
                "{count:9} keywords of edition {edition} with a name near them"
            )?;
        }
        Ok(())
    }
}

/// Whether an item stands in a namespace that an item before it has left.
fn reopens(sheet: &Sheet) -> bool {
    let paths: Vec<_> = sheet.items.iter().map(|item| &item.namespace).collect();
    (2..paths.len()).any(|at| {
        let before = &paths[..at - 1];
        !paths[at].is_empty() && paths[at] != paths[at - 1] && before.contains(&paths[at])
    })
}

fn depth(ty: &Type) -> usize {
    let mut inner = 0;
    ty.each_inner(&mut |ty| inner = inner.max(depth(ty)));
    inner + 1
}
