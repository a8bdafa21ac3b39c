//! A readable form of sheets, one item per line:
//!
//! ```text
//! # a remark; blank lines are skipped
//! edition 2
//! header
//! doxygen
//! names mill Job count job
//! rust-type mill::Job
//! cxx-type mill::Disc indirect
//! struct mill::Pair indirect { u8, ::mill::Job, [bool; 3] }
//! enum mill::Mode u8
//! enum mill::Axis i32 cxx
//! /// a comment line of the function below, as it stands behind the slashes
//! fn mill::count(job: &::mill::Job) -> u32
//! fn mill::turn as turn_rust throws mut ::mill::Job (by: f64, mode: #3)
//! ```
//!
//! Without a line `edition` a sheet is of edition 1; any edition from 0 to 15 can
//! be written.
//!
//! A function's words are, in this order and each of them optional: `as` and
//! the Rust name, `throws`, and the form: `const`, `mut` or `assoc` and a type
//! item. An item is a full name with `::` in front, or `#` and its number.
//! Types are written as in Rust; `fn(u8) -> bool` is a Fn.
//!
//! The names' order in the table is that of the line `names`, then that of
//! their first use.

use crate::value::*;
use std::fmt::Write;

#[rustfmt::skip]
const ATOMS: [&str; 16] = [
    "bool", "c_char", "u8", "u16", "u32", "u64", "usize", "i8", "i16", "i32", "i64", "isize",
    "f32", "f64", "CxxString", "String",
];

type Result<T> = std::result::Result<T, String>;

/// The sheet of a description; an error names the line.
pub fn parse(text: &str) -> Result<Sheet> {
    let mut sheet = Sheet::empty();
    // Types may be named before they stand, so their full names come first.
    let mut full_names = Vec::new();
    for line in text.lines().map(str::trim) {
        let mut parser = Parser::new(line, &mut sheet, &[]);
        if let Some(word) = parser.item_word() {
            let path = parser.path().unwrap_or_default();
            full_names.push((word != "fn").then(|| format!("::{}", path.join("::"))));
        }
    }
    let mut comment = Vec::new();
    for (number, line) in text.lines().enumerate() {
        let at = |message| format!("line {}: {message}", number + 1);
        if let Some(line) = line.trim_start().strip_prefix("///") {
            comment.push(line.as_bytes().to_vec());
            continue;
        }
        let mut parser = Parser::new(line.trim(), &mut sheet, &full_names);
        parser.line(&mut comment).map_err(at)?;
    }
    Ok(sheet)
}

struct Parser<'p> {
    rest: &'p str,
    sheet: &'p mut Sheet,
    full_names: &'p [Option<String>],
}

impl<'p> Parser<'p> {
    fn new(line: &'p str, sheet: &'p mut Sheet, full_names: &'p [Option<String>]) -> Self {
        Parser {
            rest: line,
            sheet,
            full_names,
        }
    }

    fn skip(&mut self, token: &str) -> bool {
        match self.rest.trim_start().strip_prefix(token) {
            Some(rest) => {
                self.rest = rest;
                true
            }
            None => false,
        }
    }

    fn expect(&mut self, token: &str) -> Result<()> {
        if self.skip(token) {
            return Ok(());
        }
        Err(format!("`{token}` expected at `{}`", self.rest))
    }

    fn peek_word(&self) -> &'p str {
        let rest = self.rest.trim_start();
        let is_word = |c: char| c.is_ascii_alphanumeric() || c == '_';
        &rest[..rest.find(|c| !is_word(c)).unwrap_or(rest.len())]
    }

    fn skip_word(&mut self, word: &str) -> bool {
        self.peek_word() == word && self.skip(word)
    }

    fn word(&mut self) -> Result<&'p str> {
        let word = self.peek_word();
        if word.is_empty() {
            return Err(format!("a name expected at `{}`", self.rest));
        }
        self.skip(word);
        Ok(word)
    }

    fn name(&mut self, chars: &str) -> NameIndex {
        let names = &mut self.sheet.names;
        let known = names.iter().position(|name| name == chars.as_bytes());
        let index = known.unwrap_or_else(|| {
            names.push(chars.as_bytes().to_vec());
            names.len() - 1
        });
        index as NameIndex
    }

    fn path(&mut self) -> Result<Vec<&'p str>> {
        let mut path = vec![self.word()?];
        while self.skip("::") {
            path.push(self.word()?);
        }
        Ok(path)
    }

    /// The word that begins an item's line.
    fn item_word(&mut self) -> Option<&'static str> {
        let words = ["struct", "enum", "cxx-type", "rust-type", "fn"];
        let word = words.into_iter().find(|word| {
            let rest = self.rest.strip_prefix(word);
            rest.is_some_and(|rest| rest.starts_with(' '))
        })?;
        self.skip(word);
        Some(word)
    }

    fn line(&mut self, comment: &mut Vec<Vec<u8>>) -> Result<()> {
        if self.rest.is_empty() || self.rest.starts_with('#') {
            return Ok(());
        }
        let Some(word) = self.item_word() else {
            match self.word()? {
                "edition" => {
                    let word = self.word()?;
                    let edition = word.parse().ok().filter(|edition| *edition < 16);
                    self.sheet.edition = edition.ok_or(format!("`{word}` is no edition"))?;
                }
                "header" => self.sheet.header = true,
                "doxygen" => self.sheet.doxygen = true,
                "names" => {
                    let names = self.rest.split_whitespace();
                    let names = names.map(|name| name.as_bytes().to_vec());
                    self.sheet.names.extend(names);
                    return Ok(());
                }
                other => return Err(format!("`{other}` begins no line")),
            }
            return self.end();
        };
        let path: Vec<NameIndex> = self
            .path()?
            .into_iter()
            .map(|name| self.name(name))
            .collect();
        let (name, namespace) = path.split_last().expect("a path has a name");
        let (name, namespace) = (*name, namespace.to_vec());
        let kind = match word {
            "fn" => Kind::Function(self.function(name, std::mem::take(comment))?),
            _ => {
                let pointer = self.skip_word("indirect");
                match word {
                    "struct" => {
                        self.expect("{")?;
                        let fields = self.list("}", Self::ty)?;
                        Kind::Struct { pointer, fields }
                    }
                    "enum" => {
                        let word = self.word()?;
                        let atom = atom(word).ok_or(format!("`{word}` is no atom"))?;
                        let cxx = self.skip_word("cxx");
                        Kind::Enum { pointer, atom, cxx }
                    }
                    "cxx-type" => Kind::CxxType { pointer },
                    _ => Kind::RustType { pointer },
                }
            }
        };
        self.sheet.items.push(Item {
            namespace,
            name,
            kind,
        });
        self.end()
    }

    fn end(&self) -> Result<()> {
        if self.rest.trim().is_empty() {
            return Ok(());
        }
        Err(format!("`{}` is too much", self.rest.trim()))
    }

    fn function(&mut self, name: NameIndex, comment: Vec<Vec<u8>>) -> Result<Function> {
        let rust_name = if self.skip_word("as") {
            let word = self.word()?;
            self.name(word)
        } else {
            name
        };
        let throws = self.skip_word("throws");
        let form = if self.skip_word("const") {
            Form::ConstMethod(self.item()?)
        } else if self.skip_word("mut") {
            Form::MutMethod(self.item()?)
        } else if self.skip_word("assoc") {
            Form::Associated(self.item()?)
        } else {
            Form::Free
        };
        self.expect("(")?;
        let args = self.list(")", |parser| {
            let word = parser.word()?;
            let name = parser.name(word);
            parser.expect(":")?;
            let ty = parser.ty()?;
            Ok(Arg { name, ty })
        })?;
        let ret = if self.skip("->") {
            Some(self.ty()?)
        } else {
            None
        };
        Ok(Function {
            rust_name,
            form,
            throws,
            ret,
            args,
            comment,
        })
    }

    /// Comma-separated entries up to the closing token.
    fn list<T>(&mut self, close: &str, entry: fn(&mut Self) -> Result<T>) -> Result<Vec<T>> {
        let mut entries = Vec::new();
        while !self.skip(close) {
            if !entries.is_empty() {
                self.expect(",")?;
            }
            entries.push(entry(self)?);
        }
        Ok(entries)
    }

    fn item(&mut self) -> Result<ItemIndex> {
        if self.skip("#") {
            let word = self.word()?;
            return word.parse().map_err(|_| format!("`#{word}` is no item"));
        }
        self.expect("::")?;
        let full_name = format!("::{}", self.path()?.join("::"));
        let mut items = self.full_names.iter();
        let item = items.position(|name| name.as_ref() == Some(&full_name));
        Ok(item.ok_or(format!("no type `{full_name}`"))? as ItemIndex)
    }

    fn boxed(&mut self) -> Result<Box<Type>> {
        Ok(Box::new(self.ty()?))
    }

    fn ty(&mut self) -> Result<Type> {
        if self.skip("*") {
            let mutable = self.skip_word("mut");
            if !mutable && !self.skip_word("const") {
                return Err("`const` or `mut` expected behind `*`".into());
            }
            let inner = self.boxed()?;
            return Ok(Type::Ptr { mutable, inner });
        }
        if self.skip("&") {
            if self.skip_word("str") {
                return Ok(Type::Str);
            }
            let mutable = self.skip_word("mut");
            let inner = match self.bracket()? {
                Some((inner, None)) => return Ok(Type::SliceRef { mutable, inner }),
                Some((inner, Some(len))) => Box::new(Type::Array { inner, len }),
                None => self.boxed()?,
            };
            return Ok(Type::Ref { mutable, inner });
        }
        if let Some((inner, len)) = self.bracket()? {
            let len = len.ok_or("a slice stands behind `&`")?;
            return Ok(Type::Array { inner, len });
        }
        if self.rest.trim_start().starts_with(['#', ':']) {
            return Ok(Type::Named(self.item()?));
        }
        let word = self.word()?;
        if let Some(atom) = atom(word) {
            return Ok(Type::Atom(atom));
        }
        if word == "fn" {
            self.expect("(")?;
            let args = self.list(")", Self::ty)?;
            let ret = if self.skip("->") {
                Some(self.boxed()?)
            } else {
                None
            };
            return Ok(Type::Fn { ret, args });
        }
        self.expect("<")?;
        let inner = self.boxed()?;
        self.expect(">")?;
        Ok(match word {
            "Box" => Type::RustBox(inner),
            "Vec" => Type::RustVec(inner),
            "UniquePtr" => Type::UniquePtr(inner),
            "SharedPtr" => Type::SharedPtr(inner),
            "WeakPtr" => Type::WeakPtr(inner),
            "CxxVector" => Type::CxxVector(inner),
            _ => return Err(format!("`{word}` is no type")),
        })
    }

    /// `[T]` or `[T; n]`.
    fn bracket(&mut self) -> Result<Option<(Box<Type>, Option<u32>)>> {
        if !self.skip("[") {
            return Ok(None);
        }
        let inner = self.boxed()?;
        let len = if self.skip(";") {
            let word = self.word()?;
            Some(word.parse().map_err(|_| format!("`{word}` is no length"))?)
        } else {
            None
        };
        self.expect("]")?;
        Ok(Some((inner, len)))
    }
}

fn atom(word: &str) -> Option<AtomNumber> {
    let atom = ATOMS.iter().position(|atom| *atom == word)?;
    Some(atom as AtomNumber)
}

/// The description of a decoded sheet. Equal names of the table come out as
/// one name, at its first place.
pub fn print(sheet: &Sheet) -> String {
    let mut out = String::new();
    if sheet.edition != 1 {
        writeln!(out, "edition {}", sheet.edition).unwrap();
    }
    if sheet.header {
        out.push_str("header\n");
    }
    if sheet.doxygen {
        out.push_str("doxygen\n");
    }
    if !sheet.names.is_empty() {
        out.push_str("names");
        for name in &sheet.names {
            write!(out, " {}", name.escape_ascii()).unwrap();
        }
        out.push('\n');
    }
    let item = |index: ItemIndex| format!("#{index}");
    for entry in &sheet.items {
        let path: Vec<String> = (entry.namespace.iter().chain([&entry.name]))
            .map(|name| sheet.name(*name).escape_ascii().to_string())
            .collect();
        let path = path.join("::");
        let indirect = |pointer: bool| if pointer { " indirect" } else { "" };
        match &entry.kind {
            Kind::Struct { pointer, fields } => {
                let fields: Vec<String> = fields.iter().map(print_type).collect();
                let fields = fields.join(", ");
                writeln!(out, "struct {path}{} {{ {fields} }}", indirect(*pointer))
            }
            Kind::Enum { pointer, atom, cxx } => {
                let atom = ATOMS[usize::from(*atom)];
                let cxx = if *cxx { " cxx" } else { "" };
                writeln!(out, "enum {path}{} {atom}{cxx}", indirect(*pointer))
            }
            Kind::CxxType { pointer } => writeln!(out, "cxx-type {path}{}", indirect(*pointer)),
            Kind::RustType { pointer } => writeln!(out, "rust-type {path}{}", indirect(*pointer)),
            Kind::Function(function) => {
                for line in &function.comment {
                    writeln!(out, "///{}", String::from_utf8_lossy(line)).unwrap();
                }
                let rust_name = sheet.name(function.rust_name).escape_ascii();
                write!(out, "fn {path} as {rust_name}").unwrap();
                if function.throws {
                    out.push_str(" throws");
                }
                match function.form {
                    Form::Free => {}
                    Form::ConstMethod(index) => write!(out, " const {}", item(index)).unwrap(),
                    Form::MutMethod(index) => write!(out, " mut {}", item(index)).unwrap(),
                    Form::Associated(index) => write!(out, " assoc {}", item(index)).unwrap(),
                }
                let args = function.args.iter().map(|arg| {
                    let name = sheet.name(arg.name).escape_ascii();
                    format!("{name}: {}", print_type(&arg.ty))
                });
                let args = args.collect::<Vec<_>>().join(", ");
                let ret = function.ret.as_ref();
                let ret = ret.map_or(String::new(), |ret| format!(" -> {}", print_type(ret)));
                writeln!(out, " ({args}){ret}")
            }
            Kind::Unknown(kind) => writeln!(out, "# item of kind {kind}"),
        }
        .unwrap();
    }
    out
}

fn print_type(ty: &Type) -> String {
    let mutable_ref = |mutable: bool| if mutable { "&mut " } else { "&" };
    match ty {
        Type::Atom(atom) => ATOMS[usize::from(*atom)].into(),
        Type::Named(item) => format!("#{item}"),
        Type::RustBox(inner) => format!("Box<{}>", print_type(inner)),
        Type::RustVec(inner) => format!("Vec<{}>", print_type(inner)),
        Type::UniquePtr(inner) => format!("UniquePtr<{}>", print_type(inner)),
        Type::SharedPtr(inner) => format!("SharedPtr<{}>", print_type(inner)),
        Type::WeakPtr(inner) => format!("WeakPtr<{}>", print_type(inner)),
        Type::CxxVector(inner) => format!("CxxVector<{}>", print_type(inner)),
        Type::Ref { mutable, inner } => format!("{}{}", mutable_ref(*mutable), print_type(inner)),
        Type::Ptr { mutable, inner } => {
            let word = if *mutable { "mut" } else { "const" };
            format!("*{word} {}", print_type(inner))
        }
        Type::Str => "&str".into(),
        Type::SliceRef { mutable, inner } => {
            format!("{}[{}]", mutable_ref(*mutable), print_type(inner))
        }
        Type::Array { inner, len } => format!("[{}; {len}]", print_type(inner)),
        Type::Fn { ret, args } => {
            let args: Vec<String> = args.iter().map(print_type).collect();
            let ret = ret.as_ref();
            let ret = ret.map_or(String::new(), |ret| format!(" -> {}", print_type(ret)));
            format!("fn({}){ret}", args.join(", "))
        }
        Type::Unknown(kind) => format!("kind{kind}"),
    }
}

/// Bytes as hex digits, 32 bytes on a line.
pub fn hex(bytes: &[u8]) -> String {
    let line = |line: &[u8]| -> String {
        let digits: String = line.iter().map(|byte| format!("{byte:02x}")).collect();
        digits + "\n"
    };
    bytes.chunks(32).map(line).collect()
}

/// The bytes of hex digits; blanks and line ends are skipped.
pub fn unhex(text: &str) -> Option<Vec<u8>> {
    let digit = |c: char| Some(c.to_digit(16)? as u8);
    let digits = text.chars().filter(|c| !c.is_ascii_whitespace());
    let digits: Vec<u8> = digits.map(digit).collect::<Option<_>>()?;
    let (pairs, rest) = digits.as_chunks::<2>();
    let bytes = pairs.iter().map(|[high, low]| high << 4 | low).collect();
    rest.is_empty().then_some(bytes)
}

#[cfg(test)]
mod tests {
    use super::*;

    #[test]
    fn a_description() {
        let text = "# a remark\n\ndoxygen\nnames z\nrust-type mill::Job\n\
            enum mill::Axis indirect i32 cxx\n/// one\n///\n\
            fn mill::turn as turn_rust throws mut ::mill::Job (by: &mut [f64], axis: #1) -> &str";
        let sheet = parse(text).unwrap();
        assert!(sheet.doxygen && !sheet.header);
        assert_eq!(sheet.edition, 1);
        let names = [
            "z",
            "mill",
            "Job",
            "Axis",
            "turn",
            "turn_rust",
            "by",
            "axis",
        ];
        assert_eq!(sheet.names, names.map(|name| name.as_bytes().to_vec()));
        let Kind::Function(function) = &sheet.items[2].kind else {
            panic!("the third item is a function");
        };
        assert_eq!(function.form, Form::MutMethod(0));
        assert_eq!(function.comment, [b" one".to_vec(), Vec::new()]);
        assert_eq!(function.args[1].ty, Type::Named(1));
        assert_eq!(function.ret, Some(Type::Str));
        assert!(function.throws);
    }

    /// Names that a check refuses are taken as they are, to be tried.
    #[test]
    fn bad_names() {
        let sheet = parse("names 3d\nrust-type __::_Tool\nfn int(a__b: u8)").unwrap();
        let names = ["3d", "__", "_Tool", "int", "a__b"];
        assert_eq!(sheet.names, names.map(|name| name.as_bytes().to_vec()));
        let text = "names __ _Tool a__b\nrust-type __::_Tool\nfn a__b as a__b ()\n";
        let bytes = crate::encode(&parse(text).unwrap());
        assert_eq!(crate::check(&bytes), 3);
        assert_eq!(print(&crate::decode_base(&bytes).unwrap()), text);
    }

    #[test]
    fn editions() {
        assert_eq!(parse("edition 1\nheader"), parse("header"));
        for edition in 0..16 {
            let text = format!("edition {edition}\nheader\nnames concept\n");
            let sheet = parse(&text).unwrap();
            assert_eq!(sheet.edition, edition);
            let printed = print(&sheet);
            assert_eq!(parse(&printed), Ok(sheet));
            assert_eq!(printed == text, edition != 1);
        }
        let text = "edition 2\ndoxygen\nnames concept_ f\nfn f as f (concept_: u8)\n";
        let bytes = crate::encode(&parse(text).unwrap());
        assert_eq!(print(&crate::decode(&bytes).unwrap()), text);
    }

    #[test]
    fn faults_name_their_line() {
        for (text, message) in [
            ("header\nfoo", "line 2: `foo` begins no line"),
            ("fn f(x)", "line 1: `:` expected at `)`"),
            ("fn f() -> ::T", "line 1: no type `::T`"),
            ("fn f() -> Rc<u8>", "line 1: `Rc` is no type"),
            ("enum E u7", "line 1: `u7` is no atom"),
            ("rust-type T maybe", "line 1: `maybe` is too much"),
            ("edition 16", "line 1: `16` is no edition"),
            ("edition two", "line 1: `two` is no edition"),
            ("edition", "line 1: a name expected at ``"),
            ("edition 2 3", "line 1: `3` is too much"),
        ] {
            assert_eq!(parse(text), Err(message.into()));
        }
    }

    #[test]
    fn hex_digits() {
        assert_eq!(hex(&[0x10, 0xaf]), "10af\n");
        assert_eq!(unhex("10 aF\n"), Some(vec![0x10, 0xaf]));
        assert_eq!(unhex("1"), None);
        assert_eq!(unhex("0g"), None);
    }
}
