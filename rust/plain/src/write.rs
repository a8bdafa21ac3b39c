//! write.rs, and the symbols of mangle.rs.

use crate::flat::{Arg, Function, Item, Kind, Sheet, Span, Type, indirect};
use crate::nested::NamespaceEntries;
use crate::out::{Block, OutFile};
use sheet::{AtomNumber, Form, ItemIndex, RUST_STRING};

/// Enough for every indent: two for each of seven namespaces.
const SPACES: &[u8] = b"              ";

pub fn write_forward_declarations(out: &mut OutFile) {
    let sheet = out.sheet;
    let needs_forward_declaration = |item: &&Item| match item.kind {
        Kind::Enum { cxx, .. } => !cxx,
        Kind::Function(_) => false,
        _ => true,
    };
    let items = sheet.items.iter().filter(needs_forward_declaration);
    let entries = NamespaceEntries::new(sheet, items.collect());

    out.next_section();
    write(out, &entries, 0);

    fn write(out: &mut OutFile, entries: &NamespaceEntries, indent: usize) {
        let sheet = out.sheet;
        let indented = &SPACES[..indent];
        for item in &entries.direct {
            out.write(indented);
            match item.kind {
                Kind::Enum { atom, .. } => {
                    out.write(b"enum class ");
                    out.write(sheet.name(item.name));
                    out.write(b" : ");
                    write_atom(out, atom);
                }
                Kind::CxxType { .. } => {
                    out.write(b"using ");
                    out.write(sheet.name(item.name));
                    out.write(b" = ");
                    write_full_name(out, item);
                }
                _ => {
                    out.write(b"struct ");
                    out.write(sheet.name(item.name));
                }
            }
            out.write(b";\n");
        }
        for (namespace, inner) in &entries.nested {
            out.write(indented);
            out.write(b"namespace ");
            out.write(namespace);
            out.write(b" {\n");
            write(out, inner, indent + 2);
            out.write(indented);
            out.write(b"}\n");
        }
    }
}

pub fn write_functions(out: &mut OutFile) {
    let sheet = out.sheet;
    if !sheet.header {
        for item in &sheet.items {
            match &item.kind {
                Kind::RustType { .. } => write_opaque_type_layout_decls(out, item),
                Kind::Function(function) => write_rust_function_decl(out, item, function),
                _ => {}
            }
        }
    }
    for item in &sheet.items {
        match &item.kind {
            Kind::RustType { .. } => write_opaque_type_layout(out, item),
            Kind::Function(function) => {
                out.next_section();
                write_rust_function_shim(out, item, function);
            }
            _ => {}
        }
    }
}

fn write_doc(out: &mut OutFile, doc: &[Span]) {
    let slashes: &[u8] = if out.sheet.doxygen { b"///" } else { b"//" };
    for line in doc {
        out.write(slashes);
        out.write(out.sheet.chars(*line));
        out.write(b"\n");
    }
    if out.sheet.doxygen && doc.len() == 1 {
        out.write(b"///\n");
    }
}

const LAYOUT: [(&[u8], &[u8]); 2] = [(b"sizeof", b"size"), (b"alignof", b"align")];

fn write_opaque_type_layout_decls<'s>(out: &mut OutFile<'s, '_>, item: &'s Item) {
    out.set_namespace(out.sheet.namespace(item));
    out.begin_block(Block::ExternC);
    for (operator, _) in LAYOUT {
        out.write(b"::std::size_t ");
        write_operator(out, item, operator);
        out.write(b"() noexcept;\n");
    }
    out.end_block(Block::ExternC);
}

fn write_opaque_type_layout<'s>(out: &mut OutFile<'s, '_>, item: &'s Item) {
    if out.sheet.header {
        return;
    }
    out.set_namespace(out.sheet.namespace(item));
    for (operator, function) in LAYOUT {
        out.next_section();
        out.write(b"::std::size_t ");
        out.write(out.sheet.name(item.name));
        out.write(b"::layout::");
        out.write(function);
        out.write(b"() noexcept {\n  return ");
        write_operator(out, item, operator);
        out.write(b"();\n}\n");
    }
}

fn write_rust_function_decl<'s>(out: &mut OutFile<'s, '_>, item: &'s Item, function: &'s Function) {
    let sheet = out.sheet;
    out.set_namespace(out.sheet.namespace(item));
    out.begin_block(Block::ExternC);
    out.next_section();
    if function.throws {
        out.write(b"::rust::repr::PtrLen ");
    } else {
        write_extern_return_type_space(out, function);
    }
    write_symbol(out, item, function);
    out.write(b"(");
    let mut needs_comma = false;
    if let Form::ConstMethod(receiver) | Form::MutMethod(receiver) = function.form {
        write_full_name(out, sheet.item(receiver));
        if let Form::ConstMethod(_) = function.form {
            out.write(b" const");
        }
        out.write(b" &self");
        needs_comma = true;
    }
    for arg in sheet.args(function) {
        if needs_comma {
            out.write(b", ");
        }
        write_extern_arg(out, arg);
        needs_comma = true;
    }
    if let Some(ret) = indirect_return(sheet, function) {
        if needs_comma {
            out.write(b", ");
        }
        match ret[0] {
            Type::Ref { mutable } => write_pointer(out, &ret[1..], mutable),
            _ => write_type_space(out, ret),
        };
        out.write(b"*return$");
    }
    out.write(b") noexcept;\n");
    out.end_block(Block::ExternC);
}

fn write_rust_function_shim<'s>(out: &mut OutFile<'s, '_>, item: &'s Item, function: &'s Function) {
    let sheet = out.sheet;
    out.set_namespace(out.sheet.namespace(item));
    let free = function.form == Form::Free;
    if sheet.header && !free {
        return;
    }
    if free {
        write_doc(out, sheet.comment(function));
    }
    write_rust_function_shim_decl(out, item, function);
    if sheet.header {
        out.write(b";\n");
        return;
    }
    out.write(b" {\n");
    for arg in sheet.args(function) {
        if is_held(sheet, sheet.outermost(arg)) {
            let name = sheet.name(arg.name);
            out.write(b"  ::rust::ManuallyDrop<");
            write_type(out, sheet.types(arg.ty));
            out.write(b"> ");
            out.write(name);
            out.write(b"$(::std::move(");
            out.write(name);
            out.write(b"));\n");
        }
    }
    out.write(b"  ");
    let indirect_return = indirect_return(sheet, function);
    if let Some(ret) = indirect_return {
        out.write(b"::rust::MaybeUninit<");
        match ret[0] {
            Type::Ref { mutable } => write_pointer(out, &ret[1..], mutable),
            _ => write_type(out, ret),
        };
        out.write(b"> return$;\n  ");
    } else if let Some(ret) = ret(sheet, function) {
        out.write(b"return ");
        match ret[0] {
            Type::RustBox => {
                write_type(out, ret);
                out.write(b"::from_raw(");
            }
            Type::UniquePtr => {
                write_type(out, ret);
                out.write(b"(");
            }
            Type::Ref { .. } => out.write(b"*"),
            Type::Str => out.write(b"::rust::impl<::rust::Str>::new_unchecked("),
            Type::SliceRef { .. } => {
                out.write(b"::rust::impl<");
                write_type(out, ret);
                out.write(b">::slice(");
            }
            _ => {}
        }
    }
    if function.throws {
        out.write(b"::rust::repr::PtrLen error$ = ");
    }
    write_symbol(out, item, function);
    out.write(b"(");
    let mut needs_comma = false;
    if function.form.is_method() {
        out.write(b"*this");
        needs_comma = true;
    }
    for arg in sheet.args(function) {
        if needs_comma {
            out.write(b", ");
        }
        let ty = sheet.outermost(arg);
        if indirect(sheet, ty) {
            out.write(b"&");
        }
        out.write(sheet.name(arg.name));
        match ty {
            Type::RustBox => out.write(b".into_raw()"),
            Type::UniquePtr => out.write(b".release()"),
            ty if is_held(sheet, ty) => out.write(b"$.value"),
            _ => {}
        }
        needs_comma = true;
    }
    if indirect_return.is_some() {
        if needs_comma {
            out.write(b", ");
        }
        out.write(b"&return$.value");
    }
    out.write(b")");
    if indirect_return.is_none()
        && let Some(
            [
                Type::RustBox | Type::UniquePtr | Type::Str | Type::SliceRef { .. },
                ..,
            ],
        ) = ret(sheet, function)
    {
        out.write(b")");
    }
    out.write(b";\n");
    if function.throws {
        out.write(b"  if (error$.ptr) {\n");
        out.write(b"    throw ::rust::impl<::rust::Error>::error(error$);\n  }\n");
    }
    match indirect_return {
        Some([Type::Ref { .. }, ..]) => out.write(b"  return *return$.value;\n"),
        Some(_) => out.write(b"  return ::std::move(return$.value);\n"),
        None => {}
    }
    out.write(b"}\n");
}

fn write_rust_function_shim_decl(out: &mut OutFile, item: &Item, function: &Function) {
    let sheet = out.sheet;
    if is_main(sheet, item, function) {
        out.write(b"int ");
    } else {
        write_return_type(out, function);
    }
    if let Some(self_type) = function.form.self_item() {
        out.write(sheet.name(sheet.item(self_type).name));
        out.write(b"::");
    }
    out.write(sheet.name(item.name));
    out.write(b"(");
    for (i, arg) in sheet.args(function).iter().enumerate() {
        if i > 0 {
            out.write(b", ");
        }
        write_type_space(out, sheet.types(arg.ty));
        out.write(sheet.name(arg.name));
    }
    out.write(b")");
    if let Form::ConstMethod(_) = function.form {
        out.write(b" const");
    }
    if !function.throws {
        out.write(b" noexcept");
    }
}

fn is_main(sheet: &Sheet, item: &Item, function: &Function) -> bool {
    sheet.name(item.name) == b"main"
        && sheet.namespace(item).is_empty()
        && function.form == Form::Free
        && sheet.args(function).is_empty()
        && function.ret.is_none()
        && !function.throws
}

/// Whether a shim holds an argument of this type back from its destructor.
fn is_held(sheet: &Sheet, ty: Type) -> bool {
    !matches!(ty, Type::Atom(RUST_STRING)) && indirect(sheet, ty)
}

/// The type that a function returns, and whatever is behind it.
fn ret<'s>(sheet: &'s Sheet, function: &Function) -> Option<&'s [Type]> {
    function.ret.map(|ret| sheet.types(ret))
}

fn write_return_type(out: &mut OutFile, function: &Function) {
    match ret(out.sheet, function) {
        None => out.write(b"void "),
        Some(ty) => {
            write_type_space(out, ty);
        }
    }
}

/// The type that is returned by a slot, if one is.
fn indirect_return<'s>(sheet: &'s Sheet, function: &Function) -> Option<&'s [Type]> {
    ret(sheet, function).filter(|ret| function.throws || indirect(sheet, ret[0]))
}

fn write_extern_return_type_space(out: &mut OutFile, function: &Function) {
    match ret(out.sheet, function) {
        Some(_) if indirect_return(out.sheet, function).is_some() => out.write(b"void "),
        Some([Type::RustBox | Type::UniquePtr, inner @ ..]) => {
            write_pointer(out, inner, true);
        }
        Some([Type::Ref { mutable }, inner @ ..]) => {
            write_pointer(out, inner, *mutable);
        }
        Some([Type::Str | Type::SliceRef { .. }, ..]) => out.write(b"::rust::repr::Fat "),
        _ => write_return_type(out, function),
    }
}

fn write_extern_arg(out: &mut OutFile, arg: &Arg) {
    let ty = out.sheet.types(arg.ty);
    match ty[0] {
        Type::RustBox | Type::UniquePtr | Type::CxxVector => write_pointer(out, &ty[1..], true),
        _ => write_type_space(out, ty),
    };
    if indirect(out.sheet, ty[0]) {
        out.write(b"*");
    }
    out.write(out.sheet.name(arg.name));
}

// The writers of types answer with what is behind the type.

fn write_pointer<'s>(out: &mut OutFile<'s, '_>, inner: &'s [Type], mutable: bool) -> &'s [Type] {
    let rest = write_type_space(out, inner);
    if !mutable {
        out.write(b"const ");
    }
    out.write(b"*");
    rest
}

fn write_type<'s>(out: &mut OutFile<'s, '_>, ty: &'s [Type]) -> &'s [Type] {
    let inner = &ty[1..];
    match ty[0] {
        Type::Atom(atom) => {
            write_atom(out, atom);
            inner
        }
        Type::Named(item) => {
            write_named(out, item);
            inner
        }
        Type::RustBox => write_template(out, b"::rust::Box<", inner),
        Type::RustVec => write_template(out, b"::rust::Vec<", inner),
        Type::UniquePtr => write_template(out, b"::std::unique_ptr<", inner),
        Type::SharedPtr => write_template(out, b"::std::shared_ptr<", inner),
        Type::WeakPtr => write_template(out, b"::std::weak_ptr<", inner),
        Type::CxxVector => write_template(out, b"::std::vector<", inner),
        Type::Ref { mutable } => {
            let rest = write_type_space(out, inner);
            out.write(if mutable { b"&" } else { b"const &" });
            rest
        }
        Type::Ptr { mutable } => write_pointer(out, inner, mutable),
        Type::Str => {
            out.write(b"::rust::Str");
            inner
        }
        Type::SliceRef { mutable } => {
            out.write(b"::rust::Slice<");
            let rest = write_type_space(out, inner);
            out.write(if mutable { b">" } else { b"const>" });
            rest
        }
        Type::Fn { ret, args } => {
            let mut rest = inner;
            out.write(b"::rust::Fn<");
            if ret {
                rest = write_type(out, rest);
            } else {
                out.write(b"void");
            }
            out.write(b"(");
            for i in 0..args {
                if i > 0 {
                    out.write(b", ");
                }
                rest = write_type(out, rest);
            }
            out.write(b")>");
            rest
        }
        Type::Array { len } => {
            out.write(b"::std::array<");
            let rest = write_type(out, inner);
            out.write(b", ");
            write_decimal(out, len);
            out.write(b">");
            rest
        }
    }
}

fn write_template<'s>(out: &mut OutFile<'s, '_>, head: &[u8], inner: &'s [Type]) -> &'s [Type] {
    out.write(head);
    let rest = write_type(out, inner);
    out.write(b">");
    rest
}

fn write_type_space<'s>(out: &mut OutFile<'s, '_>, ty: &'s [Type]) -> &'s [Type] {
    let rest = write_type(out, ty);
    if !matches!(ty[0], Type::Ref { .. } | Type::Ptr { .. }) {
        out.write(b" ");
    }
    rest
}

const ATOMS: [&[u8]; 16] = [
    b"bool",
    b"char",
    b"::std::uint8_t",
    b"::std::uint16_t",
    b"::std::uint32_t",
    b"::std::uint64_t",
    b"::std::size_t",
    b"::std::int8_t",
    b"::std::int16_t",
    b"::std::int32_t",
    b"::std::int64_t",
    b"::rust::isize",
    b"float",
    b"double",
    b"::std::string",
    b"::rust::String",
];

fn write_atom(out: &mut OutFile, atom: AtomNumber) {
    out.write(ATOMS[usize::from(atom)]);
}

fn write_named(out: &mut OutFile, item: ItemIndex) {
    write_full_name(out, out.sheet.item(item));
}

fn write_full_name(out: &mut OutFile, item: &Item) {
    let sheet = out.sheet;
    for name in sheet.namespace(item).iter().chain([&item.name]) {
        out.write(b"::");
        out.write(sheet.name(*name));
    }
}

fn write_decimal(out: &mut OutFile, mut number: u32) {
    let mut digits = [0; 10];
    let mut start = digits.len();
    loop {
        start -= 1;
        digits[start] = b'0' + (number % 10) as u8;
        number /= 10;
        if number == 0 {
            break;
        }
    }
    out.write(&digits[start..]);
}

fn write_symbol(out: &mut OutFile, item: &Item, function: &Function) {
    let sheet = out.sheet;
    write_prefix(out, item);
    if let Some(self_type) = function.form.self_item() {
        out.write(sheet.name(sheet.item(self_type).name));
        out.write(b"$");
    }
    out.write(sheet.name(function.rust_name));
}

fn write_operator(out: &mut OutFile, item: &Item, operator: &[u8]) {
    write_prefix(out, item);
    out.write(out.sheet.name(item.name));
    out.write(b"$operator$");
    out.write(operator);
}

fn write_prefix(out: &mut OutFile, item: &Item) {
    let sheet = out.sheet;
    for name in sheet.namespace(item) {
        out.write(sheet.name(*name));
        out.write(b"$");
    }
    out.write(b"cxxbridge1$205$");
}
