//! Small sheets with the crate's answers, each for one sentence.

use sheet::{Sheet, check, desc, encode};

fn sheet(description: &str) -> Sheet {
    let sheet = desc::parse(description).unwrap();
    assert_eq!(check(&encode(&sheet)), 0, "{description}");
    sheet
}

fn text(description: &str) -> String {
    String::from_utf8(oracle::text(&sheet(description))).unwrap()
}

#[test]
fn spellings_checked_by_hand() {
    if oracle::skipped() {
        return;
    }
    for (ty, spelling) in [
        ("&[u8]", "::rust::Slice<::std::uint8_t const> "),
        ("&mut [u8]", "::rust::Slice<::std::uint8_t > "),
        ("&f64", "double const &"),
        ("[bool; 0]", "::std::array<bool, 0> "),
    ] {
        let text = text(&format!("fn f(x: {ty})"));
        assert!(text.contains(&format!("void f({spelling}x)")), "{text}");
    }
}

#[test]
fn the_empty_sheet() {
    if !oracle::skipped() {
        assert_eq!(text(""), "");
        assert_eq!(text("header\ndoxygen"), "");
        assert_eq!(text("edition 2"), "");
    }
}

#[test]
fn likely_mistakes() {
    if oracle::skipped() {
        return;
    }
    // The symbol has the function's namespace, not the type's.
    let method = "cxx-type t::T\nfn f::g const ::t::T ()";
    assert!(text(method).contains("f$cxxbridge1$205$T$g(::t::T const &self)"));
    // A header shows no methods, and no namespace for their sake.
    assert!(!text(&format!("header\n{method}")).contains("namespace f"));
    // A method's comment is not written.
    assert!(!text("cxx-type T\n/// no\nfn g const ::T ()").contains("// no"));
    // Doxygen's extra line follows exactly one line.
    for (lines, written) in [(0, 0), (1, 2), (2, 2), (3, 3)] {
        let comment = "/// line\n".repeat(lines);
        let text = text(&format!("doxygen\n{comment}fn f()"));
        assert_eq!(text.matches("///").count(), written);
    }
    // A namespace that the next item needs again stays open.
    let text = text("fn a::f()\nfn a::g()");
    assert_eq!(text.matches("namespace a {").count(), 1);
}

#[test]
fn main_is_int_only_as_a_plain_function_of_the_root() {
    if oracle::skipped() {
        return;
    }
    assert!(text("fn main()").contains("int main() noexcept {"));
    assert!(text("fn main as other()").contains("int main() noexcept {"));
    assert!(text("header\nfn main()").contains("int main() noexcept;"));
    for other in [
        "fn other as main()",
        "fn a::main()",
        "fn main(x: u8)",
        "fn main() -> u8",
        "fn main throws ()",
        "cxx-type T\nfn main assoc ::T ()",
    ] {
        assert!(!text(other).contains("int main"), "{other}");
    }
}

#[test]
fn struct_order_is_that_of_sort() {
    if oracle::skipped() {
        return;
    }
    let order = |description: &str| oracle::struct_order(&sheet(description));
    assert_eq!(
        order("struct A { ::B, ::C }\nstruct B { ::C }\nstruct C { }"),
        [2, 1, 0]
    );
    assert_eq!(
        order("struct A { ::C, ::B }\nstruct B { }\nstruct C { }"),
        [2, 1, 0]
    );
    assert_eq!(
        order("rust-type A\nstruct B { Box<::B>, [::C; 2] }\nstruct C { }"),
        [1, 2]
    );
}

/// types.rs wants all free functions' Rust names to differ; document 01 wants
/// their symbols to. The crate's writer has a text for such a sheet.
#[test]
fn one_rust_name_in_two_namespaces() {
    if oracle::skipped() {
        return;
    }
    let sheet = sheet("fn f()\nfn a::f()");
    let complaint = oracle::facts(&sheet).complaint.unwrap();
    assert_eq!(complaint, "the function `f` is defined multiple times");
    let text = String::from_utf8(oracle::text(&sheet)).unwrap();
    assert!(text.contains("void cxxbridge1$205$f()") && text.contains("void a$cxxbridge1$205$f()"));
}

/// The other way round: the crate takes these two methods and gives them one
/// symbol, and a check refuses them.
#[test]
fn one_symbol_for_two_self_types() {
    let description = "cxx-type a::T\ncxx-type b::T\nfn f const ::a::T ()\nfn f const ::b::T ()";
    let sheet = desc::parse(description).unwrap();
    assert_eq!(check(&encode(&sheet)), 10);
    if oracle::skipped() {
        return;
    }
    let facts = oracle::facts(&sheet);
    assert_eq!(facts.complaint, None);
    assert_eq!(facts.symbols, ["cxxbridge1$205$T$f"; 2]);
}

/// The crate writes names that C++ reserves, and a check refuses them.
#[test]
fn reserved_identifiers() {
    let sheet = desc::parse("fn _Tool(a__b: u8)").unwrap();
    assert_eq!(check(&encode(&sheet)), 3);
    if oracle::skipped() {
        return;
    }
    assert_eq!(oracle::facts(&sheet).complaint, None);
    let text = String::from_utf8(oracle::text(&sheet)).unwrap();
    assert!(text.contains("void _Tool(::std::uint8_t a__b) noexcept {"));
}

/// The crate writes the keywords of C++20 as names, and edition 2 refuses them.
#[test]
fn keywords_of_cxx20() {
    let older = "fn concept(requires: u8)";
    let newer = desc::parse(&format!("edition 2\n{older}")).unwrap();
    assert_eq!(check(&encode(&newer)), 3);
    let older = sheet(older);
    if oracle::skipped() {
        return;
    }
    for sheet in [older, newer] {
        assert_eq!(oracle::facts(&sheet).complaint, None);
        let text = String::from_utf8(oracle::text(&sheet)).unwrap();
        assert!(text.contains("void concept(::std::uint8_t requires) noexcept {"));
    }
}
