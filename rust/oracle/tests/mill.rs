//! Document 01's example, byte for byte.

use sheet::{Arg, Form, Function, Item, Kind, Sheet, Type, check, encode};

const TEXT: &str = r#"namespace mill {
  struct Job;
}

namespace mill {
extern "C" {
::std::size_t mill$cxxbridge1$205$Job$operator$sizeof() noexcept;
::std::size_t mill$cxxbridge1$205$Job$operator$alignof() noexcept;

::std::uint32_t mill$cxxbridge1$205$count(::mill::Job const &job) noexcept;
} // extern "C"

::std::size_t Job::layout::size() noexcept {
  return mill$cxxbridge1$205$Job$operator$sizeof();
}

::std::size_t Job::layout::align() noexcept {
  return mill$cxxbridge1$205$Job$operator$alignof();
}

::std::uint32_t count(::mill::Job const &job) noexcept {
  return mill$cxxbridge1$205$count(job);
}
} // namespace mill
"#;

fn mill() -> Sheet {
    let mut sheet = Sheet::empty();
    sheet.names = ["mill", "Job", "count", "job"]
        .map(|name| name.as_bytes().to_vec())
        .to_vec();
    sheet.items = vec![
        Item {
            namespace: vec![0],
            name: 1,
            kind: Kind::RustType { pointer: false },
        },
        Item {
            namespace: vec![0],
            name: 2,
            kind: Kind::Function(Function {
                rust_name: 2,
                form: Form::Free,
                throws: false,
                ret: Some(Type::Atom(4)),
                args: vec![Arg {
                    name: 3,
                    ty: Type::Ref {
                        mutable: false,
                        inner: Box::new(Type::Named(0)),
                    },
                }],
                comment: Vec::new(),
            }),
        },
    ];
    sheet
}

#[test]
fn the_example_of_document_01() {
    assert_eq!(check(&encode(&mill())), 0);
    if oracle::skipped() {
        return;
    }
    assert_eq!(String::from_utf8(oracle::text(&mill())).unwrap(), TEXT);
    assert_eq!(oracle::struct_order(&mill()), []);
}
