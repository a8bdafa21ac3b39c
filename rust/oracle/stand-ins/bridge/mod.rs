// Stand-in. The files out.rs and write.rs are included, so that the two
// functions below reach what is private in them.

mod block;
mod builtin;
mod guard;
mod include;
mod nested;
mod pragma;

use crate::syntax::Api;
use crate::syntax::namespace::Namespace;

#[derive(Default)]
pub(crate) struct Opt {
    pub include: Vec<()>,
    pub cxx_impl_annotations: Option<String>,
    pub doxygen: bool,
}

impl Api {
    pub(crate) fn namespace(&self) -> &Namespace {
        match self {
            Api::CxxFunction(efn) | Api::RustFunction(efn) => &efn.name.namespace,
            Api::CxxType(ety) | Api::RustType(ety) => &ety.name.namespace,
            Api::Enum(enm) => &enm.name.namespace,
            Api::Struct(strct) => &strct.name.namespace,
            Api::Impl(_) | Api::Include(_) | Api::TypeAlias(_) => Default::default(),
        }
    }
}

mod out {
    include!("out.rs");

    impl OutFile<'_> {
        /// `flush`, then the bytes of the content alone.
        pub(crate) fn flushed_content(mut self) -> Vec<u8> {
            self.flush();
            self.content.into_inner().bytes.into_bytes()
        }
    }
}

pub(crate) mod write {
    include!("write.rs");

    /// Document 01's reference: `write_functions` is retold without its Struct
    /// and CxxFunction arms and without `write_std_specializations`.
    pub(crate) fn text(apis: &[Api], types: &Types, opt: &Opt, header: bool) -> Vec<u8> {
        let mut out_file = OutFile::new(header, opt, types);
        let out = &mut out_file;
        write_forward_declarations(out, apis);
        if !out.header {
            for api in apis {
                match api {
                    Api::RustType(ety) => write_opaque_type_layout_decls(out, ety),
                    Api::RustFunction(efn) => write_rust_function_decl(out, efn),
                    _ => {}
                }
            }
        }
        for api in apis {
            match api {
                Api::RustType(ety) => write_opaque_type_layout(out, ety),
                Api::RustFunction(efn) => {
                    out.next_section();
                    write_rust_function_shim(out, efn);
                }
                _ => {}
            }
        }
        out_file.flushed_content()
    }

    /// The same with the crate's own `write_functions`.
    pub(crate) fn text_by_write_functions(
        apis: &[Api],
        types: &Types,
        opt: &Opt,
        header: bool,
    ) -> Vec<u8> {
        let mut out_file = OutFile::new(header, opt, types);
        write_forward_declarations(&mut out_file, apis);
        write_functions(&mut out_file, apis);
        out_file.flushed_content()
    }
}
