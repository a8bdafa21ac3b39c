// Stand-in: atoms but the strings are plain data, a named type has the sheet's
// word for it, and of the rest document 01's list counts.

use crate::syntax::Types;
use crate::syntax::atom::Atom::{self, *};
use crate::syntax::query::TypeQuery;

impl<'a> Types<'a> {
    pub(crate) fn is_guaranteed_pod(&self, ty: impl Into<TypeQuery<'a>>) -> bool {
        match ty.into() {
            TypeQuery::Ident(named) => match Atom::from(&named.rust) {
                Some(CxxString | RustString) => false,
                Some(_) => true,
                None => !self.resolve(named).attrs.pointer,
            },
            TypeQuery::RustVec
            | TypeQuery::SharedPtr
            | TypeQuery::WeakPtr
            | TypeQuery::CxxVector => false,
            _ => unreachable!("needs_indirect_abi has an answer of its own"),
        }
    }
}
