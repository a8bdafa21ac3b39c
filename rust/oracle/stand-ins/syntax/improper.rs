// Stand-in: the pointer bit is the whole answer for a named type (see pod.rs),
// so nothing is improper on top of it.

use crate::syntax::Types;
use crate::syntax::query::TypeQuery;
use proc_macro2::Ident;

pub(crate) enum ImproperCtype<'a> {
    Definite(bool),
    Depends(&'a Ident),
}

impl<'a> Types<'a> {
    pub(crate) fn determine_improper_ctype(
        &self,
        _ty: impl Into<TypeQuery<'a>>,
    ) -> ImproperCtype<'a> {
        ImproperCtype::Definite(false)
    }
}
