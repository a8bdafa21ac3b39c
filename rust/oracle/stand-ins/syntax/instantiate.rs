// Stand-in: generic instantiations are no part of the text.

use crate::syntax::map::UnorderedMap;
use crate::syntax::resolve::Resolution;
use crate::syntax::symbol::Symbol;
use crate::syntax::{Type, Types};
use proc_macro2::Ident;

#[derive(PartialEq, Eq, Hash)]
pub(crate) enum ImplKey<'a> {
    RustBox(NamedImplKey<'a>),
    RustVec(NamedImplKey<'a>),
    UniquePtr(NamedImplKey<'a>),
    SharedPtr(NamedImplKey<'a>),
    WeakPtr(NamedImplKey<'a>),
    CxxVector(NamedImplKey<'a>),
}

#[derive(PartialEq, Eq, Hash)]
pub(crate) struct NamedImplKey<'a> {
    pub symbol: Symbol,
    pub outer: &'a Type,
    pub inner: &'a Type,
}

impl Type {
    pub(crate) fn impl_key<'a>(
        &'a self,
        _resolutions: &UnorderedMap<&'a Ident, Resolution<'a>>,
    ) -> Option<ImplKey<'a>> {
        None
    }
}

impl ImplKey<'_> {
    pub(crate) fn is_implicit_impl_ok(&self, _types: &Types) -> bool {
        false
    }
}
