// Stand-in: triviality is no part of the text.

use crate::syntax::cfg::ComputedCfg;
use crate::syntax::instantiate::ImplKey;
use crate::syntax::map::{OrderedMap, UnorderedMap};
use crate::syntax::resolve::Resolution;
use crate::syntax::set::UnorderedSet;
use crate::syntax::types::ConditionalImpl;
use crate::syntax::{Api, Enum, ExternFn, Pair, Struct, Type, TypeAlias};
use proc_macro2::Ident;

pub(crate) enum TrivialReason<'a> {
    StructField(&'a Struct),
    FunctionArgument(&'a ExternFn),
    FunctionReturn(&'a ExternFn),
    BoxTarget,
    VecElement,
    SliceElement,
}

pub(crate) fn required_trivial_reasons<'a>(
    _apis: &'a [Api],
    _all: &OrderedMap<&'a Type, ComputedCfg>,
    _structs: &UnorderedMap<&'a Ident, &'a Struct>,
    _enums: &UnorderedMap<&'a Ident, &'a Enum>,
    _cxx: &UnorderedSet<&'a Ident>,
    _aliases: &UnorderedMap<&'a Ident, &'a TypeAlias>,
    _impls: &OrderedMap<ImplKey<'a>, ConditionalImpl<'a>>,
    _resolutions: &UnorderedMap<&Ident, Resolution>,
) -> UnorderedMap<&'a Ident, Vec<TrivialReason<'a>>> {
    UnorderedMap::new()
}

pub(crate) fn as_what(_name: &Pair, _reasons: &[TrivialReason]) -> String {
    unreachable!("a sheet has no alias")
}
