// Stand-in: pinning is no part of the text.

use crate::syntax::cfg::ComputedCfg;
use crate::syntax::map::{OrderedMap, UnorderedMap};
use crate::syntax::set::UnorderedSet;
use crate::syntax::{Api, Enum, Receiver, Struct, Type, TypeAlias};
use proc_macro2::Ident;

pub(crate) enum UnpinReason<'a> {
    Receiver(&'a Receiver),
}

pub(crate) fn required_unpin_reasons<'a>(
    _apis: &'a [Api],
    _all: &OrderedMap<&'a Type, ComputedCfg>,
    _structs: &UnorderedMap<&'a Ident, &'a Struct>,
    _enums: &UnorderedMap<&'a Ident, &'a Enum>,
    _cxx: &UnorderedSet<&'a Ident>,
    _aliases: &UnorderedMap<&'a Ident, &'a TypeAlias>,
) -> UnorderedMap<&'a Ident, UnpinReason<'a>> {
    UnorderedMap::new()
}
