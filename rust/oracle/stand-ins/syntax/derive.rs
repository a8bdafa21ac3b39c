// Stand-in: a sheet's types derive nothing.

pub(crate) struct Derive {
    pub what: Trait,
}

#[derive(Clone, Copy, PartialEq)]
pub(crate) enum Trait {
    BitAnd,
    BitOr,
    BitXor,
    Eq,
    Hash,
    Ord,
    PartialEq,
    PartialOrd,
}

pub(crate) fn contains(derives: &[Derive], query: Trait) -> bool {
    derives.iter().any(|derive| derive.what == query)
}
