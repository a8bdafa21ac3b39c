// Stand-in: the attributes carry the sheet's pointer bit.

#[derive(Clone, Default)]
pub(crate) struct OtherAttrs {
    pub pointer: bool,
}
