// Stand-in: nothing is conditional.

#[derive(Clone)]
pub(crate) enum CfgExpr {
    Unconditional,
}

#[derive(Clone)]
pub(crate) enum ComputedCfg<'a> {
    Leaf(&'a CfgExpr),
}

impl<'a> ComputedCfg<'a> {
    pub(crate) fn all(one: &'a CfgExpr, _two: &'a CfgExpr) -> Self {
        ComputedCfg::Leaf(one)
    }

    pub(crate) fn merge_or(&mut self, _other: impl Into<ComputedCfg<'a>>) {}
}

impl<'a> From<&'a CfgExpr> for ComputedCfg<'a> {
    fn from(cfg: &'a CfgExpr) -> Self {
        ComputedCfg::Leaf(cfg)
    }
}
