// Stand-in: nothing is parsed.

pub(crate) mod kw {
    pub(crate) struct Pin;
    pub(crate) struct Result;
}

pub(crate) fn parse_items() {}
