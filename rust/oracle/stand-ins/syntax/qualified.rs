// Stand-in: nothing is parsed.

use proc_macro2::Ident;
use syn::LitStr;
use syn::parse::{ParseStream, Result};

pub(crate) struct QualifiedName {
    pub segments: Vec<Ident>,
}

impl QualifiedName {
    pub(crate) fn parse_quoted(_lit: &LitStr) -> Result<Self> {
        unreachable!("nothing is parsed")
    }

    pub(crate) fn parse_quoted_or_unquoted(_input: ParseStream) -> Result<Self> {
        unreachable!("nothing is parsed")
    }
}
