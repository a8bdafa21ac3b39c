// Stand-in: a C++ name, and a full name with `::` before each namespace and
// before the C++ name.

use crate::syntax::Pair;
use crate::syntax::symbol::{Segment, Symbol};
use std::fmt::{self, Display};

#[derive(Clone)]
pub(crate) struct ForeignName {
    text: String,
}

impl ForeignName {
    pub(crate) fn new(text: &str) -> Self {
        ForeignName {
            text: text.to_owned(),
        }
    }
}

impl Display for ForeignName {
    fn fmt(&self, formatter: &mut fmt::Formatter) -> fmt::Result {
        Display::fmt(&self.text, formatter)
    }
}

impl PartialEq<str> for ForeignName {
    fn eq(&self, text: &str) -> bool {
        self.text == text
    }
}

impl Pair {
    pub(crate) fn to_symbol(&self) -> Symbol {
        let namespace = self.namespace.iter().map(|ident| ident as &dyn Segment);
        Symbol::from_idents(namespace.chain([&self.cxx as &dyn Segment]))
    }

    pub(crate) fn to_fully_qualified(&self) -> String {
        let mut full = String::new();
        for segment in &self.namespace {
            full += "::";
            full += &segment.to_string();
        }
        full + "::" + &self.cxx.text
    }
}
