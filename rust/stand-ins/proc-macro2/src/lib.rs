//! Identifiers as shared strings; spans and tokens without contents.

use std::fmt::{self, Debug, Display};
use std::hash::{Hash, Hasher};
use std::rc::Rc;

#[derive(Clone, Copy, Default, PartialEq, Eq, Hash, Debug)]
pub struct Span;

impl Span {
    pub fn call_site() -> Self {
        Span
    }
}

#[derive(Clone, Eq)]
pub struct Ident(Rc<str>);

impl Ident {
    pub fn new(text: &str, _span: Span) -> Self {
        Ident(text.into())
    }
}

impl PartialEq for Ident {
    fn eq(&self, other: &Self) -> bool {
        self.0 == other.0
    }
}

impl<T> PartialEq<T> for Ident
where
    T: ?Sized + AsRef<str>,
{
    fn eq(&self, other: &T) -> bool {
        *self.0 == *other.as_ref()
    }
}

impl Hash for Ident {
    fn hash<H: Hasher>(&self, hasher: &mut H) {
        self.0.hash(hasher);
    }
}

impl Display for Ident {
    fn fmt(&self, formatter: &mut fmt::Formatter) -> fmt::Result {
        Display::fmt(&self.0, formatter)
    }
}

impl Debug for Ident {
    fn fmt(&self, formatter: &mut fmt::Formatter) -> fmt::Result {
        Debug::fmt(&self.0, formatter)
    }
}

#[derive(Default)]
pub struct TokenStream;

impl TokenStream {
    pub fn extend(&mut self, _tokens: TokenStream) {}
}

pub struct Literal;

impl Literal {
    pub fn u64_unsuffixed(_value: u64) -> Self {
        Literal
    }
}
