//! Tokens are asked for but never read, so all of them are empty.

use proc_macro2::{Ident, Literal, TokenStream};

pub trait ToTokens {
    fn to_tokens(&self, tokens: &mut TokenStream);
}

impl<T: ?Sized + ToTokens> ToTokens for &T {
    fn to_tokens(&self, tokens: &mut TokenStream) {
        (**self).to_tokens(tokens);
    }
}

impl ToTokens for String {
    fn to_tokens(&self, _tokens: &mut TokenStream) {}
}

impl ToTokens for Ident {
    fn to_tokens(&self, _tokens: &mut TokenStream) {}
}

impl ToTokens for Literal {
    fn to_tokens(&self, _tokens: &mut TokenStream) {}
}

#[doc(hidden)]
pub fn empty() -> TokenStream {
    TokenStream
}

#[macro_export]
macro_rules! quote {
    ($($tokens:tt)*) => {
        $crate::empty()
    };
}
