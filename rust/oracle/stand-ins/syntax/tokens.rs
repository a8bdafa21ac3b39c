// Stand-in: errors ask for tokens and get none.

use crate::syntax::{Enum, ExternFn, ExternType, Struct, TypeAlias, Var};
use proc_macro2::TokenStream;
use quote::ToTokens;

macro_rules! no_tokens {
    ($($ty:ident)*) => {
        $(impl ToTokens for $ty {
            fn to_tokens(&self, _tokens: &mut TokenStream) {}
        })*
    };
}

no_tokens!(Enum ExternFn ExternType Struct TypeAlias Var);
