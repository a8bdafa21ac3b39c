//! The types of syn that the crate's files name. Nothing is ever parsed.

use proc_macro2::{Span, TokenStream};
use quote::ToTokens;
use std::fmt::{self, Display};
use std::str::FromStr;

pub use proc_macro2::Ident;

#[derive(Debug)]
pub struct Error(String);

pub type Result<T> = std::result::Result<T, Error>;

impl Error {
    pub fn new(_span: Span, message: impl Display) -> Self {
        Error(message.to_string())
    }

    pub fn new_spanned(_tokens: impl ToTokens, message: impl Display) -> Self {
        Error(message.to_string())
    }

    pub fn combine(&mut self, other: Error) {
        self.0.push('\n');
        self.0.push_str(&other.0);
    }
}

impl Display for Error {
    fn fmt(&self, formatter: &mut fmt::Formatter) -> fmt::Result {
        Display::fmt(&self.0, formatter)
    }
}

/// Every token of `Token![...]`.
#[derive(Clone, Copy, Default, PartialEq, Eq, Hash)]
pub struct Token(pub Span);

#[macro_export]
macro_rules! Token {
    ($($token:tt)*) => {
        $crate::Token
    };
}

impl ToTokens for Token {
    fn to_tokens(&self, _tokens: &mut TokenStream) {}
}

impl parse::Parse for Token {
    fn parse(_input: parse::ParseStream) -> Result<Self> {
        unreachable!("nothing is parsed")
    }
}

#[macro_export]
macro_rules! custom_keyword {
    ($word:ident) => {
        #[allow(non_camel_case_types)]
        pub struct $word;

        impl $crate::parse::Parse for $word {
            fn parse(_input: $crate::parse::ParseStream) -> $crate::Result<Self> {
                unreachable!("nothing is parsed")
            }
        }
    };
}

pub mod parse {
    pub use crate::{Error, Result};

    pub trait Parse: Sized {
        fn parse(input: ParseStream) -> Result<Self>;
    }

    pub struct ParseBuffer;

    pub type ParseStream<'a> = &'a ParseBuffer;

    impl ParseBuffer {
        pub fn is_empty(&self) -> bool {
            true
        }

        pub fn parse<T: Parse>(&self) -> Result<T> {
            T::parse(self)
        }
    }

    impl<T: Parse> Parse for Option<T> {
        fn parse(_input: ParseStream) -> Result<Self> {
            Ok(None)
        }
    }
}

pub mod token {
    #[derive(Clone, Copy, Default)]
    pub struct Brace;

    #[derive(Clone, Copy, Default)]
    pub struct Bracket;

    #[derive(Clone, Copy, Default)]
    pub struct Paren;
}

pub mod punctuated {
    use std::marker::PhantomData;
    use std::slice::Iter;

    #[derive(Clone)]
    pub struct Punctuated<T, P> {
        values: Vec<T>,
        separator: PhantomData<P>,
    }

    impl<T, P> Punctuated<T, P> {
        pub fn iter(&self) -> Iter<'_, T> {
            self.values.iter()
        }

        pub fn len(&self) -> usize {
            self.values.len()
        }

        pub fn is_empty(&self) -> bool {
            self.values.is_empty()
        }
    }

    impl<T, P> Default for Punctuated<T, P> {
        fn default() -> Self {
            Vec::new().into_iter().collect()
        }
    }

    impl<T, P> FromIterator<T> for Punctuated<T, P> {
        fn from_iter<I: IntoIterator<Item = T>>(values: I) -> Self {
            Punctuated {
                values: values.into_iter().collect(),
                separator: PhantomData,
            }
        }
    }

    impl<'a, T, P> IntoIterator for &'a Punctuated<T, P> {
        type Item = &'a T;
        type IntoIter = Iter<'a, T>;

        fn into_iter(self) -> Self::IntoIter {
            self.iter()
        }
    }
}

pub struct LitStr(String);

impl LitStr {
    pub fn new(text: &str, _span: Span) -> Self {
        LitStr(text.to_owned())
    }

    pub fn value(&self) -> String {
        self.0.clone()
    }
}

pub struct LitInt(String);

impl LitInt {
    pub fn new(digits: &str, _span: Span) -> Self {
        LitInt(digits.to_owned())
    }

    pub fn base10_parse<N: FromStr<Err: Display>>(&self) -> Result<N> {
        self.0.parse().map_err(|error| Error::new(Span, error))
    }

    pub fn suffix(&self) -> &str {
        ""
    }
}

pub enum Lit {
    Str(LitStr),
    Int(LitInt),
}

pub enum Expr {
    Lit(ExprLit),
    Path(ExprPath),
    Unary(ExprUnary),
}

pub struct ExprLit {
    pub lit: Lit,
}

pub struct ExprPath {
    pub qself: Option<QSelf>,
    pub path: Path,
}

pub struct ExprUnary {
    pub op: UnOp,
    pub expr: Box<Expr>,
}

pub enum UnOp {
    Neg(Token),
    Not(Token),
}

pub struct QSelf;

pub struct Path {
    pub segments: punctuated::Punctuated<PathSegment, Token>,
}

pub struct PathSegment {
    pub ident: Ident,
    pub arguments: PathArguments,
}

pub struct PathArguments;

impl PathArguments {
    pub fn is_none(&self) -> bool {
        true
    }
}

pub enum Meta {
    Path(Path),
    NameValue(MetaNameValue),
}

pub struct MetaNameValue {
    pub value: Expr,
}

impl ToTokens for Expr {
    fn to_tokens(&self, _tokens: &mut TokenStream) {}
}

impl ToTokens for Meta {
    fn to_tokens(&self, _tokens: &mut TokenStream) {}
}

#[derive(Clone, Default)]
pub struct Generics;

#[derive(Clone)]
pub struct Lifetime;

pub enum PointerMutability {
    Const(Token),
    Mut(Token),
}

pub struct Type;
