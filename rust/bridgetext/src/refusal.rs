//! Document 01's table of refusals, with orders 3 and 13 of document 02.

use std::error::Error;
use std::fmt::{self, Display};

/// Why a service refuses; the discriminant is document 01's number.
#[derive(Clone, Copy, PartialEq, Eq, PartialOrd, Ord, Hash, Debug)]
#[repr(u8)]
pub enum Refusal {
    CutSheet = 1,
    Edition = 2,
    BadName = 3,
    LooseIndex = 4,
    BadKind = 5,
    TooDeep = 6,
    BadComment = 7,
    Tail = 8,
    WrongPart = 9,
    Taken = 10,
    UnfitArgument = 11,
    Ring = 12,
    Overrun = 13,
}

impl Refusal {
    /// All, by number.
    pub const ALL: [Refusal; 13] = [
        Refusal::CutSheet,
        Refusal::Edition,
        Refusal::BadName,
        Refusal::LooseIndex,
        Refusal::BadKind,
        Refusal::TooDeep,
        Refusal::BadComment,
        Refusal::Tail,
        Refusal::WrongPart,
        Refusal::Taken,
        Refusal::UnfitArgument,
        Refusal::Ring,
        Refusal::Overrun,
    ];

    pub fn number(self) -> u8 {
        self as u8
    }

    /// `None` for 0 and above 13.
    pub fn from_number(number: u8) -> Option<Refusal> {
        let index = usize::from(number).checked_sub(1)?;
        Self::ALL.get(index).copied()
    }

    /// The trade's word.
    pub fn word(self) -> &'static str {
        self.row().0
    }

    /// When a service refuses so.
    pub fn condition(self) -> &'static str {
        self.row().1
    }

    fn row(self) -> (&'static str, &'static str) {
        match self {
            Refusal::CutSheet => (
                "cut sheet",
                "over 32,768 bytes, or ends before a field is whole",
            ),
            Refusal::Edition => ("edition", "neither 1 nor 2"),
            Refusal::BadName => (
                "bad name",
                "breaks the name rule, as keywords (of C++17 in edition 1, of C++20 in edition 2) \
                 and reserved identifiers (`a__b`, `_Tool`) do",
            ),
            Refusal::LooseIndex => ("loose index", "no such entry"),
            Refusal::BadKind => (
                "bad kind",
                "item 5 to 7, type 12 or 15, enum atom outside 2 to 11",
            ),
            Refusal::TooDeep => ("too deep", "a type at depth 9"),
            Refusal::BadComment => ("bad comment", "breaks the line rule"),
            Refusal::Tail => ("tail", "not zero bits up to the byte's end, or a byte more"),
            Refusal::WrongPart => ("wrong part", "an item index names a function"),
            Refusal::Taken => (
                "taken",
                "an item's first namespace is `std` or `rust`; two types with the same full name; \
                 two functions with the same symbol; two equal argument names in a function",
            ),
            Refusal::UnfitArgument => (
                "unfit argument",
                "kind 10 as argument; `self` in a method; `error` in a throwing function, if its \
                 type is indirect and not RustString",
            ),
            Refusal::Ring => (
                "ring",
                "a struct holds itself by named fields, over any number of structs",
            ),
            Refusal::Overrun => ("overrun", "the answer is longer than the buffer"),
        }
    }
}

impl Display for Refusal {
    fn fmt(&self, out: &mut fmt::Formatter) -> fmt::Result {
        let (word, condition) = self.row();
        write!(out, "refused {}, {word}: {condition}", self.number())
    }
}

impl Error for Refusal {}

#[cfg(test)]
mod tests {
    use super::*;

    #[test]
    fn numbers() {
        for (index, refusal) in Refusal::ALL.into_iter().enumerate() {
            assert_eq!(usize::from(refusal.number()), index + 1);
            assert_eq!(Refusal::from_number(refusal.number()), Some(refusal));
        }
        assert_eq!(Refusal::from_number(0), None);
        assert_eq!(Refusal::from_number(14), None);
        assert_eq!(Refusal::from_number(255), None);
    }

    #[test]
    fn words() {
        let error: Box<dyn Error> = Refusal::BadName.into();
        assert_eq!(
            error.to_string(),
            "refused 3, bad name: breaks the name rule, as keywords (of C++17 in edition 1, of \
             C++20 in edition 2) and reserved identifiers (`a__b`, `_Tool`) do"
        );
        let edition = Refusal::Edition.to_string();
        assert_eq!(edition, "refused 2, edition: neither 1 nor 2");
        assert_eq!(Refusal::Ring.word(), "ring");
        assert_eq!(Refusal::TooDeep.condition(), "a type at depth 9");
    }
}
