//! Sheets as document 01 describes them, with orders 3 and 13 of document 02, and
//! nothing else: their value, their bytes, the twelve refusals of a check, and a
//! seeded generator.
//!
//! Two readers stand side by side. [`decode`] builds the value and [`rules`]
//! judges it, sentence by sentence. [`check`] gives the same answer in one walk
//! without building anything.

mod bits;
mod check;
mod decode;
pub mod desc;
mod encode;
pub mod generate;
pub mod name;
mod rng;
mod rules;
mod value;

pub use bits::{BitReader, index_width};
pub use check::check;
pub use decode::{decode, decode_base};
pub use encode::{encode, encode_bits, with_edition};
pub use rng::Rng;
pub use rules::{indirect, rules};
pub use value::*;

/// The limits of document 01.
pub mod limit {
    pub const SHEET_BYTES: usize = 32_768;
    pub const NAMES: usize = 1_023;
    pub const NAME_CHARS: usize = 63;
    pub const ITEMS: usize = 255;
    pub const NAMESPACES: usize = 7;
    pub const FIELDS: usize = 63;
    pub const ARGUMENTS: usize = 31;
    pub const SLOTS: usize = 15;
    pub const COMMENT_LINES: usize = 31;
    pub const COMMENT_CHARS: usize = 127;
    pub const TYPE_DEPTH: usize = 8;
}

/// Why a sheet is refused; the discriminant is document 01's number.
#[derive(Clone, Copy, PartialEq, Eq, PartialOrd, Ord, Debug)]
#[repr(u8)]
pub enum Refusal {
    CutSheet = 1,
    Edition = 2,
    BadName = 3,
    LooseIndex = 4,
    BadKind = 5,
    TooDeep = 6,
    BadComment = 7,
    Tail = 8,
    WrongPart = 9,
    Taken = 10,
    UnfitArgument = 11,
    Ring = 12,
}

impl Refusal {
    pub const ALL: [Refusal; 12] = [
        Refusal::CutSheet,
        Refusal::Edition,
        Refusal::BadName,
        Refusal::LooseIndex,
        Refusal::BadKind,
        Refusal::TooDeep,
        Refusal::BadComment,
        Refusal::Tail,
        Refusal::WrongPart,
        Refusal::Taken,
        Refusal::UnfitArgument,
        Refusal::Ring,
    ];

    pub fn number(self) -> u8 {
        self as u8
    }
}

/// The plain reader's answer: the value of an accepted sheet, or the refusal.
pub fn read(bytes: &[u8]) -> Result<Sheet, Refusal> {
    read_by(name::is_name, bytes)
}

fn read_by(is_name: decode::NameRule, bytes: &[u8]) -> Result<Sheet, Refusal> {
    let sheet = decode::decode_by(is_name, bytes)?;
    rules(&sheet)?;
    Ok(sheet)
}

/// What a part of the name rule that came with an order has to do with a sheet's
/// refusal.
#[derive(Clone, Copy, PartialEq, Eq, Debug)]
pub enum Blame {
    /// Nothing: without that part the answer is the same.
    No,
    /// It is refused for it, and else would be for something that comes later.
    First,
    /// It is refused for it, and else would be accepted.
    Only,
}

impl Blame {
    /// Order 3: identifiers that C++ reserves are no names.
    pub fn reserved(bytes: &[u8]) -> Self {
        Self::of(name::is_identifier, bytes)
    }

    /// Order 13: keywords that C++20 added are no names in edition 2.
    pub fn keyword(bytes: &[u8]) -> Self {
        Self::of(|_, chars| name::is_name(1, chars), bytes)
    }

    /// Either order or both, as a sheet with names of both sorts has it: by the
    /// base rule of document 01.
    pub fn orders(bytes: &[u8]) -> Self {
        Self::of(|_, chars| name::is_base_name(chars), bytes)
    }

    fn of(without: decode::NameRule, bytes: &[u8]) -> Self {
        if read(bytes) != Err(Refusal::BadName) {
            return Blame::No;
        }
        match read_by(without, bytes) {
            Ok(_) => Blame::Only,
            Err(Refusal::BadName) => Blame::No,
            Err(_) => Blame::First,
        }
    }
}
