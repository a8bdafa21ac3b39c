// Stand-in: includes are noted by write.rs and never written.

use crate::bridge::out::{Content, OutFile};

#[derive(Default)]
pub(crate) struct Includes<'a> {
    pub array: bool,
    pub cstddef: bool,
    pub cstdint: bool,
    pub functional: bool,
    pub limits: bool,
    pub memory: bool,
    pub new: bool,
    pub string: bool,
    pub type_traits: bool,
    pub utility: bool,
    pub vector: bool,
    pub content: Content<'a>,
}

impl<'a> Includes<'a> {
    pub(crate) fn new() -> Self {
        Includes::default()
    }

    pub(crate) fn insert<T>(&mut self, _include: T) {}

    pub(crate) fn extend<T>(&mut self, _includes: T) {}
}

pub(super) fn write(_out: &mut OutFile) {}
