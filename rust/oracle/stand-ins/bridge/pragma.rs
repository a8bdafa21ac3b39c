// Stand-in: pragmas are noted by write.rs and never written.

use crate::bridge::out::{Content, OutFile};

#[derive(Default)]
pub(crate) struct Pragma<'a> {
    pub dollar_in_identifier: bool,
    pub mismatched_new_delete: bool,
    pub missing_declarations: bool,
    pub return_type_c_linkage: bool,
    pub begin: Content<'a>,
    pub end: Content<'a>,
}

impl<'a> Pragma<'a> {
    pub(crate) fn new() -> Self {
        Pragma::default()
    }
}

pub(super) fn write(_out: &mut OutFile) {}
