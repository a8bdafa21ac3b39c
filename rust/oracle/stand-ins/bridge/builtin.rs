// Stand-in: builtins are noted by write.rs and never written.

use crate::bridge::out::{Content, OutFile};

#[derive(Default)]
pub(crate) struct Builtins<'a> {
    pub alignmax: bool,
    pub deleter_if: bool,
    pub destroy: bool,
    pub is_complete: bool,
    pub layout: bool,
    pub manually_drop: bool,
    pub maybe_uninit: bool,
    pub opaque: bool,
    pub ptr_len: bool,
    pub relocatable: bool,
    pub relocatable_or_array: bool,
    pub repr_fat: bool,
    pub rust_box: bool,
    pub rust_error: bool,
    pub rust_fn: bool,
    pub rust_isize: bool,
    pub rust_slice: bool,
    pub rust_slice_new: bool,
    pub rust_slice_repr: bool,
    pub rust_str: bool,
    pub rust_str_new_unchecked: bool,
    pub rust_str_repr: bool,
    pub rust_string: bool,
    pub rust_vec: bool,
    pub shared_ptr: bool,
    pub trycatch: bool,
    pub unsafe_bitcopy: bool,
    pub vector: bool,
    pub content: Content<'a>,
}

impl<'a> Builtins<'a> {
    pub(crate) fn new() -> Self {
        Builtins::default()
    }
}

pub(super) fn write(_out: &mut OutFile) {}
