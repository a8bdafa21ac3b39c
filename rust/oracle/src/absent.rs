//! What the oracle says without the crate's source.

use crate::ABSENT;
use sheet::Sheet;

pub struct Facts {
    pub symbols: Vec<String>,
    pub indirect: Vec<bool>,
    pub cyclic: bool,
    pub complaint: Option<String>,
}

pub fn text(_sheet: &Sheet) -> Vec<u8> {
    panic!("{ABSENT}")
}

pub fn struct_order(_sheet: &Sheet) -> Vec<u8> {
    panic!("{ABSENT}")
}

pub fn with_sort<T>(_sheet: &Sheet, _measure: impl FnOnce(&dyn Fn() -> usize) -> T) -> T {
    panic!("{ABSENT}")
}

pub fn facts(_sheet: &Sheet) -> Facts {
    panic!("{ABSENT}")
}
