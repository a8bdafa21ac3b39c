//! The static library's functions. Each takes a slice as pointer and length,
//! and has no `requires`: any slice will do.

mod c {
    unsafe extern "C" {
        pub fn bridgetext_check(sheet: *const u8, sheet_len: usize) -> i64;
        pub fn bridgetext_struct_order(
            sheet: *const u8,
            sheet_len: usize,
            buf: *mut u8,
            buf_len: usize,
        ) -> i64;
        pub fn bridgetext_write(
            sheet: *const u8,
            sheet_len: usize,
            buf: *mut u8,
            buf_len: usize,
        ) -> i64;
    }
}

pub fn check(sheet: &[u8]) -> i64 {
    // SAFETY: the pointer and the length are those of one slice, which is only read.
    unsafe { c::bridgetext_check(sheet.as_ptr(), sheet.len()) }
}

pub fn struct_order(sheet: &[u8], buf: &mut [u8]) -> i64 {
    // SAFETY: as above; the second slice is borrowed mutably, so they are apart.
    unsafe { c::bridgetext_struct_order(sheet.as_ptr(), sheet.len(), buf.as_mut_ptr(), buf.len()) }
}

pub fn write(sheet: &[u8], buf: &mut [u8]) -> i64 {
    // SAFETY: as above.
    unsafe { c::bridgetext_write(sheet.as_ptr(), sheet.len(), buf.as_mut_ptr(), buf.len()) }
}
