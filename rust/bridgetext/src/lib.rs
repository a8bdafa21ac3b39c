//! The proved services on sheets, for a host in Rust: check a sheet, write its
//! text, and list its structs in the order in which C++ can define them.
//! `include/bridgetext.h` is the same for a host in C or C++.
//!
//! The services are a static library, `libbridgetext.a`, that `tools/library`
//! makes. `build.rs` looks for it in the folder `BRIDGETEXT_LIB_DIR`, else in
//! `target/staticlib` of the repository. Without it the crate does not build.
//!
//! The services keep no state, so threads may ask at once.

#![deny(unsafe_code)]

#[allow(unsafe_code)]
mod library;
mod refusal;

pub use refusal::Refusal;

/// The library's version, that of `BRIDGETEXT_VERSION` in the header.
pub const VERSION: &str = env!("CARGO_PKG_VERSION");

/// Checks a sheet: any bytes of any length.
///
/// ```
/// use bridgetext::Refusal;
/// assert_eq!(bridgetext::check(&[0x10, 0, 0]), Ok(()));
/// assert_eq!(bridgetext::check(&[0x20, 0, 0]), Ok(()));
/// assert_eq!(bridgetext::check(&[0x30, 0, 0]), Err(Refusal::Edition));
/// ```
pub fn check(sheet: &[u8]) -> Result<(), Refusal> {
    match answer(library::check(sheet))? {
        0 => Ok(()),
        number => panic!("no check answers {number}"),
    }
}

/// Writes the item numbers of the sheet's structs, held before holder, to the
/// start of `buf`, and says how many they are. The rest of `buf` stays as it
/// was, and after a refusal all of it does.
pub fn struct_order(sheet: &[u8], buf: &mut [u8]) -> Result<usize, Refusal> {
    answer(library::struct_order(sheet, buf))
}

/// Writes the sheet's text to the start of `buf`, and says how long it is. The
/// rest of `buf` stays as it was, and after a refusal all of it does.
///
/// No length is known beforehand; [`text`] takes any.
pub fn write(sheet: &[u8], buf: &mut [u8]) -> Result<usize, Refusal> {
    answer(library::write(sheet, buf))
}

/// The sheet's text, of any length: asks again with a longer buffer after an
/// overrun. A sheet of 32,768 bytes can stand for more than 73 million bytes of
/// text; a host that wants less has [`write`].
///
/// ```
/// use bridgetext::{Refusal, text};
/// assert_eq!(text(&[0x10, 0, 0]), Ok(Vec::new()));
/// assert_eq!(text(&[0x10, 0, 0, 0]), Err(Refusal::Tail));
/// ```
pub fn text(sheet: &[u8]) -> Result<Vec<u8>, Refusal> {
    let mut buf = vec![0; 65_536];
    loop {
        match write(sheet, &mut buf) {
            Err(Refusal::Overrun) => buf = vec![0; 8 * buf.len()],
            answer => {
                buf.truncate(answer?);
                return Ok(buf);
            }
        }
    }
}

/// An answer across C linkage: a length, or a refusal's number negated.
fn answer(number: i64) -> Result<usize, Refusal> {
    if let Ok(length) = usize::try_from(number) {
        return Ok(length);
    }
    let refusal = u8::try_from(number.unsigned_abs())
        .ok()
        .and_then(Refusal::from_number);
    Err(refusal.unwrap_or_else(|| panic!("no service answers {number}")))
}

#[cfg(test)]
mod tests {
    use super::*;

    #[test]
    fn answers() {
        assert_eq!(answer(0), Ok(0));
        assert_eq!(answer(255), Ok(255));
        assert_eq!(answer(-1), Err(Refusal::CutSheet));
        assert_eq!(answer(-13), Err(Refusal::Overrun));
    }

    #[test]
    fn no_answers() {
        for number in [-14, -256, -257, i64::MIN] {
            assert!(std::panic::catch_unwind(|| answer(number)).is_err());
        }
    }
}
