//! The crate's writer in plain Rust on a lent buffer: block.rs, out.rs,
//! nested.rs, mangle.rs and write.rs of cxx-build 1.0.205, with their names and
//! their order of calls, from a sheet's bytes in the place of the syntax tree.
//! It is what the proved service is timed against.
//!
//! It is kept plain, so that the figure compares the service with what one
//! would write from the crate's source, and not with a tuned program: fields
//! are read one after the other, characters one by one, and the text's pieces
//! are copied as they come. Only its storage differs from the obvious: a list
//! for each sort of part in the place of a tree. A call allocates these:
//!
//! - of the sheet seven lists: the characters of names and comment lines, the
//!   names, the lines, the namespaces, the types, the arguments, and the items.
//!   Each has room from the start for what the sheet can hold, so that none
//!   grows; nothing is allocated for a type, a name or an item by itself;
//! - for the text one list of block boundaries, with room for the most there
//!   can be; and where items are declared, the lists of nested.rs as the crate
//!   has them, which grow: all these items, and for each namespace its items,
//!   those directly in it, and the namespaces in it;
//! - in `write`, before all this, the tables and sets of `sheet::check`, some of
//!   which grow.

mod flat;
mod nested;
mod out;
mod read;
mod write;

use flat::Sheet;
use out::OutFile;
use sheet::Refusal;

const OVERRUN: u8 = 13;

/// The text of a sheet, or a refusal's number.
pub fn text(bytes: &[u8]) -> Result<Vec<u8>, u8> {
    let sheet = check_and_read(bytes)?;
    let mut text = vec![0; text_into(&sheet, &mut [])];
    text_into(&sheet, &mut text);
    Ok(text)
}

/// Checks a sheet and writes its text in one pass: its length, or a refusal's
/// number. Unlike the proved service it has written to the buffer before it
/// answers 13.
pub fn write(bytes: &[u8], buf: &mut [u8]) -> Result<usize, u8> {
    let sheet = check_and_read(bytes)?;
    write_text(&sheet, buf)
}

/// `write` without rules 9 to 12, which the crate's writer does not check
/// either: it has some text for a sheet that breaks one.
pub fn write_without_rules(bytes: &[u8], buf: &mut [u8]) -> Result<usize, u8> {
    let sheet = read::read::<true>(bytes).map_err(Refusal::number)?;
    write_text(&sheet, buf)
}

fn check_and_read(bytes: &[u8]) -> Result<Sheet, u8> {
    match sheet::check(bytes) {
        0 => read::read::<false>(bytes).map_err(Refusal::number),
        refusal => Err(refusal),
    }
}

fn write_text(sheet: &Sheet, buf: &mut [u8]) -> Result<usize, u8> {
    match text_into(sheet, buf) {
        length if length > buf.len() => Err(OVERRUN),
        length => Ok(length),
    }
}

/// Writes as much as fits, and says how long the text is.
fn text_into(sheet: &Sheet, buf: &mut [u8]) -> usize {
    let mut out = OutFile::new(sheet, buf);
    write::write_forward_declarations(&mut out);
    write::write_functions(&mut out);
    out.flush()
}
