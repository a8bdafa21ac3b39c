//! How much stack a call takes: it runs on a stack of its own that was painted
//! before, and the paint that is gone is counted.

use crate::sheets;
use sheet::{Rng, encode, generate, limit};
use std::arch::asm;

/// The stack's size, and how much of it is painted.
const SIZE: usize = 16 << 20;
const PAINTED: usize = 1 << 20;

/// A stack, 16 bytes to an entry, because its top must be a multiple of 16.
pub struct Stack(Vec<u128>);

impl Stack {
    pub fn new() -> Self {
        Stack(vec![0; SIZE / 16])
    }

    /// The bytes from the stack's top down to the lowest one that the call
    /// changed; `None` if that is all that was painted.
    pub fn depth(&mut self, mut call: impl FnMut()) -> Option<usize> {
        // What happens to be written in one colour is not in the other.
        let one = self.touched(&mut call, 0x5a)?;
        let two = self.touched(&mut call, 0xa5)?;
        Some(one.max(two))
    }

    fn touched(&mut self, mut call: &mut dyn FnMut(), colour: u8) -> Option<usize> {
        let start = self.0.len() - PAINTED / 16;
        let colour = u128::from_ne_bytes([colour; 16]);
        self.0[start..].fill(colour);
        let top = self.0.as_mut_ptr_range().end;
        let call: *mut &mut dyn FnMut() = &mut call;
        // SAFETY: `top` is the end of memory that nothing else uses during the
        // call, and a multiple of 16; r12 keeps the old stack, since a callee
        // saves it; `enter` never unwinds.
        unsafe {
            asm!(
                "mov r12, rsp",
                "mov rsp, {top}",
                "call {enter}",
                "mov rsp, r12",
                top = in(reg) top,
                enter = sym enter,
                in("rdi") call,
                out("r12") _,
                clobber_abi("C"),
            );
        }
        let mut painted = self.0[start..].iter();
        let kept = painted.position(|entry| *entry != colour)?;
        let entry = self.0[start + kept].to_ne_bytes();
        let colour = colour.to_ne_bytes();
        let kept_bytes = entry.iter().zip(&colour).position(|(one, two)| one != two);
        let kept = 16 * kept + kept_bytes.unwrap_or(16);
        (kept > 0).then_some(PAINTED - kept)
    }
}

impl Default for Stack {
    fn default() -> Self {
        Self::new()
    }
}

extern "C" fn enter(call: *mut &mut dyn FnMut()) {
    // SAFETY: the only caller passes a pointer to a local that it does not use meanwhile.
    unsafe { (*call)() }
}

/// The most bytes that a call took, and on which sheet: large ones, those at the
/// limits, and so many of each generated kind. An error if some call took all.
pub fn deepest(generated: u64, mut call: impl FnMut(&[u8])) -> Result<(usize, String), ()> {
    let mut stack = Stack::new();
    let mut deepest = (0, String::new());
    for (label, sheet) in all(generated) {
        let depth = stack.depth(|| call(&sheet)).ok_or(())?;
        if depth > deepest.0 {
            deepest = (depth, label);
        }
    }
    Ok(deepest)
}

fn all(count: u64) -> impl Iterator<Item = (String, Vec<u8>)> {
    let large = [
        ("1,023 names", sheets::many_names(limit::NAMES)),
        ("255 functions with 8 arguments", sheets::functions(8)),
        ("255 functions with 31 arguments", sheets::functions(31)),
        ("255 structs in a chain", sheets::chain()),
        (
            "255 structs in a chain backwards",
            sheets::chain_backwards(),
        ),
        ("255 structs in diamonds", sheets::diamonds()),
        ("255 structs with 63 fields", sheets::dense()),
        ("the longest text", sheets::longest_text()),
    ];
    let large = large.map(|(label, sheet)| (label.to_string(), encode(&sheet)));
    let generated = (0..count).map(|number| {
        let sheet = generate::any(&mut Rng::new(number));
        (format!("generated, seed {number}"), sheet)
    });
    let structs = (0..count).map(|number| {
        let sheet = sheets::structs(&mut Rng::new(number));
        (format!("structs, seed {number}"), encode(&sheet))
    });
    large
        .into_iter()
        .chain(generate::boundaries())
        .chain(generate::signatures())
        .chain(generated)
        .chain(structs)
}

#[cfg(test)]
mod tests {
    use super::*;
    use std::hint::black_box;

    #[test]
    fn an_array_is_seen() {
        let mut stack = Stack::new();
        let nothing = stack.depth(|| {}).unwrap();
        let array = stack.depth(|| {
            black_box([1u8; 5_000]);
        });
        assert!(nothing < 500, "{nothing}");
        let array = array.unwrap();
        assert!((5_000..7_000).contains(&array), "{array}");
    }

    #[test]
    fn too_much_is_said() {
        let mut stack = Stack::new();
        let depth = stack.depth(|| {
            black_box([1u8; PAINTED]);
        });
        assert_eq!(depth, None);
    }
}
