//! Sheets from a seed: accepted ones, the same with chosen faults, with reserved
//! identifiers, with keywords of C++20 or with names that come close to keywords,
//! damaged copies, structs that hold one another, and the limits.

mod boundary;
mod fault;
mod good;
mod graph;

pub use boundary::{boundaries, signatures};
pub use fault::{faulty, keyword, put_keyword, put_near_keywords, reserve, reserved};
pub use good::{good, large, type_of_depth};
pub use graph::graph;

use crate::{Refusal, Rng, encode};

/// 1 or 2. Of the sheets that `any` makes some have another edition, or none;
/// half of all are to have edition 2, so it comes a little more often.
pub fn edition(rng: &mut Rng) -> u8 {
    if rng.below(25) < 13 { 2 } else { 1 }
}

/// Any sheet: about half of them are accepted, and half are of edition 2.
pub fn any(rng: &mut Rng) -> Vec<u8> {
    match rng.below(43) {
        0 if rng.one_in(20) => encode(&large(rng)),
        0..=13 => encode(&good(rng)),
        14..=20 => {
            let mut sheet = good(rng);
            put_near_keywords(rng, &mut sheet);
            encode(&sheet)
        }
        21..=27 => {
            let refusal = *rng.pick(&Refusal::ALL);
            faulty(rng, &[refusal])
        }
        28..=31 => {
            let first = *rng.pick(&Refusal::ALL);
            let second = *rng.pick(&Refusal::ALL);
            faulty(rng, &[first, second])
        }
        32..=35 => damaged(rng),
        36..=38 => encode(&graph(rng)),
        39..=40 => reserved(rng),
        41 => keyword(rng),
        _ => noise(rng),
    }
}

/// A good sheet, damaged.
pub fn damaged(rng: &mut Rng) -> Vec<u8> {
    let mut bytes = encode(&good(rng));
    damage(rng, &mut bytes);
    bytes
}

/// Flips bits, cuts short, lets grow, or replaces bytes.
pub fn damage(rng: &mut Rng, bytes: &mut Vec<u8>) {
    for _ in 0..rng.between(1, 3) {
        match rng.below(6) {
            0 => bytes.truncate(rng.below(bytes.len() + 1)),
            1 => {
                let extra = rng.between(1, 3);
                let fill = if rng.bit() { 0 } else { rng.next_u64() as u8 };
                bytes.resize(bytes.len() + extra, fill);
            }
            2 if !bytes.is_empty() => {
                let at = rng.below(bytes.len());
                bytes[at] = rng.next_u64() as u8;
            }
            _ if !bytes.is_empty() => {
                let at = rng.below(bytes.len());
                bytes[at] ^= 1 << rng.below(8);
            }
            _ => {}
        }
    }
}

/// A few random bytes, mostly behind edition 1 or 2.
fn noise(rng: &mut Rng) -> Vec<u8> {
    let mut bytes: Vec<u8> = (0..rng.below(24)).map(|_| rng.next_u64() as u8).collect();
    if let Some(first) = bytes.first_mut()
        && !rng.one_in(8)
    {
        *first = edition(rng) << 4 | *first & 0x0c;
    }
    bytes
}
