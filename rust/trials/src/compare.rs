//! One sheet through a service, and what the service owes for it.

use bridgetext::Refusal;
use sheet::name::ADDED_KEYWORDS;
use sheet::{Sheet, with_edition};
use std::fmt::{self, Display};

/// What the struct order service owes, but for the buffer: the list, or the
/// number of the check's refusal.
pub type Order = Result<Vec<u8>, u8>;

/// The same for the write service: the text, or the refusal.
pub type Text = Result<Vec<u8>, u8>;

/// A service that writes into a buffer.
#[derive(Clone, Copy)]
pub enum Service {
    StructOrder,
    Write,
}

const OVERRUN: u8 = 13;

/// Bytes on each side of a buffer that must stay as they are.
pub const MARGIN: usize = 64;

/// Asks for a check, twice; the answer's number, or what is wrong with it.
pub fn check(bytes: &[u8]) -> Result<u8, String> {
    let wanted = sheet::check(bytes);
    for _ in 0..2 {
        let answer = bridgetext::check(bytes).map_or_else(|refusal| refusal.number(), |()| 0);
        if answer != wanted {
            return Err(format!("a check answers {answer}, not {wanted}"));
        }
    }
    Ok(wanted)
}

/// The order by the crate's `sort`; it needs the crate's source. The crate is
/// asked about accepted sheets only, so never about one with a name that only the
/// orders of document 02 forbid.
pub fn wanted_order(bytes: &[u8]) -> Order {
    match sheet::read(bytes) {
        Ok(sheet) => Ok(oracle::struct_order(&sheet)),
        Err(refusal) => Err(refusal.number()),
    }
}

/// The text by the crate's writer, on the same terms.
pub fn wanted_text(bytes: &[u8]) -> Text {
    match sheet::read(bytes) {
        Ok(sheet) => Ok(oracle::text(&sheet)),
        Err(refusal) => Err(refusal.number()),
    }
}

/// The text of an accepted sheet by the service.
pub fn text(sheet: &Sheet) -> Vec<u8> {
    bridgetext::text(&sheet::encode(sheet)).unwrap()
}

/// The struct order of an accepted sheet by the service.
pub fn order(sheet: &Sheet) -> Vec<u8> {
    order_of(&sheet::encode(sheet))
}

fn order_of(bytes: &[u8]) -> Vec<u8> {
    let mut list = vec![0; 255];
    let length = bridgetext::struct_order(bytes, &mut list).unwrap();
    list.truncate(length);
    list
}

/// Buffer lengths around that of the answer, with none and with a large one.
pub fn lengths(wanted: &Result<Vec<u8>, u8>, large: usize) -> Vec<usize> {
    let length = wanted.as_ref().map_or(0, Vec::len);
    let mut lengths = vec![0, length.saturating_sub(1), length, length + 1, large];
    lengths.sort();
    lengths.dedup();
    lengths
}

/// Asks for the struct order with a buffer of each of the lengths, and compares
/// the answer and every byte in and around the buffer. Says how many of the
/// calls were overruns, or what is wrong.
pub fn struct_order(bytes: &[u8], order: &Order, lengths: &[usize]) -> Result<u64, String> {
    with_buffers(Service::StructOrder, bytes, order, lengths, MARGIN)
}

/// The same for the text.
pub fn write(bytes: &[u8], text: &Text, lengths: &[usize]) -> Result<u64, String> {
    with_buffers(Service::Write, bytes, text, lengths, MARGIN)
}

/// The same with another margin; with none, a buffer is alone on the heap.
pub fn with_buffers(
    service: Service,
    bytes: &[u8],
    wanted: &Result<Vec<u8>, u8>,
    lengths: &[usize],
    margin: usize,
) -> Result<u64, String> {
    let mut overruns = 0;
    for length in lengths {
        // Of two complementary fillings a write leaves at most one as it was.
        for flip in [0x00, 0xff] {
            let answer = with_buffer(service, bytes, wanted, *length, margin, flip)
                .map_err(|error| format!("{service} with a buffer of {length}{error}"))?;
            overruns += u64::from(answer == Err(OVERRUN));
        }
    }
    Ok(overruns)
}

fn with_buffer(
    service: Service,
    bytes: &[u8],
    wanted: &Result<Vec<u8>, u8>,
    length: usize,
    margin: usize,
    flip: u8,
) -> Result<Result<usize, u8>, String> {
    let fill = (0..length + 2 * margin).map(|at| (at as u8).wrapping_mul(151) ^ flip);
    let mut memory: Vec<u8> = fill.collect();
    let mut wanted_memory = memory.clone();
    let wanted = match wanted {
        Err(refusal) => Err(*refusal),
        Ok(bytes) if bytes.len() > length => Err(OVERRUN),
        Ok(bytes) => {
            wanted_memory[margin..][..bytes.len()].copy_from_slice(bytes);
            Ok(bytes.len())
        }
    };
    let buffer = &mut memory[margin..][..length];
    let answer = service.ask(bytes, buffer).map_err(Refusal::number);
    if answer != wanted {
        return Err(format!(" answers {answer:?}, not {wanted:?}"));
    }
    if memory == wanted_memory {
        return Ok(answer);
    }
    let mut both = memory.iter().zip(&wanted_memory);
    let at = both.position(|(one, two)| one != two).unwrap();
    Err(format!(
        ": byte {} of the buffer is {}, not {}",
        at as i64 - margin as i64,
        memory[at],
        wanted_memory[at]
    ))
}

/// Puts an accepted sheet with this text through the services under the other
/// edition, and says whether that accepts it. If so, text and struct order are
/// the same; if not, a keyword that C++20 added is why, and every buffer stays as
/// it was.
pub fn other_edition(bytes: &[u8], text: &[u8], margin: usize) -> Result<bool, String> {
    let edition = 3 - (bytes[0] >> 4);
    let under = |error| format!("under edition {edition}: {error}");
    let other = with_edition(bytes, edition);
    let names = sheet::decode(bytes).unwrap().names;
    let mut names = names.iter().map(|name| str::from_utf8(name).unwrap());
    let is_refused = edition == 2 && names.any(|name| ADDED_KEYWORDS.contains(&name));
    let wanted = match is_refused {
        true => Refusal::BadName.number(),
        false => 0,
    };
    let answer = check(&other).map_err(under)?;
    if answer != wanted {
        return Err(under(format!("a check answers {answer}, not {wanted}")));
    }
    let answers = [
        (Service::Write, text.to_vec()),
        (Service::StructOrder, order_of(bytes)),
    ];
    for (service, answer) in answers {
        let lengths = [answer.len()];
        let wanted = match is_refused {
            true => Err(wanted),
            false => Ok(answer),
        };
        with_buffers(service, &other, &wanted, &lengths, margin).map_err(under)?;
    }
    Ok(!is_refused)
}

impl Service {
    fn ask(self, bytes: &[u8], buffer: &mut [u8]) -> Result<usize, Refusal> {
        match self {
            Service::StructOrder => bridgetext::struct_order(bytes, buffer),
            Service::Write => bridgetext::write(bytes, buffer),
        }
    }
}

impl Display for Service {
    fn fmt(&self, out: &mut fmt::Formatter) -> fmt::Result {
        out.write_str(match self {
            Service::StructOrder => "struct order",
            Service::Write => "write",
        })
    }
}
