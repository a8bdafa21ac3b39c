//! Fields packed most significant bit first.

/// The width of an index into a table of `entries` entries: as many bits as
/// `entries - 1` has in binary, none for fewer than two.
pub fn index_width(entries: usize) -> u32 {
    match entries {
        0 | 1 => 0,
        n => usize::BITS - (n - 1).leading_zeros(),
    }
}

#[derive(Clone)]
pub struct BitReader<'a> {
    bytes: &'a [u8],
    at: usize,
}

impl<'a> BitReader<'a> {
    pub fn new(bytes: &'a [u8]) -> Self {
        BitReader { bytes, at: 0 }
    }

    pub fn bits_left(&self) -> usize {
        self.bytes.len() * 8 - self.at
    }

    /// The next `width` bits (at most 32) as a number; `None` past the end.
    #[inline]
    pub fn read(&mut self, width: u32) -> Option<u32> {
        debug_assert!(width <= 32);
        let end = self.at + width as usize;
        if end > self.bytes.len() * 8 {
            return None;
        }
        if width == 0 {
            return Some(0);
        }
        let (byte, bit) = (self.at / 8, self.at % 8);
        let word = match self.bytes[byte..].first_chunk::<8>() {
            Some(chunk) => u64::from_be_bytes(*chunk),
            None => {
                let mut chunk = [0; 8];
                let rest = &self.bytes[byte..];
                chunk[..rest.len()].copy_from_slice(rest);
                u64::from_be_bytes(chunk)
            }
        };
        self.at = end;
        Some(((word << bit) >> (64 - width)) as u32)
    }
}

#[derive(Default)]
pub struct BitWriter {
    bytes: Vec<u8>,
    bits: usize,
}

impl BitWriter {
    /// Writes the low `width` bits of `value`.
    pub fn write(&mut self, width: u32, value: u32) {
        for shift in (0..width).rev() {
            if self.bits.is_multiple_of(8) {
                self.bytes.push(0);
            }
            let bit = (value >> shift & 1) as u8;
            *self.bytes.last_mut().unwrap() |= bit << (7 - self.bits % 8);
            self.bits += 1;
        }
    }

    /// The bytes, filled up with zero bits, and the number of bits written.
    pub fn finish(self) -> (Vec<u8>, usize) {
        (self.bytes, self.bits)
    }
}
