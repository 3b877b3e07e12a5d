//! Numbers one after the other in a row of bits, the most significant bit of each first.

/// Takes numbers off the front of bytes.
pub struct Reader<'a> {
    bytes: &'a [u8],
    at: usize,
}

impl Reader<'_> {
    pub fn of(bytes: &[u8]) -> Reader<'_> {
        Reader { bytes, at: 0 }
    }

    pub fn take(&mut self, width: u32) -> u64 {
        (0..width).fold(0, |number, _| number * 2 + self.bit())
    }

    fn bit(&mut self) -> u64 {
        let byte = self.bytes[self.at / 8];
        let bit = byte >> (7 - self.at % 8) & 1;
        self.at += 1;
        u64::from(bit)
    }
}

/// Puts numbers one after the other.
#[derive(Default)]
pub struct Writer(Vec<bool>);

impl Writer {
    pub fn put(&mut self, width: u32, number: u64) {
        let bits = (0..width).rev().map(|place| (number >> place) % 2 == 1);
        self.0.extend(bits);
    }

    /// What was put, in whole bytes.
    pub fn bytes(&self) -> Vec<u8> {
        let byte = |bits: &[bool]| bits.iter().fold(0, |n, &bit| n * 2 + u8::from(bit));
        self.0.chunks_exact(8).map(byte).collect()
    }
}
