//! Reading standard input in pieces of one length.

use std::io::{self, Read};

/// The next piece: shorter only where the input ends, empty at its end.
pub fn piece(input: &mut impl Read, length: usize) -> io::Result<Vec<u8>> {
    let mut piece = Vec::with_capacity(length);
    input.take(length as u64).read_to_end(&mut piece)?;
    Ok(piece)
}
