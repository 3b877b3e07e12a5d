//! Single bits of a service file, named by their fields: those of the head and those of
//! the first row, the last one and the ones between.

use crate::layout::{HEAD, HEAD_FIELDS, ROW, ROW_FIELDS};

const PLACES: [&str; 3] = ["first row", "middle row", "last row"];

/// How many fields there are to turn a bit over in.
pub const FLIPS: u64 = (HEAD_FIELDS.len() + PLACES.len() * ROW_FIELDS.len()) as u64;

/// What a turned bit is called, for every such field in order.
pub fn names() -> Vec<String> {
    let mut names: Vec<String> = HEAD_FIELDS.map(|(name, _)| format!("head {name}")).into();
    for place in PLACES {
        names.extend(ROW_FIELDS.map(|(name, _)| format!("{place} {name}")));
    }
    names
}

/// Turns over a bit of the numbered field: the `nth`, and after the last bit the first
/// again. The file has rows.
pub fn flip(file: &mut [u8], field: u64, nth: u64) {
    let rows = (file.len() - HEAD) / ROW;
    let field = field as usize;
    let (start, fields, field) = match field.checked_sub(HEAD_FIELDS.len()) {
        None => (0, &HEAD_FIELDS[..], field),
        Some(of_rows) => {
            let row = [0, rows / 2, rows - 1][of_rows / ROW_FIELDS.len()];
            let start = 8 * (HEAD + ROW * row);
            (start, &ROW_FIELDS[..], of_rows % ROW_FIELDS.len())
        }
    };
    let before: u32 = fields[..field].iter().map(|(_, width)| width).sum();
    let bit = start + before as usize + (nth % u64::from(fields[field].1)) as usize;
    file[bit / 8] ^= 128 >> (bit % 8);
}

/// The name of the field in which the files differ, if it is one bit.
pub fn between(one: &[u8], other: &[u8]) -> Option<String> {
    let differing = |(a, b): (&u8, &u8)| (a ^ b).count_ones();
    let bits: u32 = one.iter().zip(other).map(differing).sum();
    if one.len() != other.len() || bits != 1 {
        return None;
    }
    let byte = one.iter().zip(other).position(|(a, b)| a != b)?;
    let bit = 8 * byte + (one[byte] ^ other[byte]).leading_zeros() as usize;
    Some(name_of(bit, one.len().saturating_sub(HEAD) / ROW))
}

fn name_of(bit: usize, rows: usize) -> String {
    let Some(in_rows) = bit.checked_sub(8 * HEAD) else {
        return format!("head {}", field_at(&HEAD_FIELDS, bit));
    };
    let row = in_rows / (8 * ROW);
    let place = match row {
        0 => PLACES[0],
        _ if row + 1 == rows => PLACES[2],
        _ => PLACES[1],
    };
    format!("{place} {}", field_at(&ROW_FIELDS, in_rows % (8 * ROW)))
}

fn field_at(fields: &[(&'static str, u32)], bit: usize) -> &'static str {
    let mut end = 0;
    let ends_behind = |(_, width): &&(&str, u32)| {
        end += *width as usize;
        bit < end
    };
    fields.iter().find(ends_behind).expect("a bit of theirs").0
}
