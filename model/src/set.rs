//! Sets of resources, and the numbers that stand for them outside the model.

use std::collections::BTreeSet;

pub type Set = BTreeSet<u8>;

pub fn from_number(number: u64) -> Set {
    (0..64).filter(|&a| (number >> a) % 2 == 1).collect()
}

pub fn to_number(set: &Set) -> u64 {
    set.iter().map(|&a| 1_u64 << a).sum()
}
