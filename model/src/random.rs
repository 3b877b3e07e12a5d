//! A small generator (splitmix64): the same seed gives the same input everywhere.

use crate::set::Set;

pub struct Random(u64);

impl Random {
    pub fn new(seed: u64) -> Random {
        Random(seed)
    }

    pub fn number(&mut self) -> u64 {
        self.0 = self.0.wrapping_add(0x9e37_79b9_7f4a_7c15);
        let mut z = self.0;
        z = (z ^ (z >> 30)).wrapping_mul(0xbf58_476d_1ce4_e5b9);
        z = (z ^ (z >> 27)).wrapping_mul(0x94d0_49bb_1331_11eb);
        z ^ (z >> 31)
    }

    /// The slight lean to low numbers does no harm here.
    pub fn below(&mut self, bound: u64) -> u64 {
        self.number() % bound
    }

    pub fn one_in(&mut self, bound: u64) -> bool {
        self.below(bound) == 0
    }

    pub fn pick<T: Copy>(&mut self, from: &[T]) -> T {
        from[self.below(from.len() as u64) as usize]
    }

    /// Numbers of every length in bits, so that small ones are not rare.
    pub fn any_length(&mut self) -> u64 {
        let dropped = self.below(64);
        self.number() >> dropped
    }

    pub fn member(&mut self, set: &Set) -> Option<u8> {
        let members: Vec<u8> = set.iter().copied().collect();
        (!members.is_empty()).then(|| self.pick(&members))
    }

    /// A part of the set, empty only if the set is: one member, about half or all.
    pub fn part(&mut self, set: &Set) -> Set {
        let mut part: Set = match self.below(4) {
            0 => set.clone(),
            1 => set.iter().copied().filter(|_| self.one_in(2)).collect(),
            _ => Set::new(),
        };
        part.extend(self.member(set));
        part
    }
}
