//! The table as it is handed in and out: plain numbers that may be damaged in any way.

pub const JOBS: usize = 64;

#[derive(Clone, Copy, Debug, Default, PartialEq, Eq)]
pub struct Row {
    pub turn: u64,
    pub declared: u64,
    pub held: u64,
    pub asked: u64,
    pub since: u64,
}

#[derive(Clone, Debug, PartialEq, Eq)]
pub struct Table {
    pub tokens: u8,
    pub resources: u8,
    pub limit: u32,
    pub time: u64,
    pub last_turn: u64,
    pub rows: [Row; JOBS],
}

impl Table {
    /// A table without requests, whether its numbers are in range or not.
    pub fn empty(tokens: u8, resources: u8, limit: u32, time: u64) -> Table {
        Table {
            tokens,
            resources,
            limit,
            time,
            last_turn: 0,
            rows: [Row::default(); JOBS],
        }
    }

    pub fn zero() -> Table {
        Table::empty(0, 0, 0, 0)
    }
}
