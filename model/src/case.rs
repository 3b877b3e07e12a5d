//! One call with all that is handed to it, and its layout in a row of cases.

use crate::table::{Row, Table, JOBS};
use std::fmt;

/// Bytes before the table: those of a call, job, tick, set and room.
const HEAD: usize = 1 + 4 + 4 + 8 + 2;

/// Bytes of a row: five numbers.
const ROW: usize = 5 * 8;

/// Bytes of a table: its own numbers and its rows.
pub const TABLE: usize = 1 + 1 + 4 + 8 + 8 + ROW * JOBS;

/// Bytes of a case.
pub const CASE: usize = HEAD + TABLE;

#[derive(Clone, Copy, Debug, PartialEq, Eq)]
pub enum Call {
    Beat,
    Open,
    Ask,
    Release,
    Complete,
    Report,
    Overdue,
    Start,
    WriteBeat,
    WriteOpen,
    WriteAsk,
    WriteRelease,
    WriteComplete,
    WriteStart,
    GiveUp,
    WriteGiveUp,
}

/// Every call, at the place that is its number.
pub const CALLS: [Call; 16] = [
    Call::Beat,
    Call::Open,
    Call::Ask,
    Call::Release,
    Call::Complete,
    Call::Report,
    Call::Overdue,
    Call::Start,
    Call::WriteBeat,
    Call::WriteOpen,
    Call::WriteAsk,
    Call::WriteRelease,
    Call::WriteComplete,
    Call::WriteStart,
    Call::GiveUp,
    Call::WriteGiveUp,
];

/// The calls that change a table. Each has a record.
pub const EVENTS: [Call; 6] = [
    Call::Beat,
    Call::Open,
    Call::Ask,
    Call::Release,
    Call::Complete,
    Call::GiveUp,
];

impl Call {
    pub fn writes(self) -> bool {
        matches!(
            self,
            Call::WriteBeat
                | Call::WriteOpen
                | Call::WriteAsk
                | Call::WriteRelease
                | Call::WriteComplete
                | Call::WriteStart
                | Call::WriteGiveUp
        )
    }

    /// A start makes its own, and what is written is no part of one.
    pub fn has_table(self) -> bool {
        self != Call::Start && !self.writes()
    }

    pub fn has_list(self) -> bool {
        self.writes() || matches!(self, Call::Complete | Call::GiveUp | Call::Overdue)
    }

    /// The call that writes the record of this one. A question has no record.
    pub fn writing(self) -> Option<Call> {
        match self {
            Call::Beat => Some(Call::WriteBeat),
            Call::Open => Some(Call::WriteOpen),
            Call::Ask => Some(Call::WriteAsk),
            Call::Release => Some(Call::WriteRelease),
            Call::Complete => Some(Call::WriteComplete),
            Call::GiveUp => Some(Call::WriteGiveUp),
            Call::Start => Some(Call::WriteStart),
            _ => None,
        }
    }
}

impl fmt::Display for Call {
    fn fmt(&self, out: &mut fmt::Formatter) -> fmt::Result {
        out.write_str(match self {
            Call::Beat => "beat",
            Call::Open => "open",
            Call::Ask => "ask",
            Call::Release => "release",
            Call::Complete => "complete",
            Call::Report => "report",
            Call::Overdue => "overdue",
            Call::Start => "start",
            Call::WriteBeat => "write-beat",
            Call::WriteOpen => "write-open",
            Call::WriteAsk => "write-ask",
            Call::WriteRelease => "write-release",
            Call::WriteComplete => "write-complete",
            Call::WriteStart => "write-start",
            Call::GiveUp => "give-up",
            Call::WriteGiveUp => "write-give-up",
        })
    }
}

/// A call reads only those of these fields that it is about.
#[derive(Clone, Debug)]
pub struct Case {
    pub call: Call,
    pub job: u32,
    pub tick: u32,
    pub set: u64,
    /// Length of the lent list or of the room to write in.
    pub room: u16,
    pub table: Table,
}

/// Takes numbers off the front of a case.
struct Bytes<'a>(&'a [u8]);

impl Bytes<'_> {
    fn take(&mut self, width: usize) -> u64 {
        let (front, rest) = self.0.split_at(width);
        self.0 = rest;
        front.iter().fold(0, |n, &byte| n * 256 + u64::from(byte))
    }
}

impl Case {
    /// Nothing if the call has no such number.
    pub fn from_bytes(bytes: &[u8; CASE]) -> Option<Case> {
        let mut bytes = Bytes(bytes);
        Some(Case {
            call: *CALLS.get(bytes.take(1) as usize)?,
            job: bytes.take(4) as u32,
            tick: bytes.take(4) as u32,
            set: bytes.take(8),
            room: bytes.take(2) as u16,
            table: table_from(&mut bytes),
        })
    }

    pub fn to_bytes(&self) -> Vec<u8> {
        let mut bytes = vec![self.call as u8];
        bytes.extend(self.job.to_be_bytes());
        bytes.extend(self.tick.to_be_bytes());
        bytes.extend(self.set.to_be_bytes());
        bytes.extend(self.room.to_be_bytes());
        bytes.extend(table_to_bytes(&self.table));
        bytes
    }
}

pub fn table_to_bytes(table: &Table) -> Vec<u8> {
    let mut bytes = vec![table.tokens, table.resources];
    bytes.extend(table.limit.to_be_bytes());
    bytes.extend(table.time.to_be_bytes());
    bytes.extend(table.last_turn.to_be_bytes());
    for row in &table.rows {
        for number in [row.turn, row.declared, row.held, row.asked, row.since] {
            bytes.extend(number.to_be_bytes());
        }
    }
    bytes
}

pub fn table_from_bytes(bytes: &[u8; TABLE]) -> Table {
    table_from(&mut Bytes(bytes))
}

fn table_from(bytes: &mut Bytes) -> Table {
    let mut table = Table::zero();
    table.tokens = bytes.take(1) as u8;
    table.resources = bytes.take(1) as u8;
    table.limit = bytes.take(4) as u32;
    table.time = bytes.take(8);
    table.last_turn = bytes.take(8);
    for job in 0..JOBS {
        table.rows[job] = Row {
            turn: bytes.take(8),
            declared: bytes.take(8),
            held: bytes.take(8),
            asked: bytes.take(8),
            since: bytes.take(8),
        };
    }
    table
}
