//! What stands in a service file field by field, whether it makes sense or not.

use crate::bits::{Reader, Writer};
use crate::table::{Row, Table, JOBS};

/// A field's name and how many bits it has.
type Field = (&'static str, u32);

/// The fields of the head, in the order in which they stand.
pub const HEAD_FIELDS: [Field; 8] = [
    ("version", 4),
    ("tokens", 6),
    ("resources", 6),
    ("limit", 32),
    ("time", 63),
    ("last turn", 63),
    ("count", 7),
    ("zero", 3),
];

/// The fields of a row, in the order in which they stand.
pub const ROW_FIELDS: [Field; 7] = [
    ("job", 6),
    ("turn", 63),
    ("declared", 64),
    ("held", 64),
    ("asked", 64),
    ("since", 63),
    ("zero", 4),
];

/// Bytes of the head.
pub const HEAD: usize = 23;

/// Bytes of a row.
pub const ROW: usize = 41;

/// Bytes of the file of a table in which every job has a request.
pub const LONGEST: usize = HEAD + ROW * JOBS;

#[derive(Clone, Debug, PartialEq, Eq)]
pub struct Head {
    pub version: u64,
    pub tokens_less_1: u64,
    pub resources_less_1: u64,
    pub limit: u64,
    pub time: u64,
    pub last_turn: u64,
    pub count: u64,
    pub zero: u64,
}

impl Head {
    fn of(numbers: [u64; 8]) -> Head {
        let [version, tokens_less_1, resources_less_1, limit, time, last_turn, count, zero] =
            numbers;
        Head {
            version,
            tokens_less_1,
            resources_less_1,
            limit,
            time,
            last_turn,
            count,
            zero,
        }
    }

    fn numbers(&self) -> [u64; 8] {
        [
            self.version,
            self.tokens_less_1,
            self.resources_less_1,
            self.limit,
            self.time,
            self.last_turn,
            self.count,
            self.zero,
        ]
    }
}

#[derive(Clone, Debug, Default, PartialEq, Eq)]
pub struct FileRow {
    pub job: u64,
    pub turn: u64,
    pub declared: u64,
    pub held: u64,
    pub asked: u64,
    pub since: u64,
    pub zero: u64,
}

impl FileRow {
    fn of([job, turn, declared, held, asked, since, zero]: [u64; 7]) -> FileRow {
        FileRow {
            job,
            turn,
            declared,
            held,
            asked,
            since,
            zero,
        }
    }

    fn numbers(&self) -> [u64; 7] {
        [
            self.job,
            self.turn,
            self.declared,
            self.held,
            self.asked,
            self.since,
            self.zero,
        ]
    }
}

#[derive(Clone, Debug, PartialEq, Eq)]
pub struct Layout {
    pub head: Head,
    /// Every row that stands there whole, counted or not.
    pub rows: Vec<FileRow>,
}

impl Layout {
    /// Nothing if the bytes are too few for a head. Bytes after the last whole row
    /// are left out.
    pub fn of(bytes: &[u8]) -> Option<Layout> {
        let rows = bytes.get(HEAD..)?;
        let mut head = Reader::of(bytes);
        let row = |bytes| {
            let mut row = Reader::of(bytes);
            FileRow::of(ROW_FIELDS.map(|(_, width)| row.take(width)))
        };
        Some(Layout {
            head: Head::of(HEAD_FIELDS.map(|(_, width)| head.take(width))),
            rows: rows.chunks_exact(ROW).map(row).collect(),
        })
    }

    /// The live rows by turn. Numbers that their fields can't carry lose their upper
    /// bits, which no sound table has.
    pub fn of_table(version: u64, table: &Table) -> Layout {
        let live = (0..).zip(&table.rows).filter(|(_, row)| row.turn != 0);
        let row = |(job, row): (u64, &Row)| FileRow {
            job,
            turn: row.turn,
            declared: row.declared,
            held: row.held,
            asked: row.asked,
            since: row.since,
            zero: 0,
        };
        let mut rows: Vec<FileRow> = live.map(row).collect();
        rows.sort_by_key(|row| row.turn);
        Layout {
            head: Head {
                version,
                tokens_less_1: u64::from(table.tokens.wrapping_sub(1)),
                resources_less_1: u64::from(table.resources.wrapping_sub(1)),
                limit: u64::from(table.limit),
                time: table.time,
                last_turn: table.last_turn,
                count: rows.len() as u64,
                zero: 0,
            },
            rows,
        }
    }

    pub fn bytes(&self) -> Vec<u8> {
        let mut bits = Writer::default();
        for ((_, width), number) in HEAD_FIELDS.iter().zip(self.head.numbers()) {
            bits.put(*width, number);
        }
        for row in &self.rows {
            for ((_, width), number) in ROW_FIELDS.iter().zip(row.numbers()) {
                bits.put(*width, number);
            }
        }
        bits.bytes()
    }

    /// The rows that are counted, as far as they stand there whole.
    pub fn counted(&self) -> &[FileRow] {
        let count = self.rows.len().min(self.head.count as usize);
        &self.rows[..count]
    }

    /// The table that the counted rows make. Of two rows of a job the later one stays.
    pub fn table(&self) -> Table {
        let head = &self.head;
        let mut table = Table::empty(
            head.tokens_less_1 as u8 + 1,
            head.resources_less_1 as u8 + 1,
            head.limit as u32,
            head.time,
        );
        table.last_turn = head.last_turn;
        for row in self.counted() {
            table.rows[row.job as usize] = Row {
                turn: row.turn,
                declared: row.declared,
                held: row.held,
                asked: row.asked,
                since: row.since,
            };
        }
        table
    }
}
