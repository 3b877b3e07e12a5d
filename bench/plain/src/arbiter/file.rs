//! Service files (document 02, request 1): a table into bytes, and back.
//!
//! Fields do not end where bytes do, but a row is five words and a byte: each word is put together from two fields by
//! shifts, and a field from two words.

use super::{Line, Pass, Row, Said, Table, JOBS, TOP};
use crate::bytes::{u32_at, u64_at};

const VERSION: u8 = 1;
const HEAD: usize = 23;
const ROW: usize = 41;

impl Table {
    /// Not inlined, nor is loading: the counter knows a call by where it is entered and where it returns.
    #[inline(never)]
    pub fn save<const TRUST: bool>(&self, room: &mut [u8]) -> Result<usize, u8> {
        let mut line = Line::new();
        self.in_line::<TRUST>(&mut line)?;
        let length = HEAD + ROW * line.length;
        let (head, rows) = room.get_mut(..length).ok_or(21)?.split_at_mut(HEAD);
        self.put_head(line.length as u64, head);
        for (bytes, job) in rows.chunks_exact_mut(ROW).zip(line.jobs()) {
            put_row(job, &self.rows[job], bytes);
        }
        Ok(length)
    }

    /// A refused load leaves the all-zero table.
    #[inline(never)]
    pub fn load<const TRUST: bool>(&mut self, file: &[u8]) -> Result<Said, u8> {
        let taken = self.take::<TRUST>(file);
        if taken.is_err() {
            *self = Table::zero();
        }
        taken.map(|()| Said::Done)
    }

    fn put_head(&self, count: u64, bytes: &mut [u8]) {
        let first = u32::from(VERSION) << 12 | (self.tokens - 1) << 6 | (self.resources - 1);
        bytes[..2].copy_from_slice(&(first as u16).to_be_bytes());
        bytes[2..6].copy_from_slice(&self.limit.to_be_bytes());
        let words = [
            self.time << 1 | self.last >> 62,
            self.last << 2 | count >> 5,
        ];
        put_words(&words, &mut bytes[6..]);
        bytes[22] = (count << 3) as u8;
    }

    fn take_head(&mut self, head: &[u8]) {
        self.tokens = (u32_at(head, 0) >> 22 & 63) + 1;
        self.resources = (u32_at(head, 0) >> 16 & 63) + 1;
        self.limit = u32_at(head, 2);
        self.time = u64_at(head, 6) >> 1;
        self.last = (u64_at(head, 6) << 62 | u64_at(head, 14) >> 2) & TOP;
    }

    /// The rows stand in order of turn, so each is tested as it is read.
    fn take<const TRUST: bool>(&mut self, file: &[u8]) -> Result<(), u8> {
        if file.len() < HEAD {
            return Err(21);
        }
        let (head, rows) = file.split_at(HEAD);
        if head[0] >> 4 != VERSION {
            return Err(22);
        }
        let count = usize::from(head[21] & 3) << 5 | usize::from(head[22] >> 3);
        if rows.len() != ROW * count {
            return Err(21);
        }
        self.take_head(head);
        self.rows.fill(Row::default());
        let (mut stray, mut jobs) = (head[22] & 7, 0_u64);
        let mut pass = Pass::default();
        for bytes in rows.chunks_exact(ROW) {
            let (job, row) = row_in(bytes);
            stray |= bytes[40] & 15;
            self.rows[job] = row;
            if !TRUST {
                jobs |= 1 << job;
                self.test_row(&mut pass, &row);
            }
        }
        if stray != 0 {
            return Err(19);
        }
        // As many jobs as rows: none stands there twice.
        let once = jobs.count_ones() as usize == count;
        if TRUST || once && self.numbers_sound() && self.rows_sound(&pass) {
            return Ok(());
        }
        Err(3)
    }
}

fn put_words(words: &[u64], bytes: &mut [u8]) {
    for (place, word) in bytes.chunks_exact_mut(8).zip(words) {
        place.copy_from_slice(&word.to_be_bytes());
    }
}

fn put_row(job: usize, row: &Row, bytes: &mut [u8]) {
    let words = [
        (job as u64) << 58 | row.turn >> 5,
        row.turn << 59 | row.declared >> 5,
        row.declared << 59 | row.held >> 5,
        row.held << 59 | row.asked >> 5,
        row.asked << 59 | row.since >> 4,
    ];
    put_words(&words, bytes);
    bytes[40] = (row.since << 4) as u8;
}

fn row_in(bytes: &[u8]) -> (usize, Row) {
    let words = [0, 8, 16, 24, 32].map(|at| u64_at(bytes, at));
    let row = Row {
        turn: (words[0] << 5 | words[1] >> 59) & TOP,
        declared: words[1] << 5 | words[2] >> 59,
        held: words[2] << 5 | words[3] >> 59,
        asked: words[3] << 5 | words[4] >> 59,
        since: (words[4] << 4 | u64::from(bytes[40] >> 4)) & TOP,
    };
    ((words[0] >> 58) as usize % JOBS, row)
}
