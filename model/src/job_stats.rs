//! The figures of one job along a recording.

use crate::case::Call;
use crate::told::Told;
use std::fmt;

/// What a job waits for.
#[derive(Clone, Copy, Debug, PartialEq, Eq)]
enum Wanted {
    Token,
    Set,
}

/// The figures so far. Times are true times, of the clock after the record.
#[derive(Clone, Debug, Default)]
pub struct JobStats {
    openings: u64,
    completions: u64,
    pub refusals: u64,
    token_wait: u64,
    set_wait: u64,
    request: u64,
    /// Number and time of each record at which it was overdue.
    late: Vec<(u64, u64)>,
    /// When its live request was opened.
    opened: Option<u64>,
    /// What it waits for and since when.
    waits: Option<(Wanted, u64)>,
}

impl JobStats {
    /// An accepted event that names this job. If it says "wait", the wait begins here.
    pub fn event(&mut self, told: &Told, call: Call, waits: bool) {
        let time = told.time();
        match call {
            Call::Open => {
                self.openings += 1;
                self.opened = Some(time);
                self.waits = waits.then_some((Wanted::Token, time));
            }
            Call::Ask => self.waits = waits.then_some((Wanted::Set, time)),
            Call::Complete => {
                self.completions += 1;
                let opened = self.opened.take().expect("it was live");
                self.request = self.request.max(time - opened);
            }
            _ => {}
        }
    }

    pub fn woken(&mut self, time: u64) {
        self.count_wait(time);
        self.waits = None;
    }

    pub fn overdue(&mut self, record: u64, time: u64) {
        self.late.push((record, time));
    }

    /// A wait that is still open counts as far as it went.
    pub fn ends(&mut self, time: u64) {
        self.count_wait(time);
    }

    fn count_wait(&mut self, time: u64) {
        match self.waits {
            None => {}
            Some((Wanted::Token, since)) => self.token_wait = self.token_wait.max(time - since),
            Some((Wanted::Set, since)) => self.set_wait = self.set_wait.max(time - since),
        }
    }

    /// What is still open at this time, the end.
    pub fn open_at(&self, time: u64) -> String {
        let (what, since) = match (self.waits, self.opened) {
            (Some((Wanted::Token, since)), _) => ("waits for its token", since),
            (Some((Wanted::Set, since)), _) => ("waits for its set", since),
            (None, Some(opened)) => ("live", opened),
            (None, None) => return String::new(),
        };
        format!(", at the end {what}, so far {}", time - since)
    }
}

impl fmt::Display for JobStats {
    fn fmt(&self, out: &mut fmt::Formatter) -> fmt::Result {
        write!(out, "openings {}", self.openings)?;
        write!(out, ", completions {}", self.completions)?;
        write!(out, ", refusals {}", self.refusals)?;
        write!(out, ", longest token wait {}", self.token_wait)?;
        write!(out, ", longest set wait {}", self.set_wait)?;
        write!(out, ", longest request {}", self.request)?;
        write!(out, ", overdue at {}", self.late.len())?;
        match self.late[..] {
            [] => Ok(()),
            [first, .., last] => late(out, first, last),
            [only] => late(out, only, only),
        }
    }
}

fn late(out: &mut fmt::Formatter, first: (u64, u64), last: (u64, u64)) -> fmt::Result {
    write!(out, ", first record {} time {}", first.0, first.1)?;
    write!(out, ", last record {} time {}", last.0, last.1)
}
