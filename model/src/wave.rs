//! `wave`: a value change dump in true time.

use crate::arbiter::{Arbiter, Request};
use crate::set::to_number;
use crate::table::JOBS;
use crate::told::{tell, Told};
use std::io::{self, Read, Write};

/// Identifier and name of what is told of the whole drive.
const DRIVE: [(char, &str); 5] = [
    ('r', "record"),
    ('n', "records_in_this_ms"),
    ('l', "live"),
    ('t', "tokens_in_use"),
    ('x', "refusals"),
];

/// Identifier and name of what is told of each job.
const JOB: [(char, &str); 6] = [
    ('s', "state"),
    ('k', "token"),
    ('w', "waits"),
    ('d', "declared"),
    ('h', "held"),
    ('a', "asked"),
];

/// The values of the tables, in their order.
#[derive(Clone)]
struct Values {
    drive: [u64; DRIVE.len()],
    jobs: [[u64; JOB.len()]; JOBS],
}

struct Wave<W> {
    out: W,
    /// The jobs that are shown, in order.
    shown: Vec<u8>,
    time: u64,
    values: Values,
}

/// The mask that a word of 64 digits stands for, the first of them for job 0.
pub fn mask(word: &str) -> Option<[bool; JOBS]> {
    let digit = |digit| match digit {
        '0' => Some(false),
        '1' => Some(true),
        _ => None,
    };
    let mask: Option<Vec<bool>> = word.chars().map(digit).collect();
    mask?.try_into().ok()
}

/// Shows the jobs at whose place the mask is true.
pub fn wave(input: impl Read, mask: &[bool; JOBS], out: impl Write) -> io::Result<()> {
    let masked = |job: &u8| mask[usize::from(*job)];
    let mut wave = Wave {
        out,
        shown: (0..JOBS as u8).filter(masked).collect(),
        time: 0,
        values: Values {
            drive: [0; DRIVE.len()],
            jobs: [[0; JOB.len()]; JOBS],
        },
    };
    let mut started = false;
    tell(input, |told| {
        started = told.after.is_some();
        match told.number {
            1 => wave.first(told),
            _ => wave.later(told),
        }
    })?;
    if started {
        writeln!(wave.out, "#{}", wave.time + 1)?;
    }
    wave.out.flush()
}

impl<W: Write> Wave<W> {
    fn first(&mut self, told: &Told) -> io::Result<()> {
        if told.after.is_none() {
            // How wide a job's sets are, only a start tells.
            self.shown.clear();
        }
        self.values = Values::after(told, 1, refusals(told));
        self.time = told.time();
        self.header(told.after.as_ref().map_or(0, |table| table.resources))?;
        writeln!(self.out, "#{}\n$dumpvars", self.time)?;
        for ((letter, _), value) in DRIVE.iter().zip(self.values.drive) {
            writeln!(self.out, "b{value:b} {letter}")?;
        }
        for &job in &self.shown {
            for ((letter, _), value) in JOB.iter().zip(self.values.jobs[usize::from(job)]) {
                job_value(&mut self.out, *letter, job, value)?;
            }
        }
        writeln!(self.out, "$end")
    }

    fn header(&mut self, resources: u8) -> io::Result<()> {
        let out = &mut self.out;
        writeln!(out, "$version Norakkeun desk $end")?;
        writeln!(out, "$timescale 1 ms $end")?;
        writeln!(out, "$scope module drive $end")?;
        for (letter, name) in DRIVE {
            writeln!(out, "$var integer 64 {letter} {name} $end")?;
        }
        for job in &self.shown {
            writeln!(out, "$scope module job_{job} $end")?;
            for (letter, name) in JOB {
                let (width, name) = match letter {
                    's' => (2, name.to_string()),
                    // Some viewers know no scopes.
                    'k' | 'w' => (1, format!("{name}_{job}")),
                    _ => (resources, name.to_string()),
                };
                writeln!(out, "$var wire {width} {letter}{job} {name} $end")?;
            }
            writeln!(out, "$upscope $end")?;
        }
        writeln!(out, "$upscope $end\n$enddefinitions $end")
    }

    fn later(&mut self, told: &Told) -> io::Result<()> {
        let now = told.time();
        let [_, mut in_this_ms, _, _, refused] = self.values.drive;
        if now != self.time {
            writeln!(self.out, "#{now}")?;
            in_this_ms = 0;
        }
        self.time = now;
        let values = Values::after(told, in_this_ms + 1, refused + refusals(told));
        let before = std::mem::replace(&mut self.values, values);
        self.drive(&before)?;
        if told.refused().is_none() {
            let touched = told.job().into_iter().chain(told.woken().iter().copied());
            for job in touched.filter(|job| self.shown.contains(job)) {
                job_changes(&mut self.out, job, &before, &self.values)?;
            }
        }
        Ok(())
    }

    /// Number and place stand even if they are what they were: they part the records.
    fn drive(&mut self, before: &Values) -> io::Result<()> {
        let values = before.drive.iter().zip(self.values.drive);
        for ((letter, _), (old, new)) in DRIVE.iter().zip(values) {
            if matches!(letter, 'r' | 'n') || *old != new {
                writeln!(self.out, "b{new:b} {letter}")?;
            }
        }
        Ok(())
    }
}

/// How many refusals the record adds.
fn refusals(told: &Told) -> u64 {
    u64::from(told.refused().is_some())
}

fn job_changes(out: &mut impl Write, job: u8, before: &Values, now: &Values) -> io::Result<()> {
    let place = usize::from(job);
    let values = before.jobs[place].iter().zip(now.jobs[place]);
    for ((letter, _), (old, new)) in JOB.iter().zip(values) {
        if *old != new {
            job_value(out, *letter, job, new)?;
        }
    }
    Ok(())
}

/// A variable that is one bit whatever the start says is written as a digit.
fn job_value(out: &mut impl Write, letter: char, job: u8, value: u64) -> io::Result<()> {
    match letter {
        'k' | 'w' => writeln!(out, "{value}{letter}{job}"),
        _ => writeln!(out, "b{value:b} {letter}{job}"),
    }
}

impl Values {
    /// After a record that is the n-th of its millisecond, with so many refused so far.
    fn after(told: &Told, in_this_ms: u64, refusals: u64) -> Values {
        let mut values = Values {
            drive: [told.number, in_this_ms, 0, 0, refusals],
            jobs: [[0; JOB.len()]; JOBS],
        };
        if let Some(table) = &told.after {
            values.drive[2] = table.line.len() as u64;
            values.drive[3] = table.tokens_in_use() as u64;
            for request in &table.line {
                values.jobs[usize::from(request.job)] = job_values(table, request);
            }
        }
        values
    }
}

fn job_values(table: &Arbiter, request: &Request) -> [u64; JOB.len()] {
    let (state, token, waits) = match (table.has_token(request.turn), request.asked.is_empty()) {
        (false, _) => (1, 0, 1),
        (true, true) => (2, 1, 0),
        (true, false) => (3, 1, 1),
    };
    let sets = [&request.declared, &request.held, &request.asked];
    let [declared, held, asked] = sets.map(to_number);
    [state, token, waits, declared, held, asked]
}
