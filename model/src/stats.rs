//! `stats`: figures for each job, and in all.

use crate::answer::{answer, Answer};
use crate::case::{Call, Case};
use crate::clock;
use crate::job_stats::JobStats;
use crate::record::Record;
use crate::replay::{case_of, Said};
use crate::told::{tell, Told};
use crate::words::words;
use std::collections::BTreeMap;
use std::io::{self, Read, Write};

#[derive(Default)]
struct Stats {
    records: u64,
    /// How often each number was given.
    refused: BTreeMap<u8, u64>,
    /// True time of the start, if there is one.
    from: Option<u64>,
    to: u64,
    live: usize,
    tokens: usize,
    /// Every job that a record names.
    jobs: BTreeMap<u8, JobStats>,
}

pub fn stats(input: impl Read, mut out: impl Write) -> io::Result<()> {
    let mut stats = Stats::default();
    tell(input, |told| {
        stats.take(told);
        Ok(())
    })?;
    stats.whole(&mut out)?;
    for (job, figures) in &mut stats.jobs {
        figures.ends(stats.to);
        writeln!(out, "job {job}: {figures}{}", figures.open_at(stats.to))?;
    }
    out.flush()
}

impl Stats {
    fn take(&mut self, told: &Told) {
        self.ask_who_is_overdue(told);
        self.records += 1;
        if let Some(number) = told.refused() {
            *self.refused.entry(number).or_default() += 1;
        }
        if let Some(after) = &told.after {
            self.from.get_or_insert(after.time);
            self.to = after.time;
            self.live = self.live.max(after.line.len());
            self.tokens = self.tokens.max(after.tokens_in_use());
        }
        if let Some(job) = told.job() {
            self.name(told, job);
        }
        for &job in told.woken() {
            self.of(job).woken(told.time());
        }
    }

    fn of(&mut self, job: u8) -> &mut JobStats {
        self.jobs.entry(job).or_default()
    }

    /// A record that names this job.
    fn name(&mut self, told: &Told, job: u8) {
        let figures = self.of(job);
        match (told.refused(), told.record) {
            (Some(_), _) => figures.refusals += 1,
            (None, Some(Record::Event { call, .. })) => {
                figures.event(told, call, told.said == Said::Wait);
            }
            _ => unreachable!("only a readable event names a job"),
        }
    }

    /// Asks the table before a readable event, with its tick. A refusal names nobody.
    fn ask_who_is_overdue(&mut self, told: &Told) {
        let (before, record, tick) = match (&told.before, told.record) {
            (Some(before), Some(record @ Record::Event { tick, .. })) => (before, record, tick),
            _ => return,
        };
        let question = Case {
            call: Call::Overdue,
            ..case_of(&record, before.table())
        };
        let outcome = answer(&question);
        if let Answer::Overdue(count) = outcome.answer {
            let time = clock::moved(before.time, tick);
            for &job in &outcome.list[..count] {
                self.of(job).overdue(told.number, time);
            }
        }
    }

    fn whole(&self, out: &mut impl Write) -> io::Result<()> {
        let refused: u64 = self.refused.values().sum();
        writeln!(out, "records {}, refused {refused}", self.records)?;
        for (number, count) in &self.refused {
            writeln!(out, "refused as {number}: {count}, {}", words(*number))?;
        }
        let (from, to) = (self.from.unwrap_or(0), self.to);
        let wraps = clock::wraps(to) - clock::wraps(from);
        writeln!(out, "time {from} to {to}, {} ms, wraps {wraps}", to - from)?;
        let (live, tokens) = (self.live, self.tokens);
        writeln!(out, "most live {live}, most tokens in use {tokens}")
    }
}
