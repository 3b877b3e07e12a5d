//! What a call answers, and what it leaves in the table and the lent list.

use crate::arbiter::Arbiter;
use crate::case::{Call, Case};
use crate::record::{self, Record};
use crate::refuse;
use crate::set::from_number;
use crate::table::Table;
use std::fmt;

#[derive(Clone, Debug, PartialEq, Eq)]
pub enum Answer {
    Token,
    Granted,
    Wait,
    Done,
    Woke(usize),
    Overdue(usize),
    Report(Report),
    Wrote,
    No(u8),
}

#[derive(Clone, Debug, PartialEq, Eq)]
pub struct Report {
    pub turn: u64,
    pub token: bool,
    pub waiting: bool,
    pub ahead: usize,
    pub in_the_way: usize,
}

impl fmt::Display for Answer {
    fn fmt(&self, out: &mut fmt::Formatter) -> fmt::Result {
        match self {
            Answer::Token => out.write_str("token"),
            Answer::Granted => out.write_str("granted"),
            Answer::Wait => out.write_str("wait"),
            Answer::Done => out.write_str("done"),
            Answer::Woke(count) => write!(out, "woke {count}"),
            Answer::Overdue(count) => write!(out, "overdue {count}"),
            Answer::Report(report) => write!(out, "report {report}"),
            Answer::Wrote => out.write_str("wrote"),
            Answer::No(number) => write!(out, "no {number}"),
        }
    }
}

impl fmt::Display for Report {
    fn fmt(&self, out: &mut fmt::Formatter) -> fmt::Result {
        let (token, waiting) = (u8::from(self.token), u8::from(self.waiting));
        write!(out, "{} {token} {waiting} ", self.turn)?;
        write!(out, "{} {}", self.ahead, self.in_the_way)
    }
}

#[derive(Clone, Debug)]
pub struct Outcome {
    pub answer: Answer,
    pub table: Table,
    pub list: Vec<u8>,
}

/// What stands in a lent list of this length before the call.
pub fn lent(room: u16) -> Vec<u8> {
    (0..usize::from(room))
        .map(|i| ((7 * i + 3) % 256) as u8)
        .collect()
}

pub fn answer(case: &Case) -> Outcome {
    let mut outcome = Outcome {
        answer: Answer::Done,
        table: case.table.clone(),
        list: lent(case.room),
    };
    if let Some(number) = refuse::applying(case).next() {
        outcome.answer = Answer::No(number);
        if case.call == Call::Start {
            // There is no table before a start, so there is none to keep.
            outcome.table = Table::zero();
        }
        return outcome;
    }
    match case.call {
        Call::Report => {
            let arbiter = Arbiter::of(&case.table);
            outcome.answer = Answer::Report(report(&arbiter, case.job));
        }
        Call::Overdue => overdue(case, &mut outcome),
        Call::Start => outcome.table = start(case),
        call if call.writes() => {
            put(&mut outcome.list, &record::write(&recorded(case)));
            outcome.answer = Answer::Wrote;
        }
        _ => change(case, &mut outcome),
    }
    outcome
}

fn change(case: &Case, outcome: &mut Outcome) {
    let mut arbiter = Arbiter::of(&case.table);
    let set = from_number(case.set);
    arbiter.move_clock(case.tick);
    outcome.answer = match case.call {
        Call::Open => or_wait(arbiter.open(case.job as u8, set), Answer::Token),
        Call::Ask => or_wait(arbiter.ask(case.job, set), Answer::Granted),
        Call::Release => {
            arbiter.release(case.job, &set);
            Answer::Done
        }
        Call::Complete => woke(arbiter.complete(case.job), &mut outcome.list),
        Call::GiveUp => woke(arbiter.give_up(case.job, &set), &mut outcome.list),
        // A beat has done its work when the clock has moved.
        _ => Answer::Done,
    };
    outcome.table = arbiter.table();
}

fn woke(jobs: Vec<u8>, list: &mut [u8]) -> Answer {
    put(list, &jobs);
    Answer::Woke(jobs.len())
}

fn or_wait(at_once: bool, said: Answer) -> Answer {
    if at_once {
        said
    } else {
        Answer::Wait
    }
}

pub fn report(arbiter: &Arbiter, job: u32) -> Report {
    let request = arbiter.request(job).expect("refusal 8 comes first");
    Report {
        turn: request.turn,
        token: arbiter.has_token(request.turn),
        waiting: arbiter.waits(request),
        ahead: arbiter.ahead(request.turn).len(),
        in_the_way: arbiter.in_the_way(request.turn, &request.declared),
    }
}

fn overdue(case: &Case, outcome: &mut Outcome) {
    let late = Arbiter::of(&case.table).overdue(case.tick);
    put(&mut outcome.list, &late);
    outcome.answer = Answer::Overdue(late.len());
}

fn start(case: &Case) -> Table {
    let wanted = &case.table;
    let time = u64::from(case.tick);
    Table::empty(wanted.tokens, wanted.resources, wanted.limit, time)
}

/// The record that a writing call is about: only what its event carries.
fn recorded(case: &Case) -> Record {
    let event = |call, job, set| Record::Event {
        call,
        job,
        tick: case.tick,
        set,
    };
    let job = case.job as u8;
    match case.call {
        Call::WriteBeat => event(Call::Beat, 0, 0),
        Call::WriteOpen => event(Call::Open, job, case.set),
        Call::WriteAsk => event(Call::Ask, job, case.set),
        Call::WriteRelease => event(Call::Release, job, case.set),
        Call::WriteComplete => event(Call::Complete, job, 0),
        Call::WriteGiveUp => event(Call::GiveUp, job, case.set),
        _ => Record::Start {
            tokens: case.table.tokens,
            resources: case.table.resources,
            tick: case.tick,
            limit: case.table.limit,
        },
    }
}

/// Overwrites the front of a list and leaves the rest.
pub fn put(list: &mut [u8], front: &[u8]) {
    list[..front.len()].copy_from_slice(front);
}
