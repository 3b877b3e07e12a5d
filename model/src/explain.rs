//! `explain`: a line in words for each record.

use crate::arbiter::Arbiter;
use crate::case::Call;
use crate::record::Record;
use crate::replay::Said;
use crate::set::from_number;
use crate::told::{tell, Told};
use crate::words::words;
use std::fmt::Display;
use std::io::{self, Read, Write};

pub fn explain(input: impl Read, mut out: impl Write) -> io::Result<()> {
    let (mut live, mut tokens) = (0, 0);
    tell(input, |told| {
        if let Some(after) = &told.after {
            (live, tokens) = (after.line.len(), after.tokens_in_use());
        }
        writeln!(out, "{}", line(told))
    })?;
    writeln!(out, "end: live {live}, tokens in use {tokens}")?;
    out.flush()
}

fn line(told: &Told) -> String {
    let tick = match told.record {
        None => "-".to_string(),
        Some(Record::Event { tick, .. } | Record::Start { tick, .. }) => tick.to_string(),
    };
    let (number, time) = (told.number, told.time());
    let (what, answer) = (what(told), answer(told));
    format!("{number} tick {tick} time {time} {what}: {answer}")
}

fn what(told: &Told) -> String {
    let (call, job, set) = match told.record {
        None => return "unreadable".to_string(),
        Some(Record::Start {
            tokens,
            resources,
            limit,
            ..
        }) => return format!("start T={tokens} R={resources} limit={limit}"),
        Some(Record::Event { call, job, set, .. }) => (call, job, written(set)),
    };
    match call {
        Call::Beat => "beat".to_string(),
        Call::Complete => format!("complete {job}"),
        Call::GiveUp => format!("give up {job} {set}"),
        // Open, ask and release are called here as they are everywhere.
        _ => format!("{call} {job} {set}"),
    }
}

/// A set by its members in order.
fn written(set: u64) -> String {
    let members = listed(from_number(set), ",");
    format!("{{{members}}}")
}

/// Items with something between each two.
pub fn listed<T: Display>(items: impl IntoIterator<Item = T>, between: &str) -> String {
    let items: Vec<String> = items.into_iter().map(|item| item.to_string()).collect();
    items.join(between)
}

fn answer(told: &Told) -> String {
    match (&told.said, told.record) {
        (Said::No(number), _) => format!("refused as {number}, {}", words(*number)),
        (_, Some(Record::Event { call, .. })) => accepted(told, call),
        _ => "started".to_string(),
    }
}

fn accepted(told: &Told, call: Call) -> String {
    match (call, &told.said) {
        (Call::Open, Said::Wait) => waits_for_token(told),
        (Call::Open, _) => "has its token".to_string(),
        (Call::Ask, Said::Wait) => waits_for_set(told),
        (Call::Ask, _) => "granted".to_string(),
        _ if told.woken().is_empty() => "done".to_string(),
        _ => format!(
            "done, wakes {}",
            listed(told.woken().iter().map(|&job| woken(told, job)), ", ")
        ),
    }
}

fn woken(told: &Told, job: u8) -> String {
    let got = if told.had_token(job) { "set" } else { "token" };
    format!("{job} with its {got}")
}

/// The table after the record and the turn of the job that the record names in it.
fn place(told: &Told) -> (&Arbiter, u64) {
    let after = told.after.as_ref().expect("it was accepted");
    let job = told.job().expect("it waits");
    (after, after.request(u32::from(job)).expect("it waits").turn)
}

fn waits_for_token(told: &Told) -> String {
    let (after, turn) = place(told);
    // With one completion fewer there would still be as many before it as tokens.
    let away = after.ahead(turn).len() + 1 - usize::from(after.tokens);
    let completions = if away == 1 {
        "completion"
    } else {
        "completions"
    };
    format!("waits for its token, {away} {completions} away")
}

fn waits_for_set(told: &Told) -> String {
    let (after, turn) = place(told);
    let asked = match told.record {
        Some(Record::Event { set, .. }) => from_number(set),
        _ => unreachable!("only an ask waits for a set"),
    };
    let ahead = after.ahead(turn).iter();
    let in_the_way = ahead.filter(|r| !r.declared.is_disjoint(&asked));
    let jobs = listed(in_the_way.map(|r| r.job), ", ");
    format!("waits, in the way: {jobs}")
}
