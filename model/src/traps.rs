//! The traps that document 01 names, and their like: calls at which an arbiter that
//! fell into one would answer otherwise. The longest step is one such, and so is a wait
//! that a leap would make overdue (document 02, request 4).

use crate::answer::{Answer, Outcome};
use crate::arbiter::{Arbiter, Request};
use crate::case::{Call, Case, EVENTS};
use crate::clock::{self, HOUR};
use crate::set::{from_number, Set};

/// Every trap.
pub const TRAPS: [&str; 42] = [
    "ask waits for a set of which a part is free",
    "ask waits for what nobody holds",
    "complete leaves a set of which a part is free",
    "complete wakes by a set",
    "complete wakes by a token",
    "give-up leaves a set of which a part is free",
    "give-up wakes by a set",
    "give-up of what is not held",
    "give-up of all that is declared",
    "give-up of what is asked and declared by another ahead",
    "open waits behind one that declares nothing",
    "complete of one that declares nothing",
    "report of one that declares nothing",
    "overdue at the limit",
    "overdue a millisecond before the limit",
    "beat over the wrap",
    "open over the wrap",
    "ask over the wrap",
    "release over the wrap",
    "complete over the wrap",
    "give-up over the wrap",
    "overdue over the wrap",
    "beat an hour on",
    "open an hour on",
    "ask an hour on",
    "release an hour on",
    "complete an hour on",
    "give-up an hour on",
    "overdue an hour on",
    "beat an hour and a millisecond on",
    "open an hour and a millisecond on",
    "ask an hour and a millisecond on",
    "release an hour and a millisecond on",
    "complete an hour and a millisecond on",
    "give-up an hour and a millisecond on",
    "overdue an hour and a millisecond on",
    "overdue leaps past the limit",
    "open refused with a later tick",
    "ask refused with a later tick",
    "release refused with a later tick",
    "complete refused with a later tick",
    "give-up refused with a later tick",
];

/// The traps that lie in a case with this outcome.
pub fn in_case(case: &Case, outcome: &Outcome) -> Vec<String> {
    if let Answer::No(number) = outcome.answer {
        return refused(case, number);
    }
    let before = Arbiter::of(&case.table);
    let call = case.call;
    let mut traps = match outcome.answer {
        Answer::Wait if call == Call::Ask => ask(case, &before),
        Answer::Woke(_) => wake(case, &before, &Arbiter::of(&outcome.table)),
        Answer::Overdue(_) => overdue(case, &before),
        _ => Vec::new(),
    };
    traps.extend(nothing_declared(case, outcome, &before));
    if EVENTS.contains(&call) || call == Call::Overdue {
        traps.extend(on_the_clock(case));
    }
    traps
}

fn on_the_clock(case: &Case) -> Vec<String> {
    let call = case.call;
    let mut traps = Vec::new();
    if case.tick < clock::tick_after(case.table.time, 0) {
        traps.push(format!("{call} over the wrap"));
    }
    if clock::forward(case.table.time, case.tick) == HOUR {
        traps.push(format!("{call} an hour on"));
    }
    traps
}

fn refused(case: &Case, number: u8) -> Vec<String> {
    let call = case.call;
    let step = clock::forward(case.table.time, case.tick);
    let mut traps = Vec::new();
    // The clock must not move, and could have: it is not the reason.
    if EVENTS.contains(&call) && step > 0 && (7..=16).contains(&number) {
        traps.push(format!("{call} refused with a later tick"));
    }
    if number == 23 && step == HOUR + 1 {
        traps.push(format!("{call} an hour and a millisecond on"));
    }
    if number == 23 && call == Call::Overdue && more_would_be_late(case) {
        traps.push("overdue leaps past the limit".to_string());
    }
    traps
}

/// Whether the tick, were it taken, made somebody overdue who is not yet.
fn more_would_be_late(case: &Case) -> bool {
    let before = Arbiter::of(&case.table);
    let late = |tick| before.overdue(tick).len();
    late(case.tick) > late(clock::tick_after(case.table.time, 0))
}

fn ask(case: &Case, before: &Arbiter) -> Vec<String> {
    let set = from_number(case.set);
    let turn = before.request(case.job).expect("it was accepted").turn;
    let mut traps = Vec::new();
    if part_is_free(before, turn, &set) {
        traps.push("ask waits for a set of which a part is free".to_string());
    }
    if before.line.iter().all(|r| r.held.is_disjoint(&set)) {
        traps.push("ask waits for what nobody holds".to_string());
    }
    traps
}

fn part_is_free(arbiter: &Arbiter, turn: u64, set: &Set) -> bool {
    let free = |&member: &u8| arbiter.in_the_way(turn, &Set::from([member])) == 0;
    set.iter().any(free)
}

fn wake(case: &Case, before: &Arbiter, after: &Arbiter) -> Vec<String> {
    let call = case.call;
    let mut traps = match call {
        Call::GiveUp => give_up(case, before, after),
        _ => Vec::new(),
    };
    for now in &after.line {
        let then = before.request(u32::from(now.job)).expect("only one left");
        if before.waits(then) && !after.waits(now) {
            let by = if then.asked.is_empty() {
                "token"
            } else {
                "set"
            };
            traps.push(format!("{call} wakes by a {by}"));
        }
        if part_is_free(after, now.turn, &now.asked) {
            traps.push(format!("{call} leaves a set of which a part is free"));
        }
    }
    traps
}

fn give_up(case: &Case, before: &Arbiter, after: &Arbiter) -> Vec<String> {
    let set = from_number(case.set);
    let request = before.request(case.job).expect("it was accepted");
    let still_waits = |r: &Request| after.in_the_way(r.turn, &(&r.asked & &set)) > 0;
    let mut traps = Vec::new();
    if !set.is_subset(&request.held) {
        traps.push("give-up of what is not held".to_string());
    }
    if set == request.declared {
        traps.push("give-up of all that is declared".to_string());
    }
    if after.line.iter().any(still_waits) {
        traps.push("give-up of what is asked and declared by another ahead".to_string());
    }
    traps
}

/// A request that declares nothing any more is live all the same.
fn nothing_declared(case: &Case, outcome: &Outcome, before: &Arbiter) -> Option<String> {
    let call = case.call;
    let empty = |r: &Request| r.declared.is_empty();
    let others = before.line.iter().filter(|r| !empty(r)).count();
    let waits_for_one = outcome.answer == Answer::Wait && others < usize::from(before.tokens);
    match call {
        Call::Open if waits_for_one => {
            Some(format!("{call} waits behind one that declares nothing"))
        }
        Call::Complete | Call::Report if before.request(case.job).is_some_and(empty) => {
            Some(format!("{call} of one that declares nothing"))
        }
        _ => None,
    }
}

fn overdue(case: &Case, before: &Arbiter) -> Vec<String> {
    let now = clock::moved(case.table.time, case.tick);
    let limit = u64::from(case.table.limit);
    let waited = |r: &Request| before.waits(r).then(|| now - r.since);
    let waits = |span| before.line.iter().any(|r| waited(r) == Some(span));
    let mut traps = Vec::new();
    if waits(limit) {
        traps.push("overdue at the limit".to_string());
    }
    if waits(limit - 1) {
        traps.push("overdue a millisecond before the limit".to_string());
    }
    traps
}
