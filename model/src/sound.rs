//! Soundness as a list of clauses, so that it can be counted which one a table breaks.

use crate::arbiter::{Arbiter, Request};
use crate::clock::TOP;
use crate::table::{Row, Table};

type TableClause = (&'static str, fn(&Table) -> bool);
type RequestClause = (&'static str, fn(&Arbiter, &Request) -> bool);

const OF_TABLE: [TableClause; 6] = [
    ("tokens-in-range", |t| (1..=64).contains(&t.tokens)),
    ("resources-in-range", |t| (1..=64).contains(&t.resources)),
    ("limit-in-range", |t| t.limit > 0),
    ("time-in-range", |t| t.time <= TOP),
    ("last-turn-in-range", |t| t.last_turn <= TOP),
    ("idle-rows-zero", |t| {
        let mut idle = t.rows.iter().filter(|row| row.turn == 0);
        idle.all(|row| *row == Row::default())
    }),
];

const OF_REQUEST: [RequestClause; 13] = [
    ("turn-given", |a, r| r.turn <= a.last_turn),
    ("turn-its-own", |a, r| {
        a.line.iter().filter(|other| other.turn == r.turn).count() == 1
    }),
    ("declares-nothing-only-with-token", |a, r| {
        a.has_token(r.turn) || !r.declared.is_empty()
    }),
    ("declared-within-range", |a, r| {
        r.declared.iter().all(|&member| member < a.resources)
    }),
    ("held-declared", |_, r| r.held.is_subset(&r.declared)),
    ("asked-declared", |_, r| r.asked.is_subset(&r.declared)),
    ("held-apart-from-asked", |_, r| r.held.is_disjoint(&r.asked)),
    ("held-with-token", |a, r| {
        a.has_token(r.turn) || r.held.is_empty()
    }),
    ("asked-with-token", |a, r| {
        a.has_token(r.turn) || r.asked.is_empty()
    }),
    ("held-not-declared-ahead", |a, r| {
        a.in_the_way(r.turn, &r.held) == 0
    }),
    ("asked-declared-ahead", |a, r| {
        r.asked.is_empty() || a.in_the_way(r.turn, &r.asked) > 0
    }),
    ("since-not-after-now", |a, r| {
        !a.waits(r) || r.since <= a.time
    }),
    ("since-only-in-waiting", |a, r| a.waits(r) || r.since == 0),
];

/// The names of all clauses.
pub fn clauses() -> impl Iterator<Item = &'static str> {
    let of_table = OF_TABLE.iter().map(|(name, _)| *name);
    of_table.chain(OF_REQUEST.iter().map(|(name, _)| *name))
}

/// The names of the clauses that this table breaks.
pub fn broken(table: &Table) -> Vec<&'static str> {
    broken_in(table, &Arbiter::of(table)).collect()
}

pub fn is_sound(table: &Table) -> bool {
    is_sound_in(table, &Arbiter::of(table))
}

/// With the table's own arbiter at hand.
pub fn is_sound_in(table: &Table, arbiter: &Arbiter) -> bool {
    broken_in(table, arbiter).next().is_none()
}

fn broken_in<'a>(
    table: &'a Table,
    arbiter: &'a Arbiter,
) -> impl Iterator<Item = &'static str> + 'a {
    let of_table = OF_TABLE.iter().filter(|(_, holds)| !holds(table));
    let of_request = OF_REQUEST
        .iter()
        .filter(|(_, holds)| !arbiter.line.iter().all(|r| holds(arbiter, r)));
    let of_table = of_table.map(|(name, _)| *name);
    of_table.chain(of_request.map(|(name, _)| *name))
}
