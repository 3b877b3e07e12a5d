//! Tables to make cases of: reached by events, built sound, moved in time or
//! turn, damaged, or random.

use crate::answer::answer;
use crate::clock::{self, HOUR, TOP};
use crate::drive::{self, Style};
use crate::random::Random;
use crate::replay::case_of;
use crate::set::{from_number, to_number, Set};
use crate::table::{Row, Table, JOBS};

const STYLES: [Style; 3] = [style(4), style(12), style(JOBS as u64)];

const fn style(jobs: u64) -> Style {
    Style {
        jobs,
        steps: &[0, 0, 1, 1, 2, 3, 1000, HOUR],
        wild: 20,
    }
}

/// A walk from start to start by events, for tables that calls really lead to.
pub struct Walk {
    table: Table,
    style: &'static Style,
    left: u64,
}

impl Walk {
    pub fn new() -> Walk {
        Walk {
            table: Table::zero(),
            style: &STYLES[0],
            left: 0,
        }
    }

    pub fn next(&mut self, random: &mut Random) -> Table {
        if self.left == 0 {
            *self = Walk {
                table: fresh(random),
                style: random.pick(&[&STYLES[0], &STYLES[1], &STYLES[2]]),
                left: 100,
            };
        }
        self.left -= 1;
        for _ in 0..random.below(6) {
            let event = drive::event(random, &self.table, self.style);
            self.table = answer(&case_of(&event, self.table.clone())).table;
        }
        self.table.clone()
    }
}

/// A table right after a start.
fn fresh(random: &mut Random) -> Table {
    let tokens = count(random);
    let resources = count(random);
    let limit = (random.any_length() as u32).max(1);
    let mut time = random.any_length() >> 32;
    if random.one_in(4) {
        time = before_the_wrap(random, time);
    }
    Table::empty(tokens, resources, limit, time)
}

/// A moment in the last hour before the counter begins again.
fn before_the_wrap(random: &mut Random, time: u64) -> u64 {
    let left = random.below(HOUR);
    clock::last_before_wrap(time) - random.pick(&[0, 1, left])
}

/// A number of tokens or resources.
fn count(random: &mut Random) -> u8 {
    let any = 1 + random.below(64) as u8;
    random.pick(&[1, 2, 3, 5, 8, 63, 64, any])
}

/// A sound table of any kind, events lead to it or not.
pub fn built(random: &mut Random) -> Table {
    let table = fresh(random);
    let most = random.pick(&[3, 8, JOBS as u64]);
    let requests = 1 + random.below(most);
    filled(random, table, requests)
}

/// A sound table with this many tokens, resources and requests.
pub fn built_of(random: &mut Random, tokens: u8, resources: u8, requests: u64) -> Table {
    let mut table = fresh(random);
    table.tokens = tokens;
    table.resources = resources;
    filled(random, table, requests)
}

fn filled(random: &mut Random, mut table: Table, requests: u64) -> Table {
    table.time = random.any_length().min(TOP);
    if random.one_in(4) {
        table.time = before_the_wrap(random, table.time);
    }
    let gap = random.pick(&[1, 3, 1 << 40]);
    let mut idle: Set = (0..JOBS as u8).collect();
    let mut declared_ahead = Set::new();
    // One that declares everything, with all others behind it: its give up wakes several.
    let behind_one = random.one_in(4);
    for place in 0..requests {
        let job = random.member(&idle).expect("no more requests than jobs");
        idle.remove(&job);
        table.last_turn += 1 + random.below(gap);
        let token = place < u64::from(table.tokens);
        let all: Set = (0..table.resources).collect();
        let declared = match place {
            0 if behind_one => all,
            _ if behind_one => random.member(&all).into_iter().collect(),
            _ if token && random.one_in(8) => Set::new(),
            _ => random.part(&all),
        };
        table.rows[usize::from(job)] =
            request(random, &table, token, declared, &mut declared_ahead);
    }
    table.last_turn += random.pick(&[0, 0, 1, 7]);
    table
}

/// The row of the next request in line.
fn request(
    random: &mut Random,
    table: &Table,
    token: bool,
    declared: Set,
    declared_ahead: &mut Set,
) -> Row {
    let mut held = Set::new();
    let mut asked = Set::new();
    if token && random.one_in(2) {
        held = random.part(&(&declared - declared_ahead));
    }
    let contested = random.member(&(&declared & declared_ahead));
    if let (true, true, Some(member)) = (token, random.one_in(2), contested) {
        asked = random.part(&(&declared - &held));
        asked.insert(member);
    }
    let waits = !token || !asked.is_empty();
    // At any time, or so that it is not overdue yet.
    let any = random.any_length();
    let recent = table.time.saturating_sub(any % u64::from(table.limit));
    let since = random.pick(&[any.min(table.time), recent]);
    declared_ahead.extend(&declared);
    Row {
        turn: table.last_turn,
        declared: to_number(&declared),
        held: to_number(&held),
        asked: to_number(&asked),
        since: if waits { since } else { 0 },
    }
}

/// Moves true time and all waits near the end of time. Sound stays sound.
pub fn late(random: &mut Random, table: &mut Table) {
    let left = random.pick(&[
        0,
        1,
        2,
        1000,
        HOUR - 1,
        HOUR,
        HOUR + 1,
        (1 << 31) - 1,
        1 << 31,
        (1 << 32) - 1,
    ]);
    let shift = (TOP - left).saturating_sub(table.time);
    table.time += shift;
    for row in table.rows.iter_mut().filter(|row| row.since != 0) {
        row.since += shift;
    }
}

/// Lets the last turn be the highest there is, the live ones moved along or not.
/// Sound stays sound.
pub fn last(random: &mut Random, table: &mut Table) {
    let shift = TOP - table.last_turn;
    let along = random.one_in(2);
    for row in table.rows.iter_mut().filter(|row| along && row.turn != 0) {
        row.turn += shift;
    }
    table.last_turn = TOP;
}

/// Changes one number of a sound table. Not every change makes it unsound.
pub fn damage(random: &mut Random, table: &mut Table) {
    let beyond = TOP + 1 + random.any_length() / 2;
    let huge = random.pick(&[TOP + 1, u64::MAX, beyond]);
    match random.below(16) {
        0 => table.tokens = random.pick(&[0, 65, 128, 255]),
        1 => table.resources = random.pick(&[0, 65, 128, 255]),
        2 => table.limit = 0,
        3 => table.time = huge,
        4 => table.last_turn = huge,
        // In range, but others may rest on the number it was.
        5 => table.tokens = count(random),
        6 => table.resources = count(random),
        7 => table.time = random.any_length().min(table.time),
        8 => table.last_turn = random.below(table.last_turn.saturating_add(1)),
        9 => damage_idle(random, table),
        _ => damage_live(random, table),
    }
}

fn damage_idle(random: &mut Random, table: &mut Table) {
    let near = 1 + random.below(4);
    let number = random.pick(&[near, u64::MAX]);
    if let Some(row) = row_of(random, table, |row| row.turn == 0) {
        match random.below(4) {
            0 => row.declared = number,
            1 => row.held = number,
            2 => row.asked = number,
            _ => row.since = number,
        }
    }
}

fn damage_live(random: &mut Random, table: &mut Table) {
    let (time, last_turn, resources) = (table.time, table.last_turn, table.resources);
    let live = |row: &Row| row.turn != 0;
    // Several clauses are about rows that ask or wait alone, and those are rare.
    let asking = |row: &Row| row.asked != 0;
    let waiting = |row: &Row| row.since != 0;
    let fits = random.pick(&[live, asking, waiting]);
    let other = row_of(random, table, live).map_or(0, |row| row.turn);
    let any = random.any_length();
    let bit = 1_u64 << random.below(64);
    let low_bit = 1_u64 << random.below(u64::from(resources).max(1)).min(63);
    let Some(row) = row_of(random, table, fits) else {
        return;
    };
    let member = one_bit_of(random, row.declared);
    let held = one_bit_of(random, row.held);
    let asked = one_bit_of(random, row.asked);
    match random.below(5) {
        0 => row.turn = random.pick(&[0, other, last_turn.wrapping_add(1), any]),
        1 => row.declared = random.pick(&[0, row.declared ^ bit, row.declared ^ low_bit]),
        2 => row.held ^= random.pick(&[bit, low_bit, member, asked]),
        3 => row.asked ^= random.pick(&[bit, low_bit, member, held]),
        _ => row.since = random.pick(&[0, 1, time, time.wrapping_add(1), any, u64::MAX]),
    }
}

fn one_bit_of(random: &mut Random, number: u64) -> u64 {
    let member = random.member(&from_number(number));
    member.map_or(0, |member| 1 << member)
}

fn row_of<'a>(
    random: &mut Random,
    table: &'a mut Table,
    fits: fn(&Row) -> bool,
) -> Option<&'a mut Row> {
    let rows = table.rows.iter_mut();
    let mut fitting: Vec<&mut Row> = rows.filter(|row| fits(row)).collect();
    let place = random.below(fitting.len().max(1) as u64) as usize;
    (place < fitting.len()).then(|| fitting.swap_remove(place))
}

/// Numbers without any plan: all small, so that some tables come out sound, or any.
pub fn random(random: &mut Random) -> Table {
    let bound = random.pick(&[2, 3, 5, u64::MAX]);
    let live = random.pick(&[1, 2, 4, JOBS]);
    let mut table = Table::empty(
        random.below(bound) as u8,
        random.below(bound) as u8,
        random.below(bound) as u32,
        random.below(bound),
    );
    table.last_turn = random.below(bound);
    for row in table.rows.iter_mut().take(live) {
        *row = Row {
            turn: random.below(bound),
            declared: random.below(bound),
            held: random.below(bound),
            asked: random.below(bound),
            since: random.below(bound),
        };
    }
    table
}
