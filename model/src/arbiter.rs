//! The rules, over the live requests standing in line by turn.
//!
//! The view can be made of any table, so that soundness and refusals are judged
//! with the same words as the rules. The events are only for sound ones.

use crate::clock;
use crate::set::{from_number, to_number, Set};
use crate::table::{Row, Table};
use std::collections::BTreeSet;

#[derive(Clone, Debug)]
pub struct Request {
    pub job: u8,
    pub turn: u64,
    pub declared: Set,
    pub held: Set,
    pub asked: Set,
    pub since: u64,
}

#[derive(Clone, Debug)]
pub struct Arbiter {
    pub tokens: u8,
    pub resources: u8,
    pub limit: u32,
    pub time: u64,
    pub last_turn: u64,
    /// Lowest turn first.
    pub line: Vec<Request>,
}

impl Request {
    fn of(job: u8, row: &Row) -> Request {
        Request {
            job,
            turn: row.turn,
            declared: from_number(row.declared),
            held: from_number(row.held),
            asked: from_number(row.asked),
            since: row.since,
        }
    }

    fn row(&self) -> Row {
        Row {
            turn: self.turn,
            declared: to_number(&self.declared),
            held: to_number(&self.held),
            asked: to_number(&self.asked),
            since: self.since,
        }
    }
}

impl Arbiter {
    pub fn of(table: &Table) -> Arbiter {
        let live = (0..).zip(&table.rows).filter(|(_, row)| row.turn != 0);
        let mut line: Vec<Request> = live.map(|(job, row)| Request::of(job, row)).collect();
        line.sort_by_key(|request| request.turn);
        Arbiter {
            tokens: table.tokens,
            resources: table.resources,
            limit: table.limit,
            time: table.time,
            last_turn: table.last_turn,
            line,
        }
    }

    pub fn table(&self) -> Table {
        let mut table = Table::empty(self.tokens, self.resources, self.limit, self.time);
        table.last_turn = self.last_turn;
        for request in &self.line {
            table.rows[usize::from(request.job)] = request.row();
        }
        table
    }

    /// Job numbers are taken as wide as callers give them, so none is cut to fit.
    pub fn request(&self, job: u32) -> Option<&Request> {
        self.line.iter().find(|r| u32::from(r.job) == job)
    }

    fn request_mut(&mut self, job: u32) -> &mut Request {
        let found = self.line.iter_mut().find(|r| u32::from(r.job) == job);
        found.expect("refusal 8 comes first")
    }

    /// Strictly lower turns only: in a damaged table two may be equal.
    pub fn ahead(&self, turn: u64) -> &[Request] {
        let place = self.line.partition_point(|r| r.turn < turn);
        &self.line[..place]
    }

    /// How many requests ahead of this turn still declare a member of the set.
    pub fn in_the_way(&self, turn: u64, set: &Set) -> usize {
        let ahead = self.ahead(turn).iter();
        ahead.filter(|r| !r.declared.is_disjoint(set)).count()
    }

    pub fn has_token(&self, turn: u64) -> bool {
        self.ahead(turn).len() < usize::from(self.tokens)
    }

    pub fn waits(&self, request: &Request) -> bool {
        !self.has_token(request.turn) || !request.asked.is_empty()
    }

    pub fn tokens_in_use(&self) -> usize {
        self.line.iter().filter(|r| self.has_token(r.turn)).count()
    }

    pub fn move_clock(&mut self, tick: u32) {
        self.time = clock::moved(self.time, tick);
    }

    /// True if the new request has its token at once.
    pub fn open(&mut self, job: u8, declared: Set) -> bool {
        self.last_turn += 1;
        let turn = self.last_turn;
        let token = self.has_token(turn);
        self.line.push(Request {
            job,
            turn,
            declared,
            held: Set::new(),
            asked: Set::new(),
            since: if token { 0 } else { self.time },
        });
        token
    }

    /// True if the set is granted at once.
    pub fn ask(&mut self, job: u32, mut set: Set) -> bool {
        let time = self.time;
        let turn = self.request_mut(job).turn;
        let granted = self.in_the_way(turn, &set) == 0;
        let request = self.request_mut(job);
        if granted {
            request.held.append(&mut set);
        } else {
            request.asked = set;
            request.since = time;
        }
        granted
    }

    pub fn release(&mut self, job: u32, set: &Set) {
        let request = self.request_mut(job);
        request.held = &request.held - set;
    }

    /// The jobs woken, in line. The token freed needs no handing over, since places in
    /// line decide it.
    pub fn complete(&mut self, job: u32) -> Vec<u8> {
        self.woken_by(|arbiter| arbiter.line.retain(|r| u32::from(r.job) != job))
    }

    /// The jobs woken, in line.
    pub fn give_up(&mut self, job: u32, set: &Set) -> Vec<u8> {
        let let_go = |request: &mut Request| {
            request.declared.retain(|member| !set.contains(member));
            request.held.retain(|member| !set.contains(member));
        };
        self.woken_by(|arbiter| let_go(arbiter.request_mut(job)))
    }

    /// A job is woken by a change if it waited and waits no more.
    fn woken_by(&mut self, change: impl FnOnce(&mut Arbiter)) -> Vec<u8> {
        let waited: BTreeSet<u8> = self.waiting().map(|r| r.job).collect();
        change(self);
        self.grant_all_allowed();
        let waits: BTreeSet<u8> = self.waiting().map(|r| r.job).collect();
        let mut woken = Vec::new();
        for request in &mut self.line {
            if waited.contains(&request.job) && !waits.contains(&request.job) {
                request.since = 0;
                woken.push(request.job);
            }
        }
        woken
    }

    fn grant_all_allowed(&mut self) {
        let allowed = |r: &Request| self.in_the_way(r.turn, &r.asked) == 0;
        let allowed: Vec<bool> = self.line.iter().map(allowed).collect();
        for (request, allowed) in self.line.iter_mut().zip(allowed) {
            if allowed {
                request.held.append(&mut request.asked);
            }
        }
    }

    fn waiting(&self) -> impl Iterator<Item = &Request> {
        self.line.iter().filter(|r| self.waits(r))
    }

    /// The jobs that by this tick have waited the limit or longer, in line.
    pub fn overdue(&self, tick: u32) -> Vec<u8> {
        let now = clock::moved(self.time, tick);
        let late = |r: &&Request| now - r.since >= u64::from(self.limit);
        self.waiting().filter(late).map(|r| r.job).collect()
    }
}
