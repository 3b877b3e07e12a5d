//! Draws events that a table is likely to accept, with a wild one now and then.

use crate::arbiter::{Arbiter, Request};
use crate::case::{Call, EVENTS};
use crate::clock;
use crate::random::Random;
use crate::record::Record;
use crate::set::{to_number, Set};
use crate::table::Table;

pub struct Style {
    /// Jobs from 0 up to this number take part.
    pub jobs: u64,
    /// Ticks to go forward, one of them for each event.
    pub steps: &'static [u64],
    /// One event in this many is wild.
    pub wild: u64,
}

pub fn event(random: &mut Random, table: &Table, style: &Style) -> Record {
    let tick = clock::tick_after(table.time, random.pick(style.steps));
    let (call, job, set) = if random.one_in(style.wild) {
        wild(random, style)
    } else {
        sensible(random, &Arbiter::of(table), style)
    };
    Record::Event {
        call,
        job: if call == Call::Beat { 0 } else { job },
        tick,
        set: match call {
            Call::Beat | Call::Complete => 0,
            _ => set,
        },
    }
}

fn wild(random: &mut Random, style: &Style) -> (Call, u8, u64) {
    let call = random.pick(&EVENTS);
    let job = random.below(style.jobs) as u8;
    let bit = 1_u64 << random.below(64);
    let near = random.below(8);
    let far = random.number();
    (call, job, random.pick(&[0, bit, near, far]))
}

fn sensible(random: &mut Random, arbiter: &Arbiter, style: &Style) -> (Call, u8, u64) {
    let job = random.below(style.jobs) as u8;
    if random.one_in(16) {
        return (Call::Beat, 0, 0);
    }
    match arbiter.request(u32::from(job)) {
        None => (Call::Open, job, to_number(&declaration(random, arbiter))),
        Some(request) if !arbiter.waits(request) => step_on(random, request),
        // The job can't go on, but whoever stands first in line always can.
        Some(_) => {
            let able: Vec<&Request> = arbiter.line.iter().filter(|r| !arbiter.waits(r)).collect();
            let request = random.pick(&able);
            step_on(random, request)
        }
    }
}

/// Half of the sets stay among the first few resources, so that they meet.
fn declaration(random: &mut Random, arbiter: &Arbiter) -> Set {
    let hot = arbiter.resources.min(5);
    let bound = random.pick(&[hot, arbiter.resources]);
    random.part(&(0..bound).collect())
}

/// What a request that doesn't wait may do next.
fn step_on(random: &mut Random, request: &Request) -> (Call, u8, u64) {
    let free = &request.declared - &request.held;
    let (call, set) = match random.below(10) {
        0..=3 if !free.is_empty() => (Call::Ask, random.part(&free)),
        4 if !request.held.is_empty() => (Call::Release, random.part(&request.held)),
        5..=6 if !request.declared.is_empty() => (Call::GiveUp, random.part(&request.declared)),
        _ => (Call::Complete, Set::new()),
    };
    (call, request.job, to_number(&set))
}
