//! Makes rows of cases for the probe.

use crate::arbiter::{Arbiter, Request};
use crate::case::{Call, Case, CALLS, CASE};
use crate::clock::{self, HOUR, TOP};
use crate::random::Random;
use crate::set::{to_number, Set};
use crate::table::{Table, JOBS};
use crate::tables::{self, Walk};

/// Chances in a hundred.
struct Plan {
    built: u64,
    late: u64,
    last: u64,
    damaged: u64,
    random: u64,
    short: u64,
    /// That the set is drawn without regard to what would be accepted.
    odd_set: u64,
    /// That the call is a start or a writing.
    no_table: u64,
}

const SOUND: Plan = Plan {
    built: 0,
    late: 0,
    last: 0,
    damaged: 0,
    random: 0,
    short: 5,
    odd_set: 20,
    no_table: 5,
};

const MIXED: Plan = Plan {
    built: 60,
    late: 30,
    last: 30,
    damaged: 30,
    random: 10,
    short: 40,
    odd_set: 60,
    no_table: 25,
};

/// Every kind with its plan.
const PLANS: [(&str, Plan); 11] = [
    ("sound", SOUND),
    ("cut", SOUND),
    (
        "built",
        Plan {
            built: 100,
            ..SOUND
        },
    ),
    (
        "damaged",
        Plan {
            built: 50,
            damaged: 100,
            ..SOUND
        },
    ),
    (
        "random",
        Plan {
            random: 100,
            odd_set: 60,
            ..SOUND
        },
    ),
    (
        "late",
        Plan {
            built: 50,
            late: 100,
            ..SOUND
        },
    ),
    (
        "last",
        Plan {
            built: 50,
            last: 100,
            ..SOUND
        },
    ),
    (
        "short",
        Plan {
            short: 100,
            no_table: 40,
            ..SOUND
        },
    ),
    (
        "sets",
        Plan {
            built: 50,
            odd_set: 100,
            ..SOUND
        },
    ),
    (
        "writing",
        Plan {
            random: 30,
            short: 30,
            no_table: 100,
            ..SOUND
        },
    ),
    ("mixed", MIXED),
];

pub fn kinds() -> impl Iterator<Item = &'static str> {
    PLANS.iter().map(|(kind, _)| *kind)
}

/// A row of `count` cases; a `cut` row goes on with what is no whole case.
/// Nothing if there is no such kind.
pub fn make(kind: &str, seed: u64, count: u64) -> Option<impl Iterator<Item = Vec<u8>>> {
    let (_, plan) = PLANS.iter().find(|(name, _)| *name == kind)?;
    let mut random = Random::new(seed);
    let mut walk = Walk::new();
    let total = count + u64::from(kind == "cut");
    Some((0..total).map(move |place| {
        let bytes = case(&mut random, plan, &mut walk).to_bytes();
        if place == count {
            spoil(&mut random, bytes)
        } else {
            bytes
        }
    }))
}

/// The cases of a `mixed` row, without end.
pub fn mixed(seed: u64) -> impl Iterator<Item = Case> {
    let mut random = Random::new(seed);
    let mut walk = Walk::new();
    std::iter::from_fn(move || Some(case(&mut random, &MIXED, &mut walk)))
}

/// Part of the case, or the case with a call that doesn't exist, followed by the case.
fn spoil(random: &mut Random, mut case: Vec<u8>) -> Vec<u8> {
    if random.one_in(2) {
        case.truncate(random.pick(&[1, 18, 1000, CASE - 1]));
        return case;
    }
    let good = case.clone();
    case[0] = random.pick(&[CALLS.len() as u8, 17, 128, 255]);
    case.extend(good);
    case
}

fn chance(random: &mut Random, hundredths: u64) -> bool {
    random.below(100) < hundredths
}

fn table(random: &mut Random, plan: &Plan, walk: &mut Walk) -> Table {
    if chance(random, plan.random) {
        return tables::random(random);
    }
    let mut table = if chance(random, plan.built) {
        tables::built(random)
    } else {
        walk.next(random)
    };
    if chance(random, plan.late) {
        tables::late(random, &mut table);
    }
    if chance(random, plan.last) {
        tables::last(random, &mut table);
    }
    if chance(random, plan.damaged) {
        tables::damage(random, &mut table);
    }
    table
}

fn case(random: &mut Random, plan: &Plan, walk: &mut Walk) -> Case {
    let table = table(random, plan, walk);
    let no_table = chance(random, plan.no_table);
    let calls = CALLS.iter().copied();
    let calls: Vec<Call> = calls.filter(|call| call.has_table() != no_table).collect();
    let call = random.pick(&calls);
    let arbiter = Arbiter::of(&table);
    let job = job(random, &arbiter, call);
    let odd = chance(random, plan.odd_set);
    let set = if odd {
        odd_set(random, &arbiter, job)
    } else {
        fitting_set(random, &arbiter, job, call)
    };
    let short = chance(random, plan.short);
    Case {
        call,
        job,
        tick: tick(random, &arbiter),
        set: to_number(&set),
        room: room(random, short, call),
        table,
    }
}

/// Jobs in every state the refusals know, and numbers that no job has: some of
/// those would be a live job's if their upper bits were lost.
fn job(random: &mut Random, arbiter: &Arbiter, call: Call) -> u32 {
    let jobs = JOBS as u32;
    let any = random.below(JOBS as u64) as u32;
    let state: fn(&Arbiter, &Request) -> bool = match random.below(12) {
        0 => return any,
        1 => return random.pick(&[jobs, 255, u32::MAX, any + jobs, any + 256, any + (1 << 31)]),
        2..=4 if call == Call::Open => return idle(random, arbiter),
        5..=7 if call == Call::GiveUp => |a, r| !a.waits(r) && !asked_behind(a, r).is_empty(),
        2 => |a, r| !a.has_token(r.turn),
        3..=4 => |_, r| !r.asked.is_empty(),
        5 => |_, r| !r.held.is_empty(),
        6..=7 => |_, r| !r.asked.is_empty() && !r.held.is_empty(),
        8 => |_, r| r.declared.is_empty(),
        _ => |a, r| !a.waits(r),
    };
    let jobs = arbiter.line.iter().filter(|r| state(arbiter, r));
    let jobs: Set = jobs.map(|r| r.job).collect();
    random.member(&jobs).map_or(any, u32::from)
}

/// What it declares and others behind it ask for.
fn asked_behind(arbiter: &Arbiter, request: &Request) -> Set {
    let behind = arbiter.line.iter().filter(|r| r.turn > request.turn);
    let asked: Set = behind.flat_map(|r| r.asked.clone()).collect();
    &request.declared & &asked
}

fn idle(random: &mut Random, arbiter: &Arbiter) -> u32 {
    let live: Set = arbiter.line.iter().map(|r| r.job).collect();
    let idle = &(0..JOBS as u8).collect() - &live;
    random.member(&idle).map_or(0, u32::from)
}

/// Small steps, the edges of a leap, of the clock's half, of its wrap, of its end and of
/// somebody's limit, or any.
fn tick(random: &mut Random, arbiter: &Arbiter) -> u32 {
    let time = arbiter.time;
    let any = random.number();
    let edge = 1 << 31;
    let end = TOP.wrapping_sub(time);
    let step = match random.below(16) {
        0 => random.pick(&[edge - 1, edge, edge + 1, 2 * edge - 1, any]),
        1 => random.pick(&[end, end.wrapping_add(1), end.wrapping_sub(1)]),
        2 => time_up(random, arbiter).wrapping_sub(time),
        3 => time_up(random, arbiter).wrapping_sub(time).wrapping_sub(1),
        4 => (2 * edge).wrapping_sub(time) % (2 * edge),
        5..=6 => random.pick(&[HOUR - 1, HOUR, HOUR, HOUR, HOUR + 1, 3 * HOUR]),
        _ => random.pick(&[0, 1, 2, 1000]),
    };
    clock::tick_after(time, step)
}

/// The moment at which some waiting request has waited its limit.
fn time_up(random: &mut Random, arbiter: &Arbiter) -> u64 {
    let waiting = arbiter.line.iter().filter(|r| arbiter.waits(r));
    let mut moments: Vec<u64> = waiting.map(|r| r.since).collect();
    moments.push(arbiter.time);
    random.pick(&moments).wrapping_add(u64::from(arbiter.limit))
}

/// A set that the call is likely to accept.
fn fitting_set(random: &mut Random, arbiter: &Arbiter, job: u32, call: Call) -> Set {
    let whole = match (call, arbiter.request(job)) {
        (Call::Ask, Some(request)) => &request.declared - &request.held,
        (Call::Release, Some(request)) => request.held.clone(),
        (Call::GiveUp, Some(request)) if random.one_in(2) => return asked_behind(arbiter, request),
        (Call::GiveUp, Some(request)) => request.declared.clone(),
        _ => (0..arbiter.resources.min(64)).collect(),
    };
    random.part(&whole)
}

/// A set put together of members that stand differently to the request.
fn odd_set(random: &mut Random, arbiter: &Arbiter, job: u32) -> Set {
    let nothing = Set::new();
    let request = arbiter.request(job);
    let declared = request.map_or(&nothing, |r| &r.declared);
    let held = request.map_or(&nothing, |r| &r.held);
    let all: Set = (0..64).collect();
    let within: Set = (0..arbiter.resources.min(64)).collect();
    let parts = [
        held,
        &(declared - held),
        &(&within - declared),
        &(&all - &within),
        &all,
    ];
    let mut set = Set::new();
    for _ in 0..random.below(4) {
        let part = random.pick(&parts);
        set.extend(random.part(part));
    }
    set
}

fn room(random: &mut Random, short: bool, call: Call) -> u16 {
    let jobs = JOBS as u16;
    if short {
        random.pick(&[0, 1, 13, 14, 15, jobs - 1, jobs, jobs + 1, 255, 256, 257])
    } else if call.writes() {
        random.pick(&[14, 14, 20])
    } else {
        random.pick(&[jobs, jobs, jobs + 1, jobs + 36])
    }
}
