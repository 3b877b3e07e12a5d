//! Which refusals apply to a call. Each case is judged on its own, so that those
//! that apply together can be counted; the first in the call's order is the one given.
//!
//! A job without a live request, one above 63 too, counts as one that has no
//! token and declares, holds and asks nothing.

use crate::arbiter::Arbiter;
use crate::case::{Call, Case};
use crate::clock::{self, TOP};
use crate::record;
use crate::set::{from_number, Set};
use crate::sound;
use crate::table::JOBS;

/// The refusals a call can give, in the order in which they are looked at. The numbers
/// rise, except for 23: a leap comes after 5 and before 6 (document 02, request 4).
pub fn listed(call: Call) -> &'static [u8] {
    match call {
        Call::Beat => &[3, 5, 23, 6],
        Call::Open => &[3, 4, 5, 23, 6, 7, 11, 12, 16],
        Call::Ask => &[3, 4, 5, 23, 6, 8, 9, 10, 11, 12, 13, 14],
        Call::Release => &[3, 4, 5, 23, 6, 8, 9, 10, 11, 12, 15],
        Call::Complete => &[2, 3, 4, 5, 23, 6, 8, 9, 10],
        Call::GiveUp => &[2, 3, 4, 5, 23, 6, 8, 9, 10, 11, 12, 13],
        Call::Report => &[3, 4, 8],
        Call::Overdue => &[2, 3, 5, 23, 6],
        Call::Start => &[1],
        // A beat names no job, so there is none to refuse.
        Call::WriteBeat => &[17],
        Call::WriteOpen
        | Call::WriteAsk
        | Call::WriteRelease
        | Call::WriteComplete
        | Call::WriteGiveUp => &[4, 17],
        Call::WriteStart => &[1, 17],
    }
}

/// All refusals that apply to this case, the one given first.
pub fn applying(case: &Case) -> impl Iterator<Item = u8> + '_ {
    let arbiter = Arbiter::of(&case.table);
    let listed = listed(case.call).iter().copied();
    listed.filter(move |&number| applies(number, case, &arbiter))
}

fn applies(number: u8, case: &Case, arbiter: &Arbiter) -> bool {
    let table = &case.table;
    match number {
        1 => start_out_of_range(case),
        2 => usize::from(case.room) < JOBS,
        3 => !sound::is_sound_in(table, arbiter),
        4 => case.job >= JOBS as u32,
        5 => clock::gone_back(table.time, case.tick),
        23 => clock::leaps(table.time, case.tick),
        6 => clock::passes_top(table.time, case.tick),
        7..=10 => request_refuses(number, case, arbiter),
        11..=15 => set_refuses(number, case, arbiter),
        16 => table.last_turn == TOP,
        17 => usize::from(case.room) < record::LENGTH,
        _ => unreachable!("no call lists refusal {number}"),
    }
}

/// A limit of 0 fits its field, so only the call that starts refuses it.
fn start_out_of_range(case: &Case) -> bool {
    let range = 1..=64;
    let fits = range.contains(&case.table.tokens) && range.contains(&case.table.resources);
    !fits || (case.call == Call::Start && case.table.limit == 0)
}

fn request_refuses(number: u8, case: &Case, arbiter: &Arbiter) -> bool {
    let request = arbiter.request(case.job);
    match number {
        7 => request.is_some(),
        8 => request.is_none(),
        9 => !request.is_some_and(|r| arbiter.has_token(r.turn)),
        _ => request.is_some_and(|r| !r.asked.is_empty()),
    }
}

fn set_refuses(number: u8, case: &Case, arbiter: &Arbiter) -> bool {
    let nothing = Set::new();
    let request = arbiter.request(case.job);
    let declared = request.map_or(&nothing, |r| &r.declared);
    let held = request.map_or(&nothing, |r| &r.held);
    let set = from_number(case.set);
    match number {
        11 => set.is_empty(),
        12 => set.iter().any(|&member| member >= case.table.resources),
        13 => !set.is_subset(declared),
        14 => !set.is_disjoint(held),
        _ => !set.is_subset(held),
    }
}
