//! Counts what service cases reach, and names what they never do.

use crate::file_traps;
use crate::files;
use crate::layout::Layout;
use crate::probe::Next;
use crate::service::{self, LOADING, SAVING};
use crate::service_case::{next_case, ServiceCase};
use crate::sound;
use crate::table::Table;
use crate::tally::Tally;
use std::io::{self, Write};

/// The calls, each with its refusals in the order in which they are given.
const CALLS: [(&str, &[u8]); 2] = [("load", &LOADING), ("save", &SAVING)];

/// Why two refusals never apply to a call together. All other pairs can be met: a file of
/// another length or version still has its layout judged, as far as it goes, and a table
/// that is not sound still has a number of live rows, and so a length.
fn never_together(call: &str, first: u8, second: u8) -> Option<&'static str> {
    match (call, first, second) {
        ("load", 21, 22) => Some("from 23 bytes on only version 1 can have a wrong length"),
        _ => None,
    }
}

/// Why no file breaks this clause of soundness, or never that one alone.
fn never_only_broken(clause: &str) -> Option<&'static str> {
    match clause {
        "tokens-in-range" | "resources-in-range" => Some("six bits carry 1 to 64 and nothing else"),
        "time-in-range" | "last-turn-in-range" => Some("63 bits carry no more than 2^63-1"),
        "idle-rows-zero" => Some("a row is idle only by a turn of 0, which is a fault of its own"),
        "turn-its-own" => Some("equal turns do not ascend, which is a fault of its own"),
        "no-more-rows-than-jobs" => Some("six bits name no more than 64 jobs, so one comes twice"),
        _ => None,
    }
}

fn pairs(refusals: &[u8]) -> Vec<(u8, u8)> {
    let mut pairs = Vec::new();
    for (place, &first) in refusals.iter().enumerate() {
        pairs.extend(refusals[place + 1..].iter().map(|&second| (first, second)));
    }
    pairs
}

/// What cases drawn at random meet sooner or later.
fn expected_of_drawn() -> Vec<String> {
    let mut expected: Vec<String> = ["answer load done", "answer save saved"]
        .map(String::from)
        .into();
    for (call, refusals) in CALLS {
        expected.extend(
            refusals
                .iter()
                .map(|number| format!("refusal {call} {number}")),
        );
        let mut pairs = pairs(refusals);
        pairs.retain(|&(first, second)| never_together(call, first, second).is_none());
        let pairs = pairs.iter();
        expected.extend(pairs.map(|(first, second)| format!("together {call} {first} {second}")));
    }
    let of_files = service::clauses_of_rows().chain(sound::clauses());
    let of_files = of_files.filter(|clause| never_only_broken(clause).is_none());
    expected.extend(of_files.map(|clause| format!("only broken load {clause}")));
    expected.extend(sound::clauses().map(|clause| format!("only broken save {clause}")));
    expected.extend(file_traps::drawn());
    expected
}

/// All that a case meets, given the last accepted file.
fn met_by(accepted: &mut Vec<u8>, case: &ServiceCase) -> Vec<String> {
    match case {
        ServiceCase::Load(file) => {
            let mut met = file_traps::of_file(accepted, file);
            met.extend(met_by_load(file));
            if service::load(file).is_ok() {
                accepted.clone_from(file);
            }
            met
        }
        ServiceCase::Save { room, table } => {
            let mut met = file_traps::of_save(*room, table);
            met.extend(met_by_save(*room, table));
            met
        }
    }
}

fn met_by_load(file: &[u8]) -> Vec<String> {
    let refusals: Vec<u8> = service::refusing_load(file).collect();
    let mut met = refused("load", &refusals);
    if let Ok(table) = service::load(file) {
        met.push("answer load done".to_string());
        met.extend(file_traps::of_loaded(&table));
    }
    if let (Some(3), Some(layout)) = (refusals.first(), Layout::of(file)) {
        met.extend(only("load", &service::broken(&layout)));
    }
    met
}

fn met_by_save(room: u16, table: &Table) -> Vec<String> {
    let refusals: Vec<u8> = service::refusing_save(table, usize::from(room)).collect();
    let mut met = refused("save", &refusals);
    if refusals.is_empty() {
        met.push("answer save saved".to_string());
    }
    met.extend(only("save", &sound::broken(table)));
    met
}

/// The refusal given, and each other that applies with it.
fn refused(call: &str, refusals: &[u8]) -> Vec<String> {
    let Some((given, others)) = refusals.split_first() else {
        return Vec::new();
    };
    let mut met = vec![format!("refusal {call} {given}")];
    met.extend(
        others
            .iter()
            .map(|other| format!("together {call} {given} {other}")),
    );
    met
}

fn only(call: &str, broken: &[&str]) -> Option<String> {
    match broken {
        [clause] => Some(format!("only broken {call} {clause}")),
        _ => None,
    }
}

/// Counts rows of service cases: answers, refusals, those that apply together with the
/// one given, what is the only thing broken, and traps.
pub fn of_files(rows: &[Vec<u8>], mut out: impl Write) -> io::Result<bool> {
    let mut tally = Tally::default();
    let mut counted = 0_u64;
    for row in rows {
        let mut accepted = Vec::new();
        let mut input = row.as_slice();
        while let Next::Case(case) = next_case(&mut input)? {
            counted += 1;
            let met = met_by(&mut accepted, &case);
            met.into_iter().for_each(|what| tally.count(what));
        }
    }
    print_what_never_is(&mut out)?;
    writeln!(out, "counted {counted}")?;
    let mut expected = expected_of_drawn();
    expected.extend(file_traps::stepped());
    tally.print(&expected, out)
}

fn print_what_never_is(out: &mut impl Write) -> io::Result<()> {
    for (call, refusals) in CALLS {
        for (first, second) in pairs(refusals) {
            if let Some(reason) = never_together(call, first, second) {
                writeln!(out, "never together {call} {first} {second}: {reason}")?;
            }
        }
    }
    for clause in service::clauses_of_rows().chain(sound::clauses()) {
        if let Some(reason) = never_only_broken(clause) {
            writeln!(out, "never only broken load {clause}: {reason}")?;
        }
    }
    Ok(())
}

/// Of mixed cases those that are among the first `count` to meet something that is left
/// to chance, until all has been met that often; if something is out of reach, it stops
/// after many cases.
pub fn each(seed: u64, count: u64) -> impl Iterator<Item = Vec<u8>> {
    let expected = expected_of_drawn();
    let mut tally = Tally::default();
    let mut mixed = files::mixed(seed).take(200_000);
    std::iter::from_fn(move || loop {
        if expected.iter().all(|what| tally.of(what) >= count) {
            return None;
        }
        let case = mixed.next()?;
        let mut met = met_by(&mut Vec::new(), &case);
        met.retain(|what| expected.contains(what));
        if met.iter().any(|what| tally.of(what) < count) {
            met.into_iter().for_each(|what| tally.count(what));
            return Some(case.to_bytes());
        }
    })
}
