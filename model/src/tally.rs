//! Counts what cases reach, and names what they never do.

use crate::answer::{answer, Answer};
use crate::case::{Call, Case, CALLS};
use crate::cases;
use crate::probe::{next_case, Next};
use crate::refuse;
use crate::sound;
use crate::table::Table;
use crate::traps;
use std::collections::BTreeMap;
use std::io::{self, Write};

/// How often each thing was met.
#[derive(Default)]
pub struct Tally(BTreeMap<String, u64>);

impl Tally {
    pub fn count(&mut self, what: String) {
        *self.0.entry(what).or_default() += 1;
    }

    pub fn of(&self, what: &str) -> u64 {
        self.0.get(what).copied().unwrap_or(0)
    }

    /// Prints the counts of all that was to be met, then what never was and what
    /// should not have been. True if there is neither.
    pub fn print(&self, expected: &[String], mut out: impl Write) -> io::Result<bool> {
        let mut missing = Vec::new();
        for what in expected {
            let count = self.of(what);
            writeln!(out, "{what}: {count}")?;
            if count == 0 {
                missing.push(what);
            }
        }
        let strange = self.0.keys().filter(|what| !expected.contains(what));
        let strange: Vec<&String> = strange.collect();
        for what in &missing {
            writeln!(out, "missing {what}")?;
        }
        for what in &strange {
            writeln!(out, "unexpected {what}")?;
        }
        let met = expected.len() - missing.len();
        writeln!(out, "{met} of {} met", expected.len())?;
        out.flush()?;
        Ok(missing.is_empty() && strange.is_empty())
    }
}

pub fn amount(count: usize) -> &'static str {
    match count {
        0 => "0",
        1 => "1",
        _ => "more",
    }
}

/// Every answer that is no refusal. A report shows token, waiting and the number
/// in the way.
const ANSWERS: [&str; 31] = [
    "beat done",
    "open token",
    "open wait",
    "ask granted",
    "ask wait",
    "release done",
    "complete woke 0",
    "complete woke 1",
    "complete woke more",
    "give-up woke 0",
    "give-up woke 1",
    "give-up woke more",
    "report 1 0 0",
    "report 1 0 1",
    "report 1 0 more",
    "report 1 1 1",
    "report 1 1 more",
    "report 0 1 0",
    "report 0 1 1",
    "report 0 1 more",
    "overdue 0",
    "overdue 1",
    "overdue more",
    "start done",
    "write-beat wrote",
    "write-open wrote",
    "write-ask wrote",
    "write-release wrote",
    "write-complete wrote",
    "write-start wrote",
    "write-give-up wrote",
];

fn name(call: Call, answer: &Answer) -> String {
    match answer {
        Answer::Woke(count) => format!("{call} woke {}", amount(*count)),
        Answer::Overdue(count) => format!("{call} {}", amount(*count)),
        Answer::Report(report) => {
            let (token, waiting) = (u8::from(report.token), u8::from(report.waiting));
            format!("{call} {token} {waiting} {}", amount(report.in_the_way))
        }
        plain => format!("{call} {plain}"),
    }
}

/// Why a call that gives the first one can't have the second one apply as well.
/// All other pairs within the list of one call can be met.
fn never_together(first: u8, second: u8) -> Option<&'static str> {
    match (first, second) {
        (4, 7 | 10 | 14) => Some("a job above 63 has no row to be live, ask or hold"),
        (8, 10 | 14) => Some("in a sound table idle rows ask and hold nothing"),
        (9, 10 | 14) => Some("in a sound table nobody asks or holds without a token"),
        (11, 12..=15) => Some("an empty set has no members"),
        _ => None,
    }
}

/// The pairs of refusals in a call's list, the one that is given first.
fn pairs(call: Call) -> Vec<(u8, u8)> {
    let listed = refuse::listed(call);
    let mut pairs = Vec::new();
    for (place, &first) in listed.iter().enumerate() {
        pairs.extend(listed[place + 1..].iter().map(|&second| (first, second)));
    }
    pairs
}

fn expected_of_cases() -> Vec<String> {
    let mut expected: Vec<String> = ANSWERS.map(|what| format!("answer {what}")).into();
    for call in CALLS {
        let listed = refuse::listed(call).iter();
        expected.extend(listed.map(|number| format!("refusal {call} {number}")));
    }
    for call in CALLS {
        let mut pairs = pairs(call);
        pairs.retain(|&(first, second)| never_together(first, second).is_none());
        let pairs = pairs.iter();
        expected.extend(pairs.map(|(first, second)| format!("together {call} {first} {second}")));
    }
    expected.extend(sound::clauses().map(|clause| format!("only broken {clause}")));
    expected.extend(traps::TRAPS.map(|trap| format!("trap {trap}")));
    expected
}

/// All that a case meets.
fn met_by(case: &Case) -> Vec<String> {
    let call = case.call;
    let outcome = answer(case);
    let mut met = match outcome.answer {
        Answer::No(number) => met_by_refusal(case, number),
        ref plain => vec![format!("answer {}", name(call, plain))],
    };
    let traps = traps::in_case(case, &outcome).into_iter();
    met.extend(traps.map(|trap| format!("trap {trap}")));
    met
}

fn met_by_refusal(case: &Case, given: u8) -> Vec<String> {
    let call = case.call;
    let others = refuse::applying(case).skip(1);
    let mut met = vec![format!("refusal {call} {given}")];
    met.extend(others.map(|other| format!("together {call} {given} {other}")));
    if given == 3 {
        met.extend(only_broken(&case.table));
    }
    met
}

fn only_broken(table: &Table) -> Option<String> {
    match sound::broken(table)[..] {
        [clause] => Some(format!("only broken {clause}")),
        _ => None,
    }
}

/// Counts rows of cases: answers, refusals, those that apply together with the
/// one given, the clauses of soundness that are the only one broken, and traps.
pub fn of_cases(rows: &[Vec<u8>], mut out: impl Write) -> io::Result<bool> {
    let mut tally = Tally::default();
    let mut counted = 0_u64;
    for row in rows {
        let mut input = row.as_slice();
        while let Next::Case(case) = next_case(&mut input)? {
            counted += 1;
            met_by(&case).into_iter().for_each(|what| tally.count(what));
        }
    }
    for call in CALLS {
        for (first, second) in pairs(call) {
            if let Some(reason) = never_together(first, second) {
                writeln!(out, "never together {call} {first} {second}: {reason}")?;
            }
        }
    }
    writeln!(out, "counted {counted}")?;
    tally.print(&expected_of_cases(), out)
}

/// Of mixed cases those that are among the first `count` to meet something, until
/// all has been met that often; if something is out of reach, it stops after many.
pub fn each(seed: u64, count: u64) -> impl Iterator<Item = Vec<u8>> {
    let expected = expected_of_cases();
    let mut tally = Tally::default();
    let mut mixed = cases::mixed(seed).take(2_000_000);
    std::iter::from_fn(move || loop {
        if expected.iter().all(|what| tally.of(what) >= count) {
            return None;
        }
        let case = mixed.next()?;
        let met = met_by(&case);
        if met.iter().any(|what| tally.of(what) < count) {
            met.into_iter().for_each(|what| tally.count(what));
            return Some(case.to_bytes());
        }
    })
}
