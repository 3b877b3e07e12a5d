//! Counts what recordings reach, and names what they never do.

use crate::case::EVENTS;
use crate::clock;
use crate::history::{History, HAPPENINGS};
use crate::record::{self, Record};
use crate::refuse;
use crate::replay::{walk, Said, Step};
use crate::tally::{amount, Tally};
use std::io::{self, Write};

/// Refusals that no recording of a handy length can bring about: its jobs fit 6
/// bits, the replay lends a long list, its tables are sound, and the end of time
/// and of turns is too many records away.
const NOT_IN_REPLAY: [u8; 5] = [2, 3, 4, 6, 16];

const OVER_THE_WRAP: &str = "over the wrap";

fn expected() -> Vec<String> {
    let answers = [
        "first ok",
        "beat ok",
        "open ok",
        "open wait",
        "ask ok",
        "ask wait",
        "release ok",
        "complete ok 0",
        "complete ok 1",
        "complete ok more",
        "give-up ok 0",
        "give-up ok 1",
        "give-up ok more",
        "start no 20",
    ];
    let mut expected: Vec<String> = answers.map(String::from).into();
    expected.extend([1, 17, 18, 19, 20].map(|number| format!("first no {number}")));
    expected.extend([17, 18, 19].map(|number| format!("unreadable no {number}")));
    let pairs = ["first 19 20", "first 19 1", "later 19 20", "later 20 1"];
    expected.extend(pairs.map(|pair| format!("together {pair}")));
    for call in EVENTS {
        let listed = refuse::listed(call).iter();
        let met = listed.filter(|number| !NOT_IN_REPLAY.contains(number));
        expected.extend(met.map(|number| format!("{call} no {number}")));
    }
    expected.extend(HAPPENINGS.map(String::from));
    expected.push(OVER_THE_WRAP.to_string());
    expected
}

fn name_record(step: &Step) -> String {
    let what = match record::read(step.bytes) {
        _ if !step.started => "first".to_string(),
        Err(_) => "unreadable".to_string(),
        Ok(Record::Start { .. }) => "start".to_string(),
        Ok(Record::Event { call, .. }) => call.to_string(),
    };
    match step.said {
        Said::Ok(woken) if matches!(what.as_str(), "complete" | "give-up") => {
            format!("{what} ok {}", amount(woken.len()))
        }
        said => format!("{what} {said}"),
    }
}

/// Of reading's refusals, 20 and 1, the next that applies to the record as well.
/// (What 17 and 18 refuse is never a start, so with them there is nothing to tell.)
fn together(step: &Step) -> Option<String> {
    let start = step.bytes.first().is_some_and(|byte| byte >> 5 == 5);
    let no_limit = start && step.bytes.get(6..10) == Some(&[0; 4]);
    let place = if step.started { "later" } else { "first" };
    let pair = match step.said {
        Said::No(19) if start == step.started => "19 20",
        Said::No(19) if no_limit => "19 1",
        Said::No(20) if no_limit => "20 1",
        _ => return None,
    };
    Some(format!("together {place} {pair}"))
}

/// What an accepted record adds to the history, which the table after it must fit.
fn happened(history: &mut History, step: &Step) -> Vec<&'static str> {
    match (record::read(step.bytes), step.said, step.table) {
        (Ok(record), Said::Ok(_) | Said::Wait, Some(table)) => {
            let happened = history.take(&record);
            history.compare(table);
            happened
        }
        _ => Vec::new(),
    }
}

/// Whether the counter begins again with this record. How often it has is kept.
fn over_the_wrap(wraps: &mut Option<u64>, step: &Step) -> Option<&'static str> {
    let now = step.table.map(|table| clock::wraps(table.time));
    let before = std::mem::replace(wraps, now);
    (before.is_some() && before != now).then_some(OVER_THE_WRAP)
}

/// Counts what the listings of these recordings say of each kind of record, and what
/// happened along them.
pub fn of_recordings(recordings: &[Vec<u8>], mut out: impl Write) -> io::Result<bool> {
    let mut tally = Tally::default();
    let mut counted = 0_u64;
    for recording in recordings {
        let mut history = History::default();
        let mut wraps = None;
        walk(recording.as_slice(), |step| {
            counted += 1;
            let mut met = vec![name_record(step)];
            met.extend(together(step));
            met.extend(happened(&mut history, step).into_iter().map(String::from));
            met.extend(over_the_wrap(&mut wraps, step).map(String::from));
            met.into_iter().for_each(|what| tally.count(what));
            Ok(())
        })?;
    }
    writeln!(out, "counted {counted}")?;
    tally.print(&expected(), out)
}
