//! Calls written by hand, each with the answer that it must have, as lines of text.
//!
//! ```text
//! CALL : ANSWER
//! write ROOM CALL : ANSWER
//! time TIME
//! ```
//!
//! A call is said as in a recording (`lines`), and may have numbers that no record
//! carries. It is made on the table that the calls before it lead to. `write` does
//! not make the call but writes its record, into a room of ROOM bytes. `time` is no
//! call: it sets the table's true time, to one that no row of calls would reach. An
//! answer is one of these, and commas are for the reader:
//!
//! ```text
//! no NUMBER
//! token                        (granted, wait and done alike)
//! woke COUNT, jobs JOB..       (overdue alike)
//! turn TURN, [no] token, [not] waiting, COUNT ahead, COUNT in the way
//! wrote BYTE..
//! ```
//!
//! What an answer does not name of the lent list or room is as it was lent.

use crate::answer::{answer, lent, put, Answer, Outcome, Report};
use crate::case::{Call, Case};
use crate::lines::{self, number};
use crate::probe;
use crate::table::Table;
use std::io;

enum Line {
    Call(Box<Answered>),
    Time(u64),
}

/// One call, with what it must answer and what must be at the front of what is lent.
struct Answered {
    case: Case,
    answer: Answer,
    front: Vec<u8>,
}

/// The calls, each as a case for the probe.
pub fn cases(text: &str) -> io::Result<Vec<Vec<u8>>> {
    let steps = steps(text)?;
    Ok(steps.iter().map(|(case, _)| case.to_bytes()).collect())
}

/// What the probe must print of these cases: answers and lists as written by hand,
/// tables as the model has them.
pub fn answers(text: &str) -> io::Result<Vec<u8>> {
    let mut out = Vec::new();
    for (number, (case, outcome)) in (1..).zip(steps(text)?) {
        probe::print(&mut out, number, case.call, &outcome)?;
    }
    Ok(out)
}

/// Each call on its table, with the outcome that it must have.
fn steps(text: &str) -> io::Result<Vec<(Case, Outcome)>> {
    let mut table = Table::zero();
    let mut steps = Vec::new();
    for line in lines::each(text, line) {
        let called = match line? {
            Line::Call(called) => *called,
            Line::Time(time) => {
                table.time = time;
                continue;
            }
        };
        let Answered {
            mut case,
            answer: said,
            front,
        } = called;
        if !matches!(case.call, Call::Start | Call::WriteStart) {
            case.table = table.clone();
        }
        let mut list = lent(case.room);
        put(&mut list, &front);
        let after = answer(&case).table;
        if !case.call.writes() {
            table = after.clone();
        }
        let outcome = Outcome {
            answer: said,
            table: after,
            list,
        };
        steps.push((case, outcome));
    }
    Ok(steps)
}

fn line(words: &[&str]) -> Option<Line> {
    if let ["time", time] = *words {
        return number(time).map(Line::Time);
    }
    answered(words).map(|called| Line::Call(Box::new(called)))
}

fn answered(words: &[&str]) -> Option<Answered> {
    let mark = words.iter().position(|word| *word == ":")?;
    let case = called(&words[..mark])?;
    let said: Vec<&str> = words[mark + 1..]
        .iter()
        .map(|word| word.trim_end_matches(','))
        .collect();
    let (answer, front) = said_by(&said)?;
    (front.len() <= usize::from(case.room)).then_some(Answered {
        case,
        answer,
        front,
    })
}

fn called(words: &[&str]) -> Option<Case> {
    let ["write", room, ref words @ ..] = *words else {
        return lines::call(words);
    };
    let case = lines::call(words)?;
    Some(Case {
        call: case.call.writing()?,
        room: number(room)?,
        ..case
    })
}

fn said_by(words: &[&str]) -> Option<(Answer, Vec<u8>)> {
    let plain = |answer| Some((answer, Vec::new()));
    match *words {
        ["no", refusal] => plain(Answer::No(number(refusal)?)),
        ["token"] => plain(Answer::Token),
        ["granted"] => plain(Answer::Granted),
        ["wait"] => plain(Answer::Wait),
        ["done"] => plain(Answer::Done),
        ["woke", count, "jobs", ref jobs @ ..] => listed(Answer::Woke, count, jobs),
        ["overdue", count, "jobs", ref jobs @ ..] => listed(Answer::Overdue, count, jobs),
        ["wrote", ref written @ ..] => Some((Answer::Wrote, bytes(written)?)),
        ["turn", turn, ref standing @ .., ahead, "ahead", in_the_way, "in", "the", "way"] => {
            let (token, waiting) = standing_by(standing)?;
            plain(Answer::Report(Report {
                turn: number(turn)?,
                token,
                waiting,
                ahead: number(ahead)?,
                in_the_way: number(in_the_way)?,
            }))
        }
        _ => None,
    }
}

/// As many jobs as are counted.
fn listed(answer: fn(usize) -> Answer, count: &str, jobs: &[&str]) -> Option<(Answer, Vec<u8>)> {
    let jobs = bytes(jobs)?;
    (number(count) == Some(jobs.len())).then_some((answer(jobs.len()), jobs))
}

/// Whether a request has a token, and whether it waits.
fn standing_by(words: &[&str]) -> Option<(bool, bool)> {
    match words {
        ["token", "waiting"] => Some((true, true)),
        ["token", "not", "waiting"] => Some((true, false)),
        ["no", "token", "waiting"] => Some((false, true)),
        _ => None,
    }
}

fn bytes(words: &[&str]) -> Option<Vec<u8>> {
    words.iter().map(|word| number(word)).collect()
}
