//! Recordings written by hand, as lines of text.
//!
//! ```text
//! start T R TICK LIMIT
//! beat TICK
//! open JOB TICK SET            (ask, release and giveup alike)
//! complete JOB TICK
//! bytes 22 80 ff               as they are, in hex: a damaged record or part of one
//! report JOB
//! overdue TICK
//! ```
//!
//! The records are in the form of document 02's request for text. The last two are
//! questions about the table as it is there: they are no part of the recording. A
//! `#` and what follows it say something to the reader, and empty lines are skipped.

use crate::answer::{answer, Answer};
use crate::case::{Call, Case};
use crate::record::LENGTH;
use crate::replay::Replay;
use crate::table::{Table, JOBS};
use std::io;

enum Line {
    Bytes(Vec<u8>),
    Question(Case),
}

/// The recording that the lines stand for.
pub fn recording(text: &str) -> io::Result<Vec<u8>> {
    let mut recording = Vec::new();
    for line in each(text, line) {
        if let Line::Bytes(bytes) = line? {
            recording.extend(bytes);
        }
    }
    Ok(recording)
}

/// The questions, each as a case for the probe.
pub fn questions(text: &str) -> io::Result<Vec<Vec<u8>>> {
    let mut recording = Vec::new();
    let mut questions = Vec::new();
    for line in each(text, line) {
        match line? {
            Line::Bytes(bytes) => recording.extend(bytes),
            Line::Question(mut case) => {
                case.table = table_after(&recording);
                questions.push(case.to_bytes());
            }
        }
    }
    Ok(questions)
}

/// All zero as long as there is none.
fn table_after(recording: &[u8]) -> Table {
    let mut replay = Replay::default();
    for bytes in recording.chunks(LENGTH) {
        replay.step(bytes);
    }
    replay.table.unwrap_or_else(Table::zero)
}

/// What `read` takes from the words of each line. One from which it takes nothing is
/// wrong.
pub fn each<'a, T>(
    text: &'a str,
    read: impl Fn(&[&str]) -> Option<T> + 'a,
) -> impl Iterator<Item = io::Result<T>> + 'a {
    let words = text.lines().map(|line| {
        let said = line.split('#').next().unwrap_or("");
        said.split_whitespace().collect::<Vec<&str>>()
    });
    let numbered = (1..).zip(words).filter(|(_, words)| !words.is_empty());
    numbered.map(move |(number, words)| {
        let wrong = || {
            io::Error::new(
                io::ErrorKind::InvalidData,
                format!("line {number} is wrong"),
            )
        };
        read(&words).ok_or_else(wrong)
    })
}

fn line(words: &[&str]) -> Option<Line> {
    if let ["bytes", ref bytes @ ..] = *words {
        let byte = |text: &&str| u8::from_str_radix(text, 16).ok();
        let bytes: Option<Vec<u8>> = bytes.iter().map(byte).collect();
        return bytes.map(Line::Bytes);
    }
    let case = call(words)?;
    match case.call.writing() {
        Some(writing) => record(Case {
            call: writing,
            ..case
        })
        .map(Line::Bytes),
        None => Some(Line::Question(case)),
    }
}

/// What is written, unless it is refused: no record carries job 64.
fn record(case: Case) -> Option<Vec<u8>> {
    let outcome = answer(&case);
    (outcome.answer == Answer::Wrote).then(|| outcome.list[..LENGTH].into())
}

/// The call that the words stand for, with numbers that would be refused too. It is
/// lent as long a list as any call needs. Of the table it says only what a start does.
pub fn call(words: &[&str]) -> Option<Case> {
    let case = |call, job, tick, set, table| {
        Some(Case {
            call,
            job: number(job)?,
            tick: number(tick)?,
            set: number(set)?,
            room: JOBS as u16,
            table,
        })
    };
    let none = Table::zero();
    match *words {
        ["start", tokens, resources, tick, limit] => {
            let wanted = Table::empty(number(tokens)?, number(resources)?, number(limit)?, 0);
            case(Call::Start, "0", tick, "0", wanted)
        }
        ["beat", tick] => case(Call::Beat, "0", tick, "0", none),
        ["open", job, tick, set] => case(Call::Open, job, tick, set, none),
        ["ask", job, tick, set] => case(Call::Ask, job, tick, set, none),
        ["release", job, tick, set] => case(Call::Release, job, tick, set, none),
        ["giveup", job, tick, set] => case(Call::GiveUp, job, tick, set, none),
        ["complete", job, tick] => case(Call::Complete, job, tick, "0", none),
        ["report", job] => case(Call::Report, job, "0", "0", none),
        ["overdue", tick] => case(Call::Overdue, "0", tick, "0", none),
        _ => None,
    }
}

pub fn number<N: std::str::FromStr>(text: &str) -> Option<N> {
    text.parse().ok()
}
