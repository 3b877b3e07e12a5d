//! The probe: any call on any table, with all that it leaves behind.

use crate::answer::{answer, Outcome};
use crate::case::{Call, Case, CASE};
use crate::stream::piece;
use crate::table::{Row, Table};
use std::io::{self, Read, Write};

/// The next piece of a row of cases.
pub enum Next<C> {
    Case(Box<C>),
    /// Too short, or of a call that doesn't exist.
    Cut,
    End,
}

pub fn next_case(input: &mut impl Read) -> io::Result<Next<Case>> {
    let bytes = piece(input, CASE)?;
    if bytes.is_empty() {
        return Ok(Next::End);
    }
    let whole: Option<&[u8; CASE]> = bytes.as_slice().try_into().ok();
    Ok(whole
        .and_then(Case::from_bytes)
        .map_or(Next::Cut, |case| Next::Case(Box::new(case))))
}

pub fn run(mut input: impl Read, mut out: impl Write) -> io::Result<()> {
    for number in 1_u64.. {
        match next_case(&mut input)? {
            Next::Case(case) => print(&mut out, number, case.call, &answer(&case))?,
            Next::Cut => {
                writeln!(out, "cut")?;
                break;
            }
            Next::End => break,
        }
    }
    out.flush()
}

pub fn print(out: &mut impl Write, number: u64, call: Call, outcome: &Outcome) -> io::Result<()> {
    writeln!(out, "{number} {}", outcome.answer)?;
    if call.has_list() {
        print_list(out, &outcome.list)?;
    }
    if !call.writes() {
        print_table(out, &outcome.table)?;
    }
    Ok(())
}

pub fn print_list(out: &mut impl Write, list: &[u8]) -> io::Result<()> {
    write!(out, "list")?;
    for entry in list {
        write!(out, " {entry}")?;
    }
    writeln!(out)
}

pub fn print_table(out: &mut impl Write, table: &Table) -> io::Result<()> {
    write!(out, "table {} {}", table.tokens, table.resources)?;
    write!(out, " {} {} {}", table.limit, table.time, table.last_turn)?;
    for (job, row) in table.rows.iter().enumerate() {
        if *row != Row::default() {
            write!(out, " {job}:{},{},", row.turn, row.declared)?;
            write!(out, "{},{},{}", row.held, row.asked, row.since)?;
        }
    }
    writeln!(out)
}
