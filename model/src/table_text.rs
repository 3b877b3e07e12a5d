//! What the program table prints: a service file as text, and the file of a recording.

use crate::layout::Layout;
use crate::replay::{walk, Said};
use crate::service::{file, load, VERSION};
use crate::table::Table;
use std::io::{self, Read, Write};

/// Prints the table of a file and its live rows by turn, or the refusal.
pub fn show(file: &[u8], mut out: impl Write) -> io::Result<()> {
    match load(file) {
        Err(number) => writeln!(out, "no {number}")?,
        Ok(table) => lines(&table, &mut out)?,
    }
    out.flush()
}

/// A table and its live rows by turn.
pub fn lines(table: &Table, out: &mut impl Write) -> io::Result<()> {
    let rows = Layout::of_table(VERSION, table).rows;
    write!(out, "table {} {}", table.tokens, table.resources)?;
    write!(out, " {} {} {}", table.limit, table.time, table.last_turn)?;
    writeln!(out, " {}", rows.len())?;
    for row in &rows {
        write!(out, "row {} {} {}", row.job, row.turn, row.declared)?;
        writeln!(out, " {} {} {}", row.held, row.asked, row.since)?;
    }
    Ok(())
}

/// The file of the table that a recording leaves, or the refusal of its first record.
pub fn file_of_recording(recording: impl Read) -> io::Result<Result<Vec<u8>, u8>> {
    let mut first = None;
    let table = walk(recording, |step| {
        first.get_or_insert(step.said.clone());
        Ok(())
    })?;
    Ok(match first {
        Some(Said::No(number)) => Err(number),
        _ => Ok(file(&table)),
    })
}
