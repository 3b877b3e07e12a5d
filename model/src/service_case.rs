//! Loading and saving service files, case by case: the layout of a row of such cases,
//! and what is printed of it.

use crate::answer::lent;
use crate::case::{table_from_bytes, table_to_bytes, TABLE};
use crate::probe::{print_list, print_table, Next};
use crate::service::{load, save};
use crate::stream::piece;
use crate::table::Table;
use std::fs;
use std::io::{self, Read, Write};
use std::path::Path;

/// The first byte of a case.
const LOAD: u8 = 0;
const SAVE: u8 = 1;

#[derive(Clone, Debug, PartialEq, Eq)]
pub enum ServiceCase {
    /// Of these bytes, at most 65,535.
    Load(Vec<u8>),
    Save {
        room: u16,
        table: Table,
    },
}

impl ServiceCase {
    pub fn to_bytes(&self) -> Vec<u8> {
        let (call, length, rest) = match self {
            ServiceCase::Load(file) => (LOAD, file.len() as u16, file.clone()),
            ServiceCase::Save { room, table } => (SAVE, *room, table_to_bytes(table)),
        };
        let mut bytes = vec![call];
        bytes.extend(length.to_be_bytes());
        bytes.extend(rest);
        bytes
    }
}

pub fn next_case(input: &mut impl Read) -> io::Result<Next<ServiceCase>> {
    let call = piece(input, 1)?;
    if call.is_empty() {
        return Ok(Next::End);
    }
    let Ok(length) = piece(input, 2)?.try_into().map(u16::from_be_bytes) else {
        return Ok(Next::Cut);
    };
    let case = match call[0] {
        LOAD => {
            let file = piece(input, usize::from(length))?;
            (file.len() == usize::from(length)).then_some(ServiceCase::Load(file))
        }
        SAVE => {
            let table = piece(input, TABLE)?;
            let whole: Option<&[u8; TABLE]> = table.as_slice().try_into().ok();
            whole.map(|bytes| ServiceCase::Save {
                room: length,
                table: table_from_bytes(bytes),
            })
        }
        _ => None,
    };
    Ok(case.map_or(Next::Cut, |case| Next::Case(Box::new(case))))
}

/// Writes each file that is to be loaded into the folder, by the number of its case.
pub fn unpack(mut input: impl Read, folder: &Path) -> io::Result<()> {
    for number in 1_u64.. {
        let Next::Case(case) = next_case(&mut input)? else {
            break;
        };
        if let ServiceCase::Load(file) = *case {
            fs::write(folder.join(number.to_string()), file)?;
        }
    }
    Ok(())
}

/// False if a file is not saved again as it was loaded; nothing is answered after it.
pub fn run(mut input: impl Read, mut out: impl Write) -> io::Result<bool> {
    let mut as_loaded = true;
    for number in 1_u64.. {
        match next_case(&mut input)? {
            Next::Case(case) => as_loaded = print(&mut out, number, &case)?,
            Next::Cut => {
                writeln!(out, "cut")?;
                break;
            }
            Next::End => break,
        }
        if !as_loaded {
            eprintln!("model: file {number} is not saved again as it was loaded");
            break;
        }
    }
    out.flush()?;
    Ok(as_loaded)
}

fn print(out: &mut impl Write, number: u64, case: &ServiceCase) -> io::Result<bool> {
    match case {
        ServiceCase::Load(file) => print_load(out, number, file),
        ServiceCase::Save { room, table } => print_save(out, number, *room, table).map(|()| true),
    }
}

/// After a refusal there is no table to keep, so the all-zero one is printed.
fn print_load(out: &mut impl Write, number: u64, file: &[u8]) -> io::Result<bool> {
    match load(file) {
        Ok(table) => {
            writeln!(out, "{number} done")?;
            print_table(out, &table)?;
            let mut room = lent(file.len() as u16);
            Ok(save(&table, &mut room) == Ok(file.len()) && room == file)
        }
        Err(refusal) => {
            writeln!(out, "{number} no {refusal}")?;
            print_table(out, &Table::zero())?;
            Ok(true)
        }
    }
}

fn print_save(out: &mut impl Write, number: u64, room: u16, table: &Table) -> io::Result<()> {
    let mut room = lent(room);
    match save(table, &mut room) {
        Ok(length) => writeln!(out, "{number} saved {length}")?,
        Err(refusal) => writeln!(out, "{number} no {refusal}")?,
    }
    print_list(out, &room)
}
