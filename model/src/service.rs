//! Service files: a table as bytes, and back (document 02, request 1).
//!
//! Each refusal is judged on its own, so that those that apply together can be counted;
//! the first in its order is the one given. What stands in a file is judged by the
//! layout of version 1 as far as its bytes go, also where the version or the length is
//! wrong: that is what a reader would see that looks at things in another order.

use crate::answer::put;
use crate::layout::{FileRow, Layout, HEAD, ROW};
use crate::sound;
use crate::table::{Table, JOBS};

/// The only version there is.
pub const VERSION: u64 = 1;

/// The refusals of loading, in the order in which they are given.
pub const LOADING: [u8; 4] = [21, 22, 19, 3];

/// The refusals of saving, in the order in which they are given.
pub const SAVING: [u8; 2] = [3, 21];

type RowsClause = (&'static str, fn(&[FileRow]) -> bool);

/// What the rows of a file must meet, beside what makes their table sound.
const OF_ROWS: [RowsClause; 4] = [
    ("turns-above-0", |rows| rows.iter().all(|row| row.turn > 0)),
    ("turns-ascending", |rows| {
        rows.windows(2).all(|two| two[0].turn < two[1].turn)
    }),
    ("jobs-once", |rows| {
        let of = |job| rows.iter().filter(|row| row.job == job).count();
        rows.iter().all(|row| of(row.job) == 1)
    }),
    ("no-more-rows-than-jobs", |rows| rows.len() <= JOBS),
];

/// The names of all that the rows of a file must meet.
pub fn clauses_of_rows() -> impl Iterator<Item = &'static str> {
    OF_ROWS.iter().map(|(name, _)| *name)
}

/// The names of what the rows do not meet and of the clauses that their table breaks.
pub fn broken(layout: &Layout) -> Vec<&'static str> {
    let rows = layout.counted();
    let of_rows = OF_ROWS.iter().filter(|(_, holds)| !holds(rows));
    let mut broken: Vec<&str> = of_rows.map(|(name, _)| *name).collect();
    broken.extend(sound::broken(&layout.table()));
    broken
}

/// The file of a sound table.
pub fn file(table: &Table) -> Vec<u8> {
    Layout::of_table(VERSION, table).bytes()
}

/// Bytes of a table's file, for which only the number of live rows matters.
pub fn length(table: &Table) -> usize {
    let live = table.rows.iter().filter(|row| row.turn != 0).count();
    HEAD + ROW * live
}

/// Whether the file is as long as its count says.
pub fn has_its_length(file: &[u8], layout: &Layout) -> bool {
    file.len() == HEAD + ROW * layout.head.count as usize
}

/// All refusals that apply to loading these bytes, the one given first.
pub fn refusing_load(file: &[u8]) -> impl Iterator<Item = u8> + '_ {
    let layout = Layout::of(file);
    LOADING.into_iter().filter(move |&number| match &layout {
        // Without a whole head only a file's length is known.
        None => number == 21,
        Some(layout) => load_refuses(number, file, layout),
    })
}

fn load_refuses(number: u8, file: &[u8], layout: &Layout) -> bool {
    let known = layout.head.version == VERSION;
    match number {
        21 => known && !has_its_length(file, layout),
        22 => !known,
        19 => {
            let stray_in_rows = layout.counted().iter().any(|row| row.zero != 0);
            layout.head.zero != 0 || stray_in_rows
        }
        _ => !broken(layout).is_empty(),
    }
}

/// The table of a file, or the number of the refusal.
pub fn load(file: &[u8]) -> Result<Table, u8> {
    if let Some(number) = refusing_load(file).next() {
        return Err(number);
    }
    let layout = Layout::of(file).expect("refusal 21 comes first");
    Ok(layout.table())
}

/// All refusals that apply to saving into a room of this length, the one given first.
pub fn refusing_save(table: &Table, room: usize) -> impl Iterator<Item = u8> + '_ {
    SAVING.into_iter().filter(move |&number| match number {
        3 => !sound::is_sound(table),
        _ => room < length(table),
    })
}

/// Puts the file at the front of the room and gives its length, or the number of the
/// refusal.
pub fn save(table: &Table, room: &mut [u8]) -> Result<usize, u8> {
    if let Some(number) = refusing_save(table, room.len()).next() {
        return Err(number);
    }
    let file = file(table);
    put(room, &file);
    Ok(file.len())
}
