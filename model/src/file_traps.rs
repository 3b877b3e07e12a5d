//! What a service case is: how a file compares with the one accepted before it, what
//! its head says and its length is, what a table has at its ends, how large a room is.

use crate::clock::TOP;
use crate::files;
use crate::flips;
use crate::layout::{Layout, HEAD, LONGEST, ROW};
use crate::service::{has_its_length, length, VERSION};
use crate::sound;
use crate::table::{Table, JOBS};

/// What a file is to the last accepted one, besides a flip of a bit.
const CHANGES: [&str; 7] = [
    "cut by a byte",
    "cut by a row",
    "longer by a byte",
    "longer by a row",
    "two rows swapped",
    "a row doubled and counted",
    "a row doubled and not counted",
];

/// What a file is on its own, besides what its version, count and length are.
const TRAPS: [&str; 3] = [
    "longer than any table's file",
    "unknown version under 23 bytes",
    "more rows than jobs, turns ascending",
];

/// The rooms of `files::room_for`.
const ROOMS: [&str; files::ROOMS as usize] = [
    "0 bytes",
    "22 bytes",
    "23 bytes",
    "one byte short",
    "exact",
    "one byte more",
    "2647 bytes",
    "65535 bytes",
];

/// Numbers at their ends, in a table that was loaded.
const ENDS: [&str; 7] = [
    "limit 1",
    "limit highest",
    "time highest",
    "last turn highest",
    "turn highest",
    "since highest",
    DECLARES_NOTHING,
];

/// In a live row, which must have its token then.
const DECLARES_NOTHING: &str = "declared set empty";

/// All that the makers step through, so that it is met in any row that is long enough.
pub fn stepped() -> Vec<String> {
    let flips = flips::names();
    let mut names: Vec<String> = flips.iter().map(|name| format!("flip {name}")).collect();
    names.extend(CHANGES.map(|change| format!("change {change}")));
    names.extend(TRAPS.map(|trap| format!("trap {trap}")));
    names.extend((0..=HEAD).map(|size| format!("size {size}")));
    for (what, most) in [("version", 15), ("count", 127)] {
        for number in 0..=most {
            names.extend([true, false].map(|its| with_length(what, number, its)));
        }
    }
    for number in 1..=64 {
        names.extend(["tokens", "resources"].map(|what| format!("loaded {what} {number}")));
    }
    names.extend((0..=JOBS).map(|rows| format!("loaded rows {rows}")));
    names.extend([0, 1, 2, JOBS].map(saved_rows));
    for sound in [true, false] {
        names.extend(ROOMS.map(|room| for_table(room, sound)));
    }
    names
}

/// What is left to chance.
pub fn drawn() -> Vec<String> {
    let mut names: Vec<String> = ENDS.map(|end| format!("loaded {end}")).into();
    names.push(format!("saved {DECLARES_NOTHING}"));
    names
}

fn with_length(what: &str, number: u64, its: bool) -> String {
    let which = if its { "its" } else { "another" };
    format!("{what} {number} with {which} length")
}

fn saved_rows(rows: usize) -> String {
    match rows {
        0 | 1 | JOBS => format!("saved rows {rows}"),
        _ => "saved rows between".to_string(),
    }
}

fn for_table(room: &str, sound: bool) -> String {
    let which = if sound { "a sound" } else { "an unsound" };
    format!("room {room} for {which} table")
}

/// What the bytes of a file are, on their own and beside the last accepted ones.
pub fn of_file(accepted: &[u8], file: &[u8]) -> Vec<String> {
    let mut met = Vec::new();
    if file.len() <= HEAD {
        met.push(format!("size {}", file.len()));
    }
    if file.len() > LONGEST {
        met.push("trap longer than any table's file".to_string());
    }
    let version = file.first().map(|byte| u64::from(byte >> 4));
    if file.len() < HEAD && version.is_some_and(|version| version != VERSION) {
        met.push("trap unknown version under 23 bytes".to_string());
    }
    if let Some(layout) = Layout::of(file) {
        met.extend(of_head(file, &layout));
    }
    met.extend(changes(accepted, file));
    met
}

fn of_head(file: &[u8], layout: &Layout) -> Vec<String> {
    let head = &layout.head;
    let its = has_its_length(file, layout);
    let mut met = vec![with_length("version", head.version, its)];
    if head.version == VERSION {
        met.push(with_length("count", head.count, its));
    }
    let ascending = layout.rows.windows(2).all(|two| two[0].turn < two[1].turn);
    if head.version == VERSION && its && head.count > JOBS as u64 && ascending {
        met.push("trap more rows than jobs, turns ascending".to_string());
    }
    met
}

fn changes(accepted: &[u8], file: &[u8]) -> Vec<String> {
    let (before, now) = (accepted.len(), file.len());
    let cut = accepted.starts_with(file);
    let longer = before > 0 && file.starts_with(accepted);
    let doubled = row_doubled(accepted, file);
    let holds = [
        cut && now + 1 == before,
        cut && now + ROW == before,
        longer && before + 1 == now,
        longer && before + ROW == now,
        rows_swapped(accepted, file),
        doubled == Some(true),
        doubled == Some(false),
    ];
    let changes = CHANGES.iter().zip(holds).filter(|(_, holds)| *holds);
    let changes = changes.map(|(change, _)| format!("change {change}"));
    let flip = flips::between(accepted, file).map(|name| format!("flip {name}"));
    changes.chain(flip).collect()
}

/// Whether the files are the same except for two rows that have changed places.
fn rows_swapped(accepted: &[u8], file: &[u8]) -> bool {
    let (Some(mut before), Some(now)) = (Layout::of(accepted), Layout::of(file)) else {
        return false;
    };
    let rows = before.rows.iter().zip(&now.rows);
    let moved: Vec<usize> = (0..)
        .zip(rows)
        .filter(|(_, (a, b))| a != b)
        .map(|(place, _)| place)
        .collect();
    if let [one, other] = moved[..] {
        before.rows.swap(one, other);
    }
    moved.len() == 2 && before == now
}

/// Whether the file is the accepted one with a row twice: true if that is counted.
fn row_doubled(accepted: &[u8], file: &[u8]) -> Option<bool> {
    let (before, mut now) = (Layout::of(accepted)?, Layout::of(file)?);
    let place = now.rows.windows(2).position(|two| two[0] == two[1])?;
    now.rows.remove(place);
    let counted = now.head.count == before.head.count + 1;
    now.head.count -= u64::from(counted);
    (now == before && file.len() == accepted.len() + ROW).then_some(counted)
}

/// What an accepted file's table has.
pub fn of_loaded(table: &Table) -> Vec<String> {
    let rows = (length(table) - HEAD) / ROW;
    let mut met = vec![
        format!("loaded tokens {}", table.tokens),
        format!("loaded resources {}", table.resources),
        format!("loaded rows {rows}"),
    ];
    let holds = [
        table.limit == 1,
        table.limit == u32::MAX,
        table.time == TOP,
        table.last_turn == TOP,
        table.rows.iter().any(|row| row.turn == TOP),
        table.rows.iter().any(|row| row.since == TOP),
        declares_nothing(table),
    ];
    let ends = ENDS.iter().zip(holds).filter(|(_, holds)| *holds);
    met.extend(ends.map(|(end, _)| format!("loaded {end}")));
    met
}

fn declares_nothing(table: &Table) -> bool {
    let mut live = table.rows.iter().filter(|row| row.turn != 0);
    live.any(|row| row.declared == 0)
}

/// What a table is to the room that it is saved in.
pub fn of_save(room: u16, table: &Table) -> Vec<String> {
    let sound = sound::is_sound(table);
    let rooms = ROOMS.iter().zip(0..);
    let rooms = rooms.filter(|(_, which)| files::room_for(table, *which) == room);
    let mut met: Vec<String> = rooms.map(|(name, _)| for_table(name, sound)).collect();
    if sound && usize::from(room) >= length(table) {
        met.push(saved_rows((length(table) - HEAD) / ROW));
        let empty = declares_nothing(table).then(|| format!("saved {DECLARES_NOTHING}"));
        met.extend(empty);
    }
    met
}
