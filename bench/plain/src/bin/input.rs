//! Makes what the programs are measured on.
//!
//! ```text
//! input case CALL LIVE ORDER COUNT    COUNT times the same accepted call
//! input around CALL LIVE ORDER COUNT  the same, but a record is written instead, which is refused
//! input file CALL LIVE ORDER COUNT    COUNT times the same `save`, with room for the longest file, or `load`
//! input records CALLS LIVE COUNT      a recording: LIVE requests, then COUNT records of these calls in turn
//! ```
//!
//! ORDER is `rising` (turns in order of job) or `mixed`.

use std::io::{self, Write};

const JOBS: usize = 64;
const TOKENS: usize = 8;
const LIMIT: u64 = 1000;
/// Past the first wrap of the tick.
const TIME: u64 = 5_000_000_000;
const WRITE_OPEN: u8 = 9;
/// Of a service file's fields, in bits.
const HEAD_WIDTHS: [u32; 8] = [4, 6, 6, 32, 63, 63, 7, 3];
const ROW_WIDTHS: [u32; 7] = [6, 63, 64, 64, 64, 63, 4];
/// Bytes of the service file of a table in which every job has a request.
const LONGEST_FILE: u16 = 23 + 41 * JOBS as u16;

type Row = [u64; 5];

/// As a case holds it and a program shows it: T, R, limit, true time and last turn, then the rows.
struct Table {
    numbers: [u64; 5],
    rows: [Row; JOBS],
}

/// The call's number, job, set and length of the lent list.
struct Call {
    number: u8,
    job: usize,
    set: u64,
    length: u16,
    live: usize,
}

/// The job of the request at this place in line.
fn job_at(order: &str, place: usize) -> usize {
    match order {
        // An odd factor makes it go through all jobs once.
        "mixed" => (place * 37 + 11) % JOBS,
        _ => place,
    }
}

/// Neighbours in line are in each other's way. The first holds one of its two; the odd ones with a token have asked for
/// what their predecessor declared and wait, and so does whoever has no token. All waits are older than the limit.
fn rows(order: &str, live: usize) -> [Row; JOBS] {
    let mut rows = [[0; 5]; JOBS];
    for place in 0..live {
        let declared = 1 << (place % 16) | 1 << ((place + 1) % 16);
        let asks = place < TOKENS && place % 2 == 1;
        let asked = if asks { 1 << (place % 16) } else { 0 };
        let waits = asks || place >= TOKENS;
        let since = if waits {
            TIME - LIMIT - 500 + place as u64
        } else {
            0
        };
        let held = u64::from(place == 0);
        rows[job_at(order, place)] = [place as u64 + 1, declared, held, asked, since];
    }
    rows
}

/// Nothing where there is no such call: the ask that has to wait is of the third in line.
fn call(name: &str, live: usize, order: &str) -> Option<Call> {
    let first = job_at(order, 0);
    let third = || (live > 2).then(|| job_at(order, 2));
    // An opening needs an idle job.
    let fewer = live.min(JOBS - 1);
    let idle = || {
        let rows = rows(order, fewer);
        rows.iter().position(|row| row[0] == 0)
    };
    let (number, job, set, length, live) = match name {
        "beat" => (0, 0, 0, 0, live),
        "open" => (1, idle()?, 6, 0, fewer),
        "ask" => (2, first, 2, 0, live),
        "ask-wait" => (2, third()?, 4, 0, live),
        "release" => (3, first, 1, 0, live),
        "complete" => (4, first, 0, 64, live),
        // Of what the second in line, if there is one, has asked for: it is woken.
        "give-up" => (14, first, 2, 64, live),
        "report" => (5, job_at(order, live - 1), 0, 0, live),
        "overdue" => (6, 0, 0, 64, live),
        "start" => (7, 0, 0, 0, live),
        _ => return None,
    };
    Some(Call {
        number,
        job,
        set,
        length,
        live,
    })
}

fn table(order: &str, live: usize) -> Table {
    Table {
        numbers: [TOKENS as u64, 64, LIMIT, TIME, live as u64],
        rows: rows(order, live),
    }
}

fn table_bytes(table: &Table) -> Vec<u8> {
    let [tokens, resources, limit, time, last] = table.numbers;
    let mut bytes = vec![tokens as u8, resources as u8];
    bytes.extend((limit as u32).to_be_bytes());
    bytes.extend(time.to_be_bytes());
    bytes.extend(last.to_be_bytes());
    for number in table.rows.iter().flatten() {
        bytes.extend(number.to_be_bytes());
    }
    bytes
}

fn case(call: &Call, table: &Table) -> Vec<u8> {
    let mut bytes = vec![call.number];
    bytes.extend((call.job as u32).to_be_bytes());
    bytes.extend(((TIME + 10) as u32).to_be_bytes());
    bytes.extend(call.set.to_be_bytes());
    bytes.extend(call.length.to_be_bytes());
    bytes.extend(table_bytes(table));
    bytes
}

/// Numbers of these widths in bits, which make whole bytes together, most significant bit first.
fn packed(widths: &[u32], numbers: &[u64]) -> Vec<u8> {
    let mut bits = Vec::new();
    for (&width, number) in widths.iter().zip(numbers) {
        bits.extend((0..width).rev().map(|at| (number >> at & 1) as u8));
    }
    let byte = |bits: &[u8]| bits.iter().fold(0, |byte, bit| byte << 1 | bit);
    bits.chunks(8).map(byte).collect()
}

/// The table's service file.
fn file(order: &str, live: usize, table: &Table) -> Vec<u8> {
    let [tokens, resources, limit, time, last] = table.numbers;
    let (t, r, count) = (tokens - 1, resources - 1, live as u64);
    let mut bytes = packed(&HEAD_WIDTHS, &[1, t, r, limit, time, last, count, 0]);
    for job in (0..live).map(|place| job_at(order, place)) {
        let [turn, declared, held, asked, since] = table.rows[job];
        let row = [job as u64, turn, declared, held, asked, since, 0];
        bytes.extend(packed(&ROW_WIDTHS, &row));
    }
    bytes
}

/// The length is that of the file, or of the room that is lent for it.
fn service_case(call: &str, order: &str, live: usize) -> Option<Vec<u8>> {
    let table = table(order, live);
    let (number, length, rest) = match call {
        "load" => {
            let file = file(order, live, &table);
            (0, file.len() as u16, file)
        }
        "save" => (1, LONGEST_FILE, table_bytes(&table)),
        _ => return None,
    };
    let mut bytes = vec![number];
    bytes.extend(length.to_be_bytes());
    bytes.extend(rest);
    Some(bytes)
}

fn record(kind: u16, job: usize, tick: u32, set: u64) -> Vec<u8> {
    let head = kind << 13 | (job as u16) << 7;
    let mut bytes = head.to_be_bytes().to_vec();
    bytes.extend(tick.to_be_bytes());
    bytes.extend(set.to_be_bytes());
    bytes
}

/// The calls go round; each pair leaves the table as it was. The oldest request, job 0, asks and releases; job 63, which
/// has no resource in common with the others, opens and completes.
fn records(calls: &str, live: usize, count: usize) -> Vec<u8> {
    let around: &[(u16, usize, u64)] = match calls {
        "ask-release" => &[(2, 0, 1), (3, 0, 1)],
        "open-complete" => &[(1, 63, 1 << 63), (4, 63, 0)],
        _ => &[(0, 0, 0)],
    };
    let mut bytes = record(5, 63, 0, LIMIT << 32);
    bytes[1] |= 63 << 1;
    for job in 0..live {
        bytes.extend(record(1, job, 0, 1 << (job % 16) | 1 << ((job + 1) % 16)));
    }
    for i in 0..count {
        let (kind, job, set) = around[i % around.len()];
        bytes.extend(record(kind, job, i as u32 / 4, set));
    }
    bytes
}

fn made(words: &[&str]) -> Option<Vec<u8>> {
    let number = |text: &str| text.parse::<usize>().ok();
    match *words {
        [what @ ("case" | "around"), name, live, order, count] => {
            let mut call = call(name, number(live)?, order)?;
            if what == "around" {
                call.number = WRITE_OPEN;
                call.job = JOBS;
            }
            let table = table(order, call.live);
            Some(case(&call, &table).repeat(number(count)?))
        }
        ["file", name, live, order, count] => {
            let case = service_case(name, order, number(live)?)?;
            Some(case.repeat(number(count)?))
        }
        ["records", calls, live, count] => Some(records(calls, number(live)?, number(count)?)),
        _ => None,
    }
}

/// Makes nothing, and fails, where there is no such call.
fn main() -> io::Result<()> {
    let words: Vec<String> = std::env::args().skip(1).collect();
    let words: Vec<&str> = words.iter().map(String::as_str).collect();
    let bytes = made(&words).ok_or_else(|| io::Error::other("there is no such call"))?;
    io::stdout().write_all(&bytes)
}
