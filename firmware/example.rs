//! The night of day fifty as firmware in Rust hands it to the arbiter: `example.c` again, behind a thin safe wrapper.
//!
//! ```text
//! example RECORDING >listing 2>answers
//! ```
//!
//! Each event is recorded before it is handed over, refused ones too: the replay refuses them alike. Standard output
//! is what `bin/replay` prints of RECORDING, and standard error has the answers to the questions.

use std::fs::File;
use std::io::{self, Write};
use std::process::ExitCode;

/// The declarations of `norakkeun.h` in Rust.
mod raw {
    #[repr(C)]
    #[derive(Clone, Copy)]
    pub struct Tick(pub u32);

    #[repr(C)]
    #[derive(Clone, Copy)]
    pub struct Turn(pub u64);

    #[repr(C)]
    #[derive(Clone, Copy)]
    pub struct Row {
        pub turn: Turn,
        pub declared: u64,
        pub held: u64,
        pub asked: u64,
        pub since: u64,
    }

    #[repr(C)]
    #[derive(Clone, Copy)]
    pub struct Table {
        pub tokens: u32,
        pub resources: u32,
        pub limit: u32,
        pub time: u64,
        pub last: Turn,
        pub rows: [Row; super::JOBS],
    }

    #[repr(C)]
    pub struct Told {
        pub refusal: u32,
        pub said: u32,
        pub woken: u32,
        pub table: Table,
    }

    #[repr(C)]
    pub struct Answer {
        pub refusal: u32,
        pub said: u32,
        pub woken: u32,
    }

    #[repr(C)]
    #[derive(Clone, Copy)]
    pub struct Report {
        pub turn: Turn,
        pub token: bool,
        pub waiting: bool,
        pub ahead: u32,
        pub in_way: u32,
    }

    #[repr(C)]
    pub struct JobReport {
        pub refusal: u32,
        pub report: Report,
    }

    #[repr(C)]
    pub struct LateJobs {
        pub refusal: u32,
        pub count: u32,
    }

    #[repr(C)]
    pub struct Saved {
        pub refusal: u32,
        pub length: u32,
    }

    #[rustfmt::skip]
    #[link(name = "norakkeun", kind = "static")]
    extern "C" {
        pub fn norakkeun_version() -> u32;
        pub fn norakkeun_start(tokens: u32, resources: u32, tick: Tick, limit: u32) -> Told;
        pub fn norakkeun_beat_in(table: *mut Table, tick: Tick) -> Answer;
        pub fn norakkeun_open_in(table: *mut Table, job: u32, tick: Tick, set: u64) -> Answer;
        pub fn norakkeun_ask_in(table: *mut Table, job: u32, tick: Tick, set: u64) -> Answer;
        pub fn norakkeun_release_in(table: *mut Table, job: u32, tick: Tick, set: u64) -> Answer;
        pub fn norakkeun_complete_in(table: *mut Table, job: u32, tick: Tick, woken: *mut u8, length: usize) -> Answer;
        pub fn norakkeun_report_of(table: *const Table, job: u32) -> JobReport;
        pub fn norakkeun_overdue_of(table: *const Table, tick: Tick, late: *mut u8, length: usize) -> LateJobs;
        pub fn norakkeun_record_start(
            tokens: u32, resources: u32, tick: Tick, limit: u32, room: *mut u8, length: usize,
        ) -> u32;
        pub fn norakkeun_record_beat(tick: Tick, room: *mut u8, length: usize) -> u32;
        pub fn norakkeun_record_open(job: u32, tick: Tick, set: u64, room: *mut u8, length: usize) -> u32;
        pub fn norakkeun_record_ask(job: u32, tick: Tick, set: u64, room: *mut u8, length: usize) -> u32;
        pub fn norakkeun_record_release(job: u32, tick: Tick, set: u64, room: *mut u8, length: usize) -> u32;
        pub fn norakkeun_record_complete(job: u32, tick: Tick, room: *mut u8, length: usize) -> u32;
        pub fn norakkeun_save(table: Table, room: *mut u8, length: usize) -> Saved;
        pub fn norakkeun_load(file: *const u8, length: usize) -> Told;
    }
}

use raw::{Answer, Report, Table, Tick};

/// Of the archive that these declarations belong to.
const VERSION: u32 = 1;

const JOBS: usize = 64;
const RECORD: usize = 14;
const LONGEST_FILE: usize = 2647;

const TOKENS: u32 = 2;
const RESOURCES: u32 = 3;
const LIMIT_MS: u32 = 50;

const CURRENT_CONTROL: u32 = 3;
const BRAKE: u32 = 7;
const DISPLAY: u32 = 12;
const TELEMETRY: u32 = 20;
const NO_SUCH_JOB: u32 = 64;

const ENCODER_BUS: u64 = 1;
const GATE_DRIVER: u64 = 2;

/// Jobs that a call has listed, in order of turn.
struct Jobs {
    list: [u8; JOBS],
    count: usize,
}

impl Jobs {
    fn listed(&self) -> &[u8] {
        &self.list[..self.count]
    }
}

/// The answer to an accepted event.
enum Said {
    Token,
    Granted,
    Wait,
    Done,
    Woke(Jobs),
}

/// An event, as a job or a timer says it.
#[derive(Clone, Copy)]
enum Event {
    Beat(Tick),
    Open(u32, Tick, u64),
    Ask(u32, Tick, u64),
    Release(u32, Tick, u64),
    Complete(u32, Tick),
}

/// The value where the refusal is 0.
fn unless_refused<T>(refusal: u32, value: T) -> Result<T, u32> {
    if refusal == 0 {
        Ok(value)
    } else {
        Err(refusal)
    }
}

/// The record of a start, or the refusal.
fn record_start(tick: Tick) -> Result<[u8; RECORD], u32> {
    let mut room = [0; RECORD];
    let at = room.as_mut_ptr();
    // SAFETY: the room is lent for the call alone, with its own length.
    let refusal =
        unsafe { raw::norakkeun_record_start(TOKENS, RESOURCES, tick, LIMIT_MS, at, RECORD) };
    unless_refused(refusal, room)
}

/// The record of an event, or the refusal.
fn record(event: Event) -> Result<[u8; RECORD], u32> {
    let mut room = [0; RECORD];
    let at = room.as_mut_ptr();
    // SAFETY: the room is lent for the call alone, with its own length.
    let refusal = unsafe {
        match event {
            Event::Beat(tick) => raw::norakkeun_record_beat(tick, at, RECORD),
            Event::Open(job, tick, set) => raw::norakkeun_record_open(job, tick, set, at, RECORD),
            Event::Ask(job, tick, set) => raw::norakkeun_record_ask(job, tick, set, at, RECORD),
            Event::Release(job, tick, set) => {
                raw::norakkeun_record_release(job, tick, set, at, RECORD)
            }
            Event::Complete(job, tick) => raw::norakkeun_record_complete(job, tick, at, RECORD),
        }
    };
    unless_refused(refusal, room)
}

/// The only state that the arbiter has.
struct Arbiter {
    table: Table,
}

impl Arbiter {
    fn start(tick: Tick) -> Result<Arbiter, u32> {
        // SAFETY: nothing is lent, and any numbers may be handed in.
        let told = unsafe { raw::norakkeun_start(TOKENS, RESOURCES, tick, LIMIT_MS) };
        unless_refused(told.refusal, Arbiter { table: told.table })
    }

    /// The answer; after a refusal the table is as it was.
    fn take(&mut self, event: Event) -> Result<Said, u32> {
        let table = &mut self.table;
        let mut list = [0; JOBS];
        let woken = list.as_mut_ptr();
        // SAFETY: the table and the list, with its own length, are lent for the call alone and lie apart; any table will do.
        let answer = unsafe {
            match event {
                Event::Beat(tick) => raw::norakkeun_beat_in(table, tick),
                Event::Open(job, tick, set) => raw::norakkeun_open_in(table, job, tick, set),
                Event::Ask(job, tick, set) => raw::norakkeun_ask_in(table, job, tick, set),
                Event::Release(job, tick, set) => raw::norakkeun_release_in(table, job, tick, set),
                Event::Complete(job, tick) => {
                    raw::norakkeun_complete_in(table, job, tick, woken, JOBS)
                }
            }
        };
        said(&answer, list)
    }

    fn report(&self, job: u32) -> Result<Report, u32> {
        // SAFETY: the table is lent for the call alone, and any table will do.
        let told = unsafe { raw::norakkeun_report_of(&self.table, job) };
        unless_refused(told.refusal, told.report)
    }

    fn overdue(&self, tick: Tick) -> Result<Jobs, u32> {
        let mut list = [0; JOBS];
        // SAFETY: the table and the list, with its own length, are lent for the call alone; any table will do.
        let told = unsafe { raw::norakkeun_overdue_of(&self.table, tick, list.as_mut_ptr(), JOBS) };
        let count = told.count as usize;
        unless_refused(told.refusal, Jobs { list, count })
    }

    /// The table's service file, or the refusal.
    fn save(&self) -> Result<Vec<u8>, u32> {
        let mut room = vec![0; LONGEST_FILE];
        // SAFETY: the room is lent for the call alone, with its own length; any table may be handed in.
        let saved = unsafe { raw::norakkeun_save(self.table, room.as_mut_ptr(), LONGEST_FILE) };
        room.truncate(saved.length as usize);
        unless_refused(saved.refusal, room)
    }

    /// An arbiter that goes on where the file was made.
    fn load(file: &[u8]) -> Result<Arbiter, u32> {
        // SAFETY: the file is lent for the call alone, with its own length; any bytes may be handed in.
        let told = unsafe { raw::norakkeun_load(file.as_ptr(), file.len()) };
        unless_refused(told.refusal, Arbiter { table: told.table })
    }
}

fn said(answer: &Answer, list: [u8; JOBS]) -> Result<Said, u32> {
    match answer.said {
        0 => Err(answer.refusal),
        1 => Ok(Said::Token),
        2 => Ok(Said::Granted),
        3 => Ok(Said::Wait),
        4 => Ok(Said::Done),
        _ => {
            let count = answer.woken as usize;
            Ok(Said::Woke(Jobs { list, count }))
        }
    }
}

/// What comes in: events, which change the table, and questions, which do not; and a spare drive takes over.
enum Message {
    Event(Event),
    Report(u32),
    Overdue(Tick),
    TakeOver,
}

/// On day fifty of the counter, in the last hour before its wrap.
const START: Tick = Tick(4291500000);

/// What came in that night. A drive would take it from a queue.
#[rustfmt::skip]
fn night() -> [Message; 24] {
    use Event::{Ask, Beat, Complete, Open, Release};
    use Message::{Event as E, Overdue, Report, TakeOver};
    [
        E(Beat(Tick(4293300000))), // half an hour on: the clock must hear something at least every hour
        E(Beat(Tick(4294967000))), // 296 ms before the wrap
        E(Open(CURRENT_CONTROL, Tick(4294967230), GATE_DRIVER)),
        E(Ask(CURRENT_CONTROL, Tick(4294967231), GATE_DRIVER)),
        E(Open(BRAKE, Tick(4294967240), ENCODER_BUS | GATE_DRIVER)),
        E(Ask(BRAKE, Tick(4294967240), ENCODER_BUS | GATE_DRIVER)),
        Report(BRAKE),
        Overdue(Tick(4294967289)), // 49 ms: nobody
        Overdue(Tick(4294967290)), // 50 ms: the brake
        E(Open(DISPLAY, Tick(4), ENCODER_BUS)), // after the wrap
        E(Open(TELEMETRY, Tick(5), GATE_DRIVER)),
        E(Ask(DISPLAY, Tick(6), ENCODER_BUS)), // refused: no token
        Overdue(Tick(6)), // the first test after the wrap: still the brake
        Report(BRAKE),
        TakeOver, // with the brake still waiting
        E(Complete(CURRENT_CONTROL, Tick(20))),
        E(Ask(DISPLAY, Tick(21), ENCODER_BUS)),
        E(Open(NO_SUCH_JOB, Tick(30), ENCODER_BUS)), // refused as 4, and without a record: the next one has number 13
        E(Release(BRAKE, Tick(40), ENCODER_BUS)),
        E(Complete(BRAKE, Tick(60))),
        E(Ask(TELEMETRY, Tick(61), GATE_DRIVER)),
        E(Beat(Tick(4294967295))), // refused: a stale tick
        E(Complete(DISPLAY, Tick(70))),
        E(Complete(TELEMETRY, Tick(71))),
    ]
}

fn words(jobs: &Jobs) -> String {
    jobs.listed().iter().map(|job| format!(" {job}")).collect()
}

/// What the replay prints of an answer.
fn listed(answer: &Result<Said, u32>) -> String {
    match answer {
        Err(refusal) => format!("no {refusal}"),
        Ok(Said::Wait) => "wait".to_string(),
        Ok(Said::Token | Said::Granted | Said::Done) => "ok".to_string(),
        Ok(Said::Woke(woken)) => format!("ok{}", words(woken)),
    }
}

fn reported(answer: Result<Report, u32>) -> String {
    match answer {
        Err(refusal) => format!("no {refusal}"),
        Ok(r) => {
            let (token, waiting) = (u8::from(r.token), u8::from(r.waiting));
            format!(
                "report {} {token} {waiting} {} {}",
                r.turn.0, r.ahead, r.in_way
            )
        }
    }
}

fn late(answer: Result<Jobs, u32>) -> String {
    match answer {
        Err(refusal) => format!("no {refusal}"),
        Ok(jobs) => format!("overdue {}{}", jobs.count, words(&jobs)),
    }
}

/// A recording, and how many records it has: counted are records, not calls, as in the listing.
struct Recording {
    file: File,
    number: u32,
}

impl Recording {
    /// The number of the record. Only a job above 63, or a start whose numbers do not fit, has none; these change no table.
    fn keep(&mut self, record: Result<[u8; RECORD], u32>) -> io::Result<Option<u32>> {
        let Ok(bytes) = record else {
            return Ok(None);
        };
        self.file.write_all(&bytes)?;
        self.number += 1;
        Ok(Some(self.number))
    }
}

fn run(file: File) -> io::Result<()> {
    let mut recording = Recording { file, number: 0 };
    recording.keep(record_start(START))?;
    let mut arbiter = Arbiter::start(START).expect("the numbers of the start are in range");
    println!("{} ok", recording.number);
    for message in night() {
        match message {
            // Recorded, handed over, and the answer acted on, in this order. What has no record was refused and has no line.
            Message::Event(event) => {
                let number = recording.keep(record(event))?;
                let answer = arbiter.take(event);
                if let Some(number) = number {
                    println!("{number} {}", listed(&answer));
                }
            }
            Message::Report(job) => eprintln!("{}", reported(arbiter.report(job))),
            Message::Overdue(tick) => eprintln!("{}", late(arbiter.overdue(tick))),
            Message::TakeOver => match arbiter.save().and_then(|file| Arbiter::load(&file)) {
                Ok(spare) => arbiter = spare,
                Err(refusal) => eprintln!("no {refusal}"),
            },
        }
    }
    let live = arbiter
        .table
        .rows
        .iter()
        .filter(|row| row.turn.0 != 0)
        .count();
    println!("end {live} {}", live.min(arbiter.table.tokens as usize));
    Ok(())
}

fn main() -> ExitCode {
    // SAFETY: nothing is handed over.
    let version = unsafe { raw::norakkeun_version() };
    if version != VERSION {
        eprintln!("example: the archive has version {version}, these declarations {VERSION}");
        return ExitCode::FAILURE;
    }
    let Some(path) = std::env::args().nth(1) else {
        eprintln!("usage: example RECORDING");
        return ExitCode::from(2);
    };
    match File::create(path).and_then(run) {
        Ok(()) => ExitCode::SUCCESS,
        Err(error) => {
            eprintln!("the recording: {error}");
            ExitCode::from(2)
        }
    }
}
