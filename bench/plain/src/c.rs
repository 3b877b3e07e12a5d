//! The plain arbiter as C calls it, so that its calls can be counted as Norakkeun's in place are: `plain_` for
//! `norakkeun_`, otherwise the names, arguments, answers and layouts of `norakkeun.h`, and the soundness test in every call.

pub mod arbiter;
mod bytes;

use arbiter::{Report, Said, Table};
use std::mem::{offset_of, size_of};

/// As `firmware/against_model.c` has it of the header.
const _: () = assert!(size_of::<Table>() == 2592 && offset_of!(Table, time) == 16);
const _: () = assert!(size_of::<Answer>() == 12 && size_of::<JobReport>() == 32);

#[repr(C)]
pub struct Tick {
    count: u32,
}

#[repr(C)]
pub struct Answer {
    refusal: u32,
    said: u32,
    woken: u32,
}

#[repr(C)]
pub struct JobReport {
    refusal: u32,
    report: Report,
}

#[repr(C)]
pub struct LateJobs {
    refusal: u32,
    count: u32,
}

impl From<Result<Said, u8>> for Answer {
    #[inline(always)]
    fn from(told: Result<Said, u8>) -> Answer {
        let (refusal, said, woken) = match told {
            Err(refusal) => (u32::from(refusal), 0, 0),
            Ok(Said::Token) => (0, 1, 0),
            Ok(Said::Granted) => (0, 2, 0),
            Ok(Said::Wait) => (0, 3, 0),
            Ok(Said::Done) => (0, 4, 0),
            Ok(Said::Woke(count)) => (0, 5, count as u32),
        };
        Answer {
            refusal,
            said,
            woken,
        }
    }
}

#[no_mangle]
pub extern "C" fn plain_beat_in(table: &mut Table, tick: Tick) -> Answer {
    table.beat::<false>(tick.count).into()
}

#[no_mangle]
pub extern "C" fn plain_open_in(table: &mut Table, job: u32, tick: Tick, set: u64) -> Answer {
    table.open::<false>(job, tick.count, set).into()
}

#[no_mangle]
pub extern "C" fn plain_ask_in(table: &mut Table, job: u32, tick: Tick, set: u64) -> Answer {
    table.ask::<false>(job, tick.count, set).into()
}

#[no_mangle]
pub extern "C" fn plain_release_in(table: &mut Table, job: u32, tick: Tick, set: u64) -> Answer {
    table.release::<false>(job, tick.count, set).into()
}

/// # Safety
/// `length` bytes are at `woken`, and nobody else uses them during the call.
#[no_mangle]
pub unsafe extern "C" fn plain_complete_in(
    table: &mut Table,
    job: u32,
    tick: Tick,
    woken: *mut u8,
    length: usize,
) -> Answer {
    let list = std::slice::from_raw_parts_mut(woken, length);
    table.complete::<false>(job, tick.count, list).into()
}

/// # Safety
/// As for a completion.
#[no_mangle]
pub unsafe extern "C" fn plain_give_up_in(
    table: &mut Table,
    job: u32,
    tick: Tick,
    set: u64,
    woken: *mut u8,
    length: usize,
) -> Answer {
    let list = std::slice::from_raw_parts_mut(woken, length);
    table.give_up::<false>(job, tick.count, set, list).into()
}

#[no_mangle]
pub extern "C" fn plain_report_of(table: &Table, job: u32) -> JobReport {
    match table.report::<false>(job) {
        Ok(report) => JobReport { refusal: 0, report },
        Err(refusal) => JobReport {
            refusal: u32::from(refusal),
            report: Report::default(),
        },
    }
}

/// # Safety
/// As for a completion.
#[no_mangle]
pub unsafe extern "C" fn plain_overdue_of(
    table: &Table,
    tick: Tick,
    late: *mut u8,
    length: usize,
) -> LateJobs {
    let list = std::slice::from_raw_parts_mut(late, length);
    match table.overdue::<false>(tick.count, list) {
        Ok(count) => LateJobs {
            refusal: 0,
            count: count as u32,
        },
        Err(refusal) => LateJobs {
            refusal: u32::from(refusal),
            count: 0,
        },
    }
}
