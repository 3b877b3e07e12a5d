//! Sessions with leaps of the clock (document 02, request 4).

use crate::answer::{answer, lent, Answer};
use crate::case::{Call, Case};
use crate::clock::{tick_after, wraps, HOUR, TOP};
use crate::random::Random;
use crate::refuse;
use crate::service::{file, load};
use crate::sessions::Session;

/// What a loose counter once jumped by.
const NINE_DAYS: u64 = 777_600_000;

/// Every call with a tick, as `waiting` takes it.
const WITH_A_TICK: [(Call, u32, &[u8]); 7] = [
    (Call::Beat, 0, &[]),
    (Call::Open, 3, &[0]),
    (Call::Ask, 1, &[1]),
    (Call::Release, 1, &[0]),
    (Call::Complete, 1, &[]),
    (Call::GiveUp, 1, &[1]),
    (Call::Overdue, 0, &[]),
];

/// Job 1 has declared 0 and 1 and holds 0; job 2 waits for 1.
fn waiting() -> Session {
    let mut session = Session::start(2, 2, 4_294_967_282, 50);
    assert_eq!(session.open(1, 4_294_967_282, &[0, 1]), "token");
    assert_eq!(session.ask(1, 4_294_967_282, &[0]), "granted");
    assert_eq!(session.open(2, 4_294_967_282, &[1]), "token");
    assert_eq!(session.ask(2, 4_294_967_282, &[1]), "wait");
    session
}

fn case_at(session: &Session, step: u64, call: Call, job: u32, set: u64) -> Case {
    let table = session.0.clone();
    Case {
        call,
        job,
        tick: tick_after(table.time, step),
        set,
        room: 64,
        table,
    }
}

#[test]
fn more_than_an_hour_is_a_leap_until_it_is_back() {
    for start in [0, 4_291_367_295, 4_294_967_282, u32::MAX] {
        for (step, said) in [
            (3_599_999, "done"),
            (3_600_000, "done"),
            (3_600_001, "no 23"),
            (7_200_000, "no 23"),
            (NINE_DAYS, "no 23"),
            (2_147_483_647, "no 23"),
            (2_147_483_648, "no 5"),
            (4_294_967_295, "no 5"),
        ] {
            let mut session = Session::start(1, 1, start, 50);
            assert_eq!(session.beat(tick_after(u64::from(start), step)), said);
            let moved = if said == "done" { step } else { 0 };
            assert_eq!(session.0.time, u64::from(start) + moved);
        }
    }
}

#[test]
fn every_call_with_a_tick_refuses_a_leap_and_changes_nothing() {
    for (call, job, set) in WITH_A_TICK {
        let mut session = waiting();
        let before = session.0.clone();
        for step in [HOUR + 1, 2 * HOUR, NINE_DAYS, (1 << 31) - 1] {
            let outcome = session.outcome(call, job, tick_after(before.time, step), set);
            assert_eq!(outcome.answer, Answer::No(23), "{call} {step}");
            assert_eq!(outcome.table, before);
            assert_eq!(outcome.list, lent(64));
        }
        // A question moves no clock.
        let moved = if call == Call::Overdue { 0 } else { HOUR };
        let outcome = session.outcome(call, job, tick_after(before.time, HOUR), set);
        assert!(!matches!(outcome.answer, Answer::No(_)), "{call}");
        assert_eq!(outcome.table.time, before.time + moved);
    }
}

/// Nothing about job and set that is tested after the clock is looked at.
#[test]
fn a_leap_comes_before_all_that_is_said_of_a_request() {
    let session = waiting();
    for (call, ..) in WITH_A_TICK {
        for job in 0..64 {
            for set in 0..8 {
                let case = case_at(&session, HOUR + 1, call, job, set);
                assert_eq!(answer(&case).answer, Answer::No(23), "{case:?}");
            }
        }
    }
}

#[test]
fn near_the_end_of_time_a_leap_comes_behind_5_and_before_6() {
    let steps: [(u64, &[u8]); 7] = [
        (10, &[]),
        (11, &[6]),
        (HOUR, &[6]),
        (HOUR + 1, &[23, 6]),
        ((1 << 31) - 1, &[23, 6]),
        (1 << 31, &[5, 23, 6]),
        ((1 << 32) - 1, &[5, 23, 6]),
    ];
    for (call, job, set) in WITH_A_TICK {
        let mut session = waiting();
        session.0.time = TOP - 10;
        let set = set.iter().map(|&member| 1 << member).sum();
        for (step, refusals) in steps {
            let case = case_at(&session, step, call, job, set);
            let applying: Vec<u8> = refuse::applying(&case).collect();
            assert_eq!(applying, refusals, "{call} {step}");
            let said = answer(&case).answer;
            match refusals.first() {
                Some(&number) => assert_eq!(said, Answer::No(number)),
                None => assert!(!matches!(said, Answer::No(_))),
            }
        }
    }
}

/// Every step but the refused ones moves true time by what has really passed.
#[test]
fn hourly_beats_keep_true_time_over_the_wraps() {
    let mut random = Random::new(4);
    let mut now = 4_294_967_282;
    let mut session = Session::start(1, 1, now as u32, 50);
    while wraps(now) < 4 {
        assert_eq!(session.beat(tick_after(now, HOUR + 1)), "no 23");
        let any = random.below(HOUR);
        now += random.pick(&[HOUR, HOUR, HOUR - 1, any]);
        assert_eq!(session.beat(tick_after(now, 0)), "done");
        assert_eq!(session.0.time, now);
    }
}

/// Two hours have passed, and the wait is as long as it really was.
#[test]
fn beats_for_moments_in_between_are_taken() {
    let mut session = waiting();
    let since = session.0.time;
    let now = tick_after(since, 2 * HOUR);
    assert_eq!(session.call(Call::Overdue, 0, now, &[]), "no 23");
    assert_eq!(session.beat(now), "no 23");
    assert!(session.report(2).waiting);
    assert_eq!(session.beat(tick_after(since, HOUR)), "done");
    assert_eq!(session.listed_with(Call::Overdue, 0, now, &[]), [2]);
    assert_eq!(session.beat(now), "done");
    assert_eq!(session.0.time, since + 2 * HOUR);
    assert_eq!(session.0.rows[2].since, since);
}

/// A loaded table has the clock that it was saved with, however long that lasted.
#[test]
fn loading_has_no_such_case() {
    let mut loaded = Session(load(&file(&waiting().0)).expect("a sound table"));
    let time = loaded.0.time;
    assert_eq!(time, waiting().0.time);
    assert_eq!(loaded.beat(tick_after(time, HOUR + 1)), "no 23");
    assert_eq!(loaded.beat(tick_after(time, HOUR)), "done");
}

/// There is no clock before it.
#[test]
fn a_start_has_no_such_case() {
    let mut session = waiting();
    for step in [HOUR + 1, NINE_DAYS, 1 << 31] {
        let tick = tick_after(session.0.time, step);
        assert_eq!(session.call(Call::Start, 0, tick, &[]), "done");
        assert_eq!(session.0.time, u64::from(tick));
    }
}
