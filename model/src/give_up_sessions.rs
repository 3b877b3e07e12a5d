//! Sessions with give ups (document 02, request 2).

use crate::answer::answer;
use crate::case::{Call, Case};
use crate::clock::TOP;
use crate::history::{History, HAPPENINGS};
use crate::lines;
use crate::record::{self, Record};
use crate::recording_tally::of_recordings;
use crate::recordings;
use crate::replay::{walk, Replay, Said};
use crate::sessions::Session;
use crate::set::{from_number, to_number};
use crate::sound::{broken, is_sound};
use crate::table::Table;

impl Session {
    fn give_up(&mut self, job: u32, set: &[u8]) -> Vec<u8> {
        self.listed_with(Call::GiveUp, job, 0, set)
    }

    fn complete(&mut self, job: u32) -> Vec<u8> {
        self.listed_with(Call::Complete, job, 0, &[])
    }

    fn in_the_way(&mut self, job: u32) -> usize {
        self.report(job).in_the_way
    }
}

#[test]
fn a_give_up_in_its_recorded_form() {
    let bytes = [0xc2, 0x80, 1, 2, 3, 4, 0, 0, 0, 0, 0, 0, 0, 9];
    let give_up = Record::Event {
        call: Call::GiveUp,
        job: 5,
        tick: 16_909_060,
        set: 9,
    };
    assert_eq!(record::write(&give_up), bytes);
    assert_eq!(record::read(&bytes), Ok(give_up));
    assert_eq!(record::read(&[0xe2; record::LENGTH]), Err(18));
    let mut session = Session::start(1, 1, 0, 1);
    let written = session.outcome(Call::WriteGiveUp, 5, 16_909_060, &[0, 3]);
    assert_eq!(written.list[..record::LENGTH], bytes);
    assert_eq!(session.call(Call::WriteGiveUp, 64, 0, &[0]), "no 4");
}

/// Job 4 shares something with each of three before it, and parts from each once. The
/// numbers are those of 3, as long as it is live, and of 4.
#[test]
fn each_parting_lowers_the_number_in_the_way_once() {
    let mut session = Session::start(4, 3, 0, 1);
    for (job, set) in [
        (1, &[0, 1][..]),
        (2, &[1, 2]),
        (3, &[0, 2]),
        (4, &[0, 1, 2]),
    ] {
        assert_eq!(session.open(job, 0, set), "token");
    }
    assert_eq!((session.in_the_way(3), session.in_the_way(4)), (2, 3));
    // The last that 1 and 3 share; with 4 it shares another.
    session.give_up(1, &[0]);
    assert_eq!((session.in_the_way(3), session.in_the_way(4)), (1, 3));
    // The last that 1 and 4 share.
    session.give_up(1, &[1]);
    assert_eq!((session.in_the_way(3), session.in_the_way(4)), (1, 2));
    // With 2 and 3 it shares others.
    session.give_up(4, &[2]);
    assert_eq!((session.in_the_way(3), session.in_the_way(4)), (1, 2));
    // The last that 2 and 4 share.
    session.give_up(4, &[1]);
    assert_eq!((session.in_the_way(3), session.in_the_way(4)), (1, 1));
    // Parts from 3; from 4 it has parted.
    session.complete(2);
    assert_eq!((session.in_the_way(3), session.in_the_way(4)), (0, 1));
    // Has parted from both.
    session.complete(1);
    assert_eq!((session.in_the_way(3), session.in_the_way(4)), (0, 1));
    session.complete(3);
    assert_eq!(session.in_the_way(4), 0);
}

#[test]
fn a_give_up_wakes_two_in_order_of_turn() {
    let mut session = Session::start(4, 3, 0, 50);
    assert_eq!(session.open(7, 0, &[0, 1, 2]), "token");
    assert_eq!(session.ask(7, 0, &[0]), "granted");
    for (job, set) in [(9, &[0][..]), (2, &[1]), (5, &[1, 2])] {
        assert_eq!(session.open(job, 0, set), "token");
        assert_eq!(session.ask(job, 0, set), "wait");
    }
    // Resource 1 was not held; 5 still waits for 7 and for 2.
    let outcome = session.outcome(Call::GiveUp, 7, 3, &[0, 1]);
    assert_eq!(outcome.answer.to_string(), "woke 2");
    assert_eq!(outcome.list[..4], [9, 2, 17, 24]);
    let rows = session.0.rows;
    assert_eq!((rows[7].declared, rows[7].held), (4, 0));
    assert_eq!((rows[9].held, rows[9].asked, rows[9].since), (1, 0, 0));
    assert_eq!((rows[2].held, rows[2].asked, rows[2].since), (2, 0, 0));
    assert_eq!((rows[5].held, rows[5].asked), (0, 6));
    assert_eq!(session.0.time, 3);
    assert!(session.report(5).waiting);
    assert_eq!(session.listed_with(Call::GiveUp, 7, 3, &[2]), []);
    assert_eq!(session.listed_with(Call::GiveUp, 2, 3, &[1]), [5]);
}

#[test]
fn what_is_given_up_is_gone_and_the_rest_is_not() {
    let mut session = Session::start(1, 3, 0, 1);
    assert_eq!(session.open(1, 0, &[0, 1, 2]), "token");
    assert_eq!(session.ask(1, 0, &[0, 1]), "granted");
    assert_eq!(session.open(2, 0, &[0]), "wait");
    // One that is held and one that is not. The second request waits for its token.
    assert_eq!(session.give_up(1, &[0, 2]), []);
    for (call, refusal) in [
        (Call::Ask, "no 13"),
        (Call::GiveUp, "no 13"),
        (Call::Release, "no 15"),
    ] {
        for set in [&[0][..], &[2], &[0, 1], &[0, 1, 2]] {
            assert_eq!(session.call(call, 1, 0, set), refusal, "{call} {set:?}");
        }
    }
    assert_eq!(session.call(Call::Release, 1, 0, &[1]), "done");
    assert_eq!(session.ask(1, 0, &[1]), "granted");
    let report = session.report(1);
    assert_eq!(
        (report.turn, report.token, report.waiting),
        (1, true, false)
    );
    assert_eq!(session.complete(1), [2]);
}

#[test]
fn an_emptied_request_can_only_complete_and_is_in_nobodys_way() {
    let mut session = Session::start(2, 3, 0, 1);
    assert_eq!(session.open(1, 0, &[0, 1]), "token");
    assert_eq!(session.ask(1, 0, &[1]), "granted");
    assert_eq!(session.give_up(1, &[0, 1]), []);
    assert_eq!((session.0.rows[1].declared, session.0.rows[1].held), (0, 0));
    for set in 0..16 {
        let own = if set == 0 { 11 } else { 13 };
        let number = if set >= 8 { 12 } else { own };
        let set: Vec<u8> = from_number(set).into_iter().collect();
        let of_release = if number == 13 { 15 } else { number };
        for (call, number) in [
            (Call::Ask, number),
            (Call::GiveUp, number),
            (Call::Release, of_release),
        ] {
            assert_eq!(session.call(call, 1, 0, &set), format!("no {number}"));
        }
    }
    assert_eq!(session.open(1, 0, &[0]), "no 7");
    assert_eq!(session.open(2, 0, &[0, 1, 2]), "token");
    assert_eq!(session.ask(2, 0, &[0, 1, 2]), "granted");
    let report = session.report(2);
    assert_eq!((report.ahead, report.in_the_way), (1, 0));
    // It is live as before, so its token is in use.
    assert_eq!(session.open(3, 0, &[2]), "wait");
    assert_eq!(session.complete(1), [3]);
}

#[test]
fn a_request_that_declares_nothing_is_sound_only_with_its_token() {
    let mut session = Session::start(1, 1, 0, 1);
    assert_eq!(session.open(1, 0, &[0]), "token");
    assert_eq!(session.open(2, 0, &[0]), "wait");
    let mut with_token = session.0.clone();
    with_token.rows[1].declared = 0;
    assert!(is_sound(&with_token));
    let mut without = session.0;
    without.rows[2].declared = 0;
    assert_eq!(broken(&without), ["declares-nothing-only-with-token"]);
}

/// Job 1 has turn 1, holds 0 and has declared 0 and 1; job 2 asks for 1; job 3 has no token.
fn waiting_table() -> Table {
    let mut session = Session::start(2, 3, 0, 50);
    session.open(1, 0, &[0, 1]);
    session.ask(1, 0, &[0]);
    session.open(2, 0, &[1]);
    session.ask(2, 0, &[1]);
    session.open(3, 0, &[1]);
    session.0
}

/// Each fault comes on top of those before it, and its number is the one given.
#[test]
fn the_order_of_refusals() {
    let mut case = Case {
        call: Call::GiveUp,
        job: 1,
        tick: 7,
        set: to_number(&[0, 1].into()),
        room: 64,
        table: waiting_table(),
    };
    assert_eq!(answer(&case).answer.to_string(), "woke 1");
    let faults: [(u8, fn(&mut Case)); 12] = [
        (13, |case| case.set = 4),
        (12, |case| case.set += 8),
        (11, |case| case.set = 0),
        (10, |case| case.job = 2),
        (9, |case| case.job = 3),
        (8, |case| case.job = 4),
        (6, |case| case.table.time = TOP),
        (23, |case| case.tick = 3_600_000),
        (5, |case| case.tick = 1 << 31),
        (4, |case| case.job = 64),
        (3, |case| case.table.limit = 0),
        (2, |case| case.room = 63),
    ];
    for (number, fault) in faults {
        fault(&mut case);
        let outcome = answer(&case);
        assert_eq!(outcome.answer.to_string(), format!("no {number}"));
        assert_eq!(outcome.table, case.table);
    }
}

#[test]
fn a_replay_lists_whom_a_give_up_wakes() {
    let text = "start 2 2 0 50\nopen 1 0 3\nopen 2 0 1\nask 2 0 1\ngiveup 1 5 2\ngiveup 1 5 1\n";
    let recording = lines::recording(text).expect("good lines");
    let mut replay = Replay::default();
    let records = recording.chunks(record::LENGTH);
    let said: Vec<Said> = records.map(|bytes| replay.step(bytes)).collect();
    let last = [Said::Ok(Vec::new()), Said::Ok(vec![2])];
    assert_eq!(said[4..], last);
}

/// What happens along the lines, at which the history must fit the tables.
fn happenings(text: &str) -> Vec<&'static str> {
    let recording = lines::recording(text).expect("good lines");
    let mut history = History::default();
    let mut happened = Vec::new();
    let walked = walk(recording.as_slice(), |step| {
        let record = record::read(step.bytes).expect("lines are good records");
        happened.extend(history.take(&record));
        history.compare(step.table.expect("the first line is a start"));
        Ok(())
    });
    walked.expect("memory can be read");
    happened
}

/// Job 1 parts from 3, then from 2 and 4; 4 parts from 2; 2 from 3, and 3 from 4.
#[test]
fn partings_are_told_by_name() {
    let [completed, gave_up, own, behind_give_up, behind_own, emptied] = HAPPENINGS;
    let text = "start 4 3 0 1\nopen 1 0 3\nopen 2 0 6\nopen 3 0 5\nopen 4 0 7\n\
                giveup 1 0 1\ngiveup 1 0 2\ngiveup 4 0 4\ngiveup 4 0 2\n\
                complete 2 0\ncomplete 1 0\ncomplete 3 0\n";
    let expected = [
        &[gave_up][..],
        &[gave_up, gave_up, emptied],
        &[own],
        &[completed, behind_own],
        &[behind_give_up, behind_give_up],
        &[completed],
    ];
    assert_eq!(happenings(text), expected.concat());
}

/// Job 3 has its token only when 2 has given up what they shared. It finds 1 in its way,
/// and is then in the way of another request of job 1.
#[test]
fn partings_are_of_requests_with_their_tokens() {
    let [completed, _, own, _, _, emptied] = HAPPENINGS;
    let text = "start 2 2 0 1\nopen 1 0 3\nopen 2 0 1\nopen 3 0 1\n\
                giveup 2 0 1\ncomplete 2 0\ncomplete 1 0\nopen 1 0 1\ncomplete 3 0\n";
    assert_eq!(happenings(text), [emptied, own, completed, completed]);
}

/// Every number along the way is compared.
#[test]
fn reports_tell_the_number_at_the_token_less_the_partings() {
    let kinds = ["lively", "crowd", "few", "corner"];
    let recordings = kinds.map(|kind| recordings::make(kind, 2, 200).expect("there is such"));
    let mut told = Vec::new();
    of_recordings(&recordings, &mut told).expect("memory takes all");
    let told = String::from_utf8(told).expect("text");
    for happening in HAPPENINGS {
        assert!(!told.contains(&format!("missing {happening}")), "{told}");
    }
}

#[test]
#[should_panic(expected = "job 2")]
fn a_number_that_the_history_does_not_give_is_found() {
    let text = "start 2 1 0 1\nopen 1 0 1\nopen 2 0 1\n";
    let recording = lines::recording(text).expect("good lines");
    let mut history = History::default();
    for bytes in recording.chunks(record::LENGTH) {
        history.take(&record::read(bytes).expect("good records"));
    }
    let mut session = Session::start(2, 1, 0, 1);
    session.open(1, 0, &[0]);
    session.open(2, 0, &[0]);
    session.give_up(1, &[0]);
    history.compare(&session.0);
}
