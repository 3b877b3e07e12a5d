//! The worked sessions, and what holds along any row of events.

use crate::answer::{answer, Answer, Outcome, Report};
use crate::arbiter::Arbiter;
use crate::calls;
use crate::case::{Call, Case, CALLS, CASE};
use crate::clock::{forward, HOUR, TOP};
use crate::drive::{self, Style};
use crate::lines;
use crate::probe;
use crate::random::Random;
use crate::record::{self, Record, LENGTH};
use crate::replay::{self, case_of};
use crate::set::{to_number, Set};
use crate::sound::is_sound;
use crate::table::Table;
use crate::tables;

/// A table on its way through calls, which are answered as the probe prints it.
pub struct Session(pub Table);

impl Session {
    pub fn start(tokens: u8, resources: u8, tick: u32, limit: u32) -> Session {
        let table = Table::empty(tokens, resources, limit, 0);
        let mut session = Session(table);
        assert_eq!(session.call(Call::Start, 0, tick, &[]), "done");
        session
    }

    pub fn outcome(&mut self, call: Call, job: u32, tick: u32, set: &[u8]) -> Outcome {
        let set: Set = set.iter().copied().collect();
        let outcome = answer(&Case {
            call,
            job,
            tick,
            set: to_number(&set),
            room: 64,
            table: self.0.clone(),
        });
        self.0 = outcome.table.clone();
        outcome
    }

    pub fn call(&mut self, call: Call, job: u32, tick: u32, set: &[u8]) -> String {
        self.outcome(call, job, tick, set).answer.to_string()
    }

    pub fn open(&mut self, job: u32, tick: u32, set: &[u8]) -> String {
        self.call(Call::Open, job, tick, set)
    }

    pub fn ask(&mut self, job: u32, tick: u32, set: &[u8]) -> String {
        self.call(Call::Ask, job, tick, set)
    }

    pub fn beat(&mut self, tick: u32) -> String {
        self.call(Call::Beat, 0, tick, &[])
    }

    /// The jobs that a call lists which has no set.
    fn listed(&mut self, call: Call, job: u32, tick: u32) -> Vec<u8> {
        self.listed_with(call, job, tick, &[])
    }

    pub fn listed_with(&mut self, call: Call, job: u32, tick: u32, set: &[u8]) -> Vec<u8> {
        let outcome = self.outcome(call, job, tick, set);
        match outcome.answer {
            Answer::Woke(count) | Answer::Overdue(count) => outcome.list[..count].to_vec(),
            other => panic!("{other}"),
        }
    }

    pub fn report(&mut self, job: u32) -> Report {
        match self.outcome(Call::Report, job, 0, &[]).answer {
            Answer::Report(report) => report,
            other => panic!("{other}"),
        }
    }
}

fn event(call: Call, job: u8, tick: u32, set: u64) -> Record {
    Record::Event {
        call,
        job,
        tick,
        set,
    }
}

#[test]
fn p1_an_open_in_its_recorded_form() {
    let bytes = [0x22, 0x80, 1, 2, 3, 4, 0, 0, 0, 0, 0, 0, 0, 9];
    let open = event(Call::Open, 5, 16_909_060, 9);
    assert_eq!(record::write(&open), bytes);
    assert_eq!(record::read(&bytes), Ok(open));
}

#[test]
fn p2_the_difference_over_the_wrap() {
    assert_eq!(forward(4_294_967_282, 5), 19);
    let mut session = Session::start(1, 1, 4_294_967_282, 50);
    assert_eq!(session.beat(5), "done");
    assert_eq!(session.0.time, 4_294_967_301);
}

#[test]
fn p3_p4_p5_the_longest_and_the_shortest_step() {
    for start in [0, 4_294_967_282] {
        let mut session = Session::start(1, 1, start, 50);
        assert_eq!(session.beat(start.wrapping_add(1 << 31)), "no 5");
        assert_eq!(session.0.time, u64::from(start));
        assert_eq!(session.beat(start.wrapping_add(3_600_000)), "done");
        assert_eq!(session.0.time, u64::from(start) + 3_600_000);
        let tick = session.0.time as u32;
        assert_eq!(session.beat(tick), "done");
        assert_eq!(session.0.time, u64::from(start) + 3_600_000);
    }
}

#[test]
fn p6_p7_the_limit_is_reached_after_the_wrap() {
    let mut session = Session::start(1, 2, 4_294_967_280, 50);
    assert_eq!(session.open(1, 4_294_967_281, &[0]), "token");
    assert_eq!(session.open(2, 4_294_967_282, &[1]), "wait");
    assert_eq!(session.listed(Call::Overdue, 0, 35), []);
    assert_eq!(session.listed(Call::Overdue, 0, 36), [2]);
    assert_eq!(session.0.time, 4_294_967_282);
}

#[test]
fn p8_p9_the_second_of_two_waits_for_the_only_token() {
    let mut session = Session::start(1, 1, 0, 1);
    assert_eq!(session.open(1, 0, &[0]), "token");
    assert_eq!(session.open(2, 0, &[0]), "wait");
    let report = session.report(2);
    assert!(!report.token && report.waiting);
    assert_eq!(session.listed(Call::Complete, 1, 0), [2]);
    let report = session.report(2);
    assert!(report.token && !report.waiting);
    assert_eq!((report.ahead, report.in_the_way), (0, 0));
}

#[test]
fn p10_p11_the_listed_session() {
    let mut session = Session::start(2, 2, 4_294_967_280, 50);
    assert_eq!(session.open(1, 4_294_967_281, &[0, 1]), "token");
    assert_eq!(session.ask(1, 4_294_967_281, &[0]), "granted");
    assert_eq!(session.open(2, 4_294_967_282, &[1]), "token");
    assert_eq!(session.ask(2, 4_294_967_282, &[1]), "wait");
    let report = session.report(2);
    assert_eq!((report.ahead, report.in_the_way), (1, 1));
    assert_eq!(session.open(3, 4_294_967_283, &[0]), "wait");
    assert_eq!(session.ask(3, 4_294_967_284, &[0]), "no 9");
    assert_eq!(session.listed(Call::Complete, 1, 5), [2, 3]);
    assert_eq!(session.0.rows[2].held, 2);
    assert_eq!((session.0.rows[2].since, session.0.rows[3].since), (0, 0));
}

#[test]
fn p12_a_release_lets_nobody_pass() {
    let mut session = Session::start(2, 2, 0, 1);
    assert_eq!(session.open(1, 0, &[0, 1]), "token");
    assert_eq!(session.open(2, 0, &[0]), "token");
    assert_eq!(session.ask(1, 0, &[0]), "granted");
    assert_eq!(session.call(Call::Release, 1, 0, &[0]), "done");
    assert_eq!(session.ask(2, 0, &[0]), "wait");
    assert_eq!(session.ask(1, 0, &[0]), "granted");
}

#[test]
fn the_highest_job_and_resource() {
    let mut session = Session::start(1, 64, 0, 1);
    assert_eq!(session.open(64, 0, &[63]), "no 4");
    assert_eq!(session.open(63, 0, &[63]), "token");
    assert_eq!(session.ask(63, 0, &[63]), "granted");
}

#[test]
fn an_empty_set_and_a_set_held_already() {
    let mut session = Session::start(1, 1, 0, 1);
    assert_eq!(session.open(0, 0, &[]), "no 11");
    assert_eq!(session.open(0, 0, &[0]), "token");
    assert_eq!(session.ask(0, 0, &[]), "no 11");
    assert_eq!(session.ask(0, 0, &[0]), "granted");
    assert_eq!(session.ask(0, 0, &[0]), "no 14");
}

fn listing(recording: &[u8]) -> String {
    let mut out = Vec::new();
    replay::run(recording, &mut out).expect("memory takes all");
    String::from_utf8(out).expect("a listing is text")
}

fn recording(records: &[Record]) -> Vec<u8> {
    records.iter().flat_map(record::write).collect()
}

fn start(tick: u32, limit: u32) -> Record {
    Record::Start {
        tokens: 2,
        resources: 2,
        tick,
        limit,
    }
}

#[test]
fn the_whole_listing() {
    let records = [
        start(4_294_967_280, 50),
        event(Call::Open, 1, 4_294_967_281, 3),
        event(Call::Ask, 1, 4_294_967_281, 1),
        event(Call::Open, 2, 4_294_967_282, 2),
        event(Call::Ask, 2, 4_294_967_282, 2),
        event(Call::Open, 3, 4_294_967_283, 1),
        event(Call::Ask, 3, 4_294_967_284, 1),
        event(Call::Complete, 1, 5, 0),
        event(Call::Ask, 3, 6, 1),
        event(Call::Beat, 0, 4_294_967_295, 0),
        event(Call::Complete, 3, 7, 0),
    ];
    assert_eq!(
        listing(&recording(&records)),
        "1 ok\n2 ok\n3 ok\n4 ok\n5 wait\n6 wait\n7 no 9\n8 ok 2 3\n9 ok\n10 no 5\n11 ok\nend 1 1\n"
    );
}

#[test]
fn a_replay_that_does_not_start() {
    let good = recording(&[event(Call::Beat, 0, 0, 0)]);
    let mut stray = record::write(&start(0, 0));
    stray[13] = 1;
    let mut strange = stray;
    strange[0] |= 64;
    let firsts: [(&[u8], u8); 7] = [
        (&[], 17),
        (&strange[..1], 17),
        (&strange[..13], 17),
        (&strange, 18),
        (&stray, 19),
        (&good, 20),
        (&record::write(&start(0, 0)), 1),
    ];
    for (first, number) in firsts {
        let expected = format!("1 no {number}\nend 0 0\n");
        assert_eq!(listing(first), expected);
        // Whole records after it don't matter.
        if first.len() == LENGTH {
            assert_eq!(listing(&[first, &good].concat()), expected);
        }
    }
}

#[test]
fn a_replay_goes_on_after_refusals_and_ends_with_a_remainder() {
    let mut bytes = recording(&[start(0, 1), start(0, 0), event(Call::Open, 0, 0, 1)]);
    bytes.extend([255; 20]);
    assert_eq!(
        listing(&bytes),
        "1 ok\n2 no 20\n3 ok\n4 no 18\n5 no 17\nend 1 1\n"
    );
}

#[test]
fn every_bit_that_must_be_0_is_looked_at() {
    let none = 112..112;
    let gaps = [
        (event(Call::Beat, 0, u32::MAX, 0), [3..16, 48..112]),
        (
            event(Call::Open, 63, u32::MAX, u64::MAX),
            [9..16, none.clone()],
        ),
        (event(Call::Complete, 63, u32::MAX, 0), [9..16, 48..112]),
        (event(Call::GiveUp, 63, u32::MAX, u64::MAX), [9..16, none]),
        (start(u32::MAX, u32::MAX), [15..16, 80..112]),
    ];
    for (record, gaps) in gaps {
        for bit in 3..112 {
            let mut bytes = record::write(&record);
            bytes[bit / 8] ^= 128 >> (bit % 8);
            let refused = gaps.iter().any(|gap| gap.contains(&bit));
            assert_eq!(record::read(&bytes) == Err(19), refused, "{record:?} {bit}");
        }
    }
}

#[test]
fn writing_takes_only_what_the_event_carries() {
    let mut session = Session::start(1, 1, 0, 1);
    let beat = session.outcome(Call::WriteBeat, 64, 7, &[1]);
    assert_eq!(beat.answer, Answer::Wrote);
    assert_eq!(
        beat.list[..LENGTH],
        record::write(&event(Call::Beat, 0, 7, 0))
    );
    assert_eq!(beat.list[LENGTH], 101);
    let complete = session.outcome(Call::WriteComplete, 5, 7, &[1]);
    let expected = record::write(&event(Call::Complete, 5, 7, 0));
    assert_eq!(complete.list[..LENGTH], expected);
    assert_eq!(session.call(Call::WriteComplete, 64, 7, &[]), "no 4");
}

#[test]
fn the_end_of_time_and_of_turns() {
    let mut session = Session::start(1, 1, 0, 1);
    session.0.time = TOP - 1;
    session.0.last_turn = TOP - 1;
    let last = TOP as u32;
    assert_eq!(session.beat(last.wrapping_add(1)), "no 6");
    assert_eq!(session.open(0, last, &[0]), "token");
    assert_eq!((session.0.time, session.0.last_turn), (TOP, TOP));
    assert_eq!(session.open(1, last, &[0]), "no 16");
}

/// Walks by events and hands each call with its outcome to the check.
fn walk(seed: u64, jobs: u64, mut check: impl FnMut(&Case, &Outcome)) {
    let style = Style {
        jobs,
        steps: &[0, 0, 1, 1, 2, 2, 1000, 1000, HOUR, HOUR, HOUR + 1, 1 << 31],
        wild: 5,
    };
    let mut random = Random::new(seed);
    let tokens = 1 + random.below(6) as u8;
    let mut table = Session::start(tokens, 1 + random.below(64) as u8, 7, 50).0;
    for _ in 0..300 {
        let case = case_of(&drive::event(&mut random, &table, &style), table);
        let outcome = answer(&case);
        check(&case, &outcome);
        table = outcome.table;
    }
}

#[test]
fn events_keep_a_table_sound_and_refusals_keep_it_as_it_is() {
    for seed in 0..8 {
        walk(seed, 4 + 8 * seed, |case, outcome| {
            assert!(is_sound(&outcome.table), "{case:?}");
            if let Answer::No(_) = outcome.answer {
                assert_eq!(outcome.table, case.table);
            }
        });
    }
}

/// A history kept apart from the table: each request's number of others live at
/// its opening, and the completions since.
#[test]
fn a_token_comes_after_a_known_number_of_completions() {
    for seed in 0..8 {
        let mut behind = [0_usize; 64];
        let mut completions = [0_usize; 64];
        walk(seed, 4 + 8 * seed, |case, outcome| {
            let job = case.job as usize;
            match (case.call, &outcome.answer) {
                (_, Answer::No(_)) => {}
                (Call::Open, _) => {
                    behind[job] = Arbiter::of(&case.table).line.len();
                    completions[job] = 0;
                }
                (Call::Complete, _) => completions.iter_mut().for_each(|count| *count += 1),
                _ => {}
            }
            let after = Arbiter::of(&outcome.table);
            for request in &after.line {
                let job = usize::from(request.job);
                let needed = (behind[job] + 1).saturating_sub(usize::from(after.tokens));
                assert_eq!(after.has_token(request.turn), completions[job] >= needed);
            }
        });
    }
}

#[test]
fn what_is_written_reads_back() {
    for seed in 0..5 {
        walk(seed, 64, |case, _| {
            let record = event(case.call, case.job as u8, case.tick, case.set);
            assert_eq!(record::read(&record::write(&record)), Ok(record));
        });
    }
}

#[test]
fn tables_made_sound_are_sound() {
    let mut random = Random::new(1);
    for _ in 0..500 {
        let mut table = tables::built(&mut random);
        assert!(is_sound(&table), "{table:?}");
        tables::late(&mut random, &mut table);
        assert!(is_sound(&table), "{table:?}");
        tables::last(&mut random, &mut table);
        assert!(is_sound(&table), "{table:?}");
    }
}

#[test]
fn a_case_reads_back_from_its_bytes() {
    let mut random = Random::new(1);
    for call in CALLS {
        let case = Case {
            call,
            job: random.number() as u32,
            tick: random.number() as u32,
            set: random.number(),
            room: random.number() as u16,
            table: tables::random(&mut random),
        };
        let bytes: [u8; CASE] = case.to_bytes().try_into().expect("one length for all");
        let back = Case::from_bytes(&bytes).expect("a call that exists");
        assert_eq!(format!("{back:?}"), format!("{case:?}"));
    }
}

#[test]
fn lines_stand_for_records_and_questions() {
    let text = "# nothing\nopen 5 16909060 9 # P1\n\nreport 5\nbytes ff 0\n";
    let p1 = [0x22, 0x80, 1, 2, 3, 4, 0, 0, 0, 0, 0, 0, 0, 9];
    let bytes = lines::recording(text).expect("good lines");
    assert_eq!(bytes, [&p1[..], &[255, 0]].concat());
    let text = "start 2 1 0 50\nopen 5 7 1\noverdue 9\nopen 6 8 1\n";
    let cases = lines::questions(text).expect("good lines");
    let bytes = cases[0].as_slice().try_into().expect("one length for all");
    let case = Case::from_bytes(bytes).expect("a call that exists");
    assert_eq!((case.call, case.tick), (Call::Overdue, 9));
    // As the table is there: with one request.
    assert_eq!((case.table.time, case.table.last_turn), (7, 1));
    for wrong in [
        "open 64 0 1",
        "start 0 1 0 1",
        "beat",
        "beat 4294967296",
        "bytes 100",
    ] {
        assert!(lines::recording(wrong).is_err(), "{wrong}");
    }
}

const CALLS_BY_HAND: [&str; 4] = [
    include_str!("../../tests/calls/sessions.calls"),
    include_str!("../../tests/calls/clock.calls"),
    include_str!("../../tests/calls/give-up.calls"),
    include_str!("../../tests/calls/leap.calls"),
];

/// Whether the probe prints just the answers that are written by hand.
fn as_written(text: &str) -> bool {
    let cases = calls::cases(text).expect("good calls").concat();
    let mut printed = Vec::new();
    probe::run(cases.as_slice(), &mut printed).expect("memory takes all");
    printed == calls::answers(text).expect("good calls")
}

#[test]
fn calls_are_answered_as_written() {
    for text in CALLS_BY_HAND {
        assert!(as_written(text));
    }
}

/// What an answer is mistaken for.
const MISTAKES: [(&str, &str); 16] = [
    ("no ", "no 1"),
    ("done", "wait"),
    ("token", "wait"),
    ("granted", "token"),
    ("wait", "granted"),
    ("0, jobs", "1, jobs 5"),
    ("1, jobs ", "1, jobs 5"),
    ("1, jobs ", "2, jobs 5 "),
    ("wrote ", "wrote 9 "),
    (" 0 0", " 0 7"),
    ("turn 2", "turn 1"),
    ("no token", "token"),
    ("token, waiting", "token, not waiting"),
    ("not waiting", "waiting"),
    (" ahead", "7 ahead"),
    (" in the way", "7 in the way"),
];

#[test]
fn a_wrong_answer_by_hand_is_found() {
    let mut tried = 0;
    for text in CALLS_BY_HAND {
        let lines: Vec<&str> = text.lines().collect();
        for (place, line) in lines.iter().enumerate() {
            let Some((call, said)) = line.split_once(" : ") else {
                continue;
            };
            // What is said to the reader is no answer.
            let said = said.split('#').next().unwrap_or("");
            for (right, wrong) in MISTAKES {
                let answer = said.replacen(right, wrong, 1);
                let mistaken = format!("{call} : {answer}");
                let text = [&lines[..place], &[&mistaken]].concat().join("\n");
                // Some words of a report are no answer on their own.
                if answer != said && calls::cases(&text).is_ok() {
                    assert!(!as_written(&text), "{mistaken}");
                    tried += 1;
                }
            }
        }
    }
    assert!(tried > 60, "{tried}");
}

#[test]
fn a_call_by_hand_has_an_answer() {
    for wrong in [
        "open 64 1001 1",
        "open 64 1001 1 :",
        "open 64 1001 1 : # no 4",
        "open 64 1001 1 : no",
        "open 64 1001 : no 4",
        "open 64 1001 1 : no 4 : no 4",
        ": no 4",
        "complete 63 1059 : woke 2, jobs 1",
        "complete 63 1059 : woke 1",
        "report 1 : turn 2, token, 1 ahead, 1 in the way",
        "write 15 report 1 : no 4",
        "write 1 beat 0 : wrote 1 2",
        "bytes 0 : no 17",
        "time",
        "time -1",
        "time 1 : done",
    ] {
        assert!(calls::cases(wrong).is_err(), "{wrong}");
        assert!(calls::answers(wrong).is_err(), "{wrong}");
    }
}
