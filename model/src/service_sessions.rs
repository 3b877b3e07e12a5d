//! Service files written out by hand, and what holds of any.

use crate::answer::lent;
use crate::files;
use crate::flips::{self, FLIPS};
use crate::layout::{FileRow, Layout, HEAD, HEAD_FIELDS, LONGEST, ROW, ROW_FIELDS};
use crate::lines;
use crate::probe::Next;
use crate::random::Random;
use crate::service::{file, load, refusing_load, refusing_save, save};
use crate::service_case::{self, next_case, ServiceCase};
use crate::table::{Row, Table, JOBS};
use crate::table_text;
use crate::tables;

/// Two tokens, three resources, a limit of 50, true time 2^32 + 5, last turn 3. Job 5 has
/// turn 1, has declared 0 and 2 and holds 0. Job 63 has turn 3, has declared 0 and asks
/// for it since 4,294,967,290.
fn small() -> Table {
    let mut table = Table::empty(2, 3, 50, 4_294_967_301);
    table.last_turn = 3;
    table.rows[5] = Row {
        turn: 1,
        declared: 0b101,
        held: 0b1,
        asked: 0,
        since: 0,
    };
    table.rows[63] = Row {
        turn: 3,
        declared: 0b1,
        held: 0,
        asked: 0b1,
        since: 4_294_967_290,
    };
    table
}

/// Its file. A field of 63 bits shifts what stands after it, so in the head time ends a
/// bit before its byte does and the last turn two bits before; in a row all sets end
/// five bits into a byte.
#[rustfmt::skip]
const SMALL: [u8; HEAD + 2 * ROW] = [
    // Version 0001, tokens less one 000001, resources less one 000010; limit.
    0b0001_0000, 0b01_000010, 0, 0, 0, 50,
    // Time in 63 bits and the highest bit of the last turn; its other 62 bits, count
    // 0000010 and zero 000.
    0, 0, 0, 2, 0, 0, 0, 10, 0, 0, 0, 0, 0, 0, 0, 0b000011_00, 0b00010_000,
    // Job 000101 and turn 1; then the last five bits of turn, declared, held and asked,
    // each with the first three of what follows it.
    0b000101_00, 0, 0, 0, 0, 0, 0, 0, 0b00001_000, 0, 0, 0, 0, 0, 0, 0, 0b00101_000,
    0, 0, 0, 0, 0, 0, 0, 0b00001_000, 0, 0, 0, 0, 0, 0, 0, 0b00000_000,
    // The other 60 bits of since, and zero 0000.
    0, 0, 0, 0, 0, 0, 0, 0b0000_0000,
    // Job 111111 and turn 3; declared 1, held 0, asked 1.
    0b111111_00, 0, 0, 0, 0, 0, 0, 0, 0b00011_000, 0, 0, 0, 0, 0, 0, 0, 0b00001_000,
    0, 0, 0, 0, 0, 0, 0, 0b00000_000, 0, 0, 0, 0, 0, 0, 0, 0b00001_000,
    // Since is fffffffa in hex, of which the last digit stands before zero 0000.
    0, 0, 0, 0x0f, 0xff, 0xff, 0xff, 0b1010_0000,
];

/// The small table's file with one thing changed.
fn changed(change: impl FnOnce(&mut Layout)) -> Vec<u8> {
    let mut layout = Layout::of(&SMALL).expect("it has a head");
    change(&mut layout);
    layout.bytes()
}

fn refusals(file: &[u8]) -> Vec<u8> {
    refusing_load(file).collect()
}

#[test]
fn a_small_table_by_hand() {
    assert_eq!(file(&small()), SMALL);
    assert_eq!(load(&SMALL), Ok(small()));
}

#[test]
fn an_empty_table_with_the_highest_numbers() {
    let mut table = Table::empty(64, 64, u32::MAX, (1 << 63) - 1);
    table.last_turn = (1 << 63) - 1;
    let mut bytes = [0xff; HEAD];
    // Version 0001 before, count 0000000 and zero 000 after.
    bytes[0] = 0x1f;
    bytes[21..].copy_from_slice(&[0b1111_1100, 0]);
    assert_eq!(file(&table), bytes);
    assert_eq!(load(&bytes), Ok(table));
}

#[test]
fn the_fields_fill_their_bytes() {
    let bits = |fields: &[(&str, u32)]| fields.iter().map(|(_, width)| *width as usize).sum();
    assert_eq!([8 * HEAD, 8 * ROW], [bits(&HEAD_FIELDS), bits(&ROW_FIELDS)]);
    assert_eq!(LONGEST, 2647);
}

#[test]
fn a_file_of_the_wrong_length() {
    for length in 0..SMALL.len() {
        assert_eq!(load(&SMALL[..length]), Err(21));
    }
    for more in [1, ROW] {
        let longer = [&SMALL[..], &vec![0; more]].concat();
        assert_eq!(load(&longer), Err(21));
    }
    for count in [0, 1, 3, 64, 127] {
        assert_eq!(load(&changed(|l| l.head.count = count)), Err(21));
    }
}

#[test]
fn an_unknown_version() {
    for version in (0..16).filter(|version| *version != 1) {
        let file = changed(|l| l.head.version = version);
        for length in HEAD..=file.len() {
            assert_eq!(load(&file[..length]), Err(22));
        }
        assert_eq!(load(&[&file[..], &[0; 100]].concat()), Err(22));
        // What is too short for a head has no version.
        assert_eq!(load(&file[..HEAD - 1]), Err(21));
    }
}

#[test]
fn every_bit_that_must_be_0_is_looked_at() {
    for bit in 0..3 {
        assert_eq!(load(&changed(|l| l.head.zero = 1 << bit)), Err(19));
    }
    for bit in 0..4 {
        for row in 0..2 {
            assert_eq!(load(&changed(|l| l.rows[row].zero = 1 << bit)), Err(19));
        }
    }
}

#[test]
fn rows_that_make_no_table() {
    let with_nothing_first = |l: &mut Layout| {
        l.rows.insert(0, FileRow::default());
        l.head.count = 3;
    };
    let doubled = |l: &mut Layout| {
        l.rows.push(l.rows[1].clone());
        l.head.count = 3;
    };
    let faults: [fn(&mut Layout); 7] = [
        |l| l.rows.swap(0, 1),
        |l| l.rows[1].turn = 1,
        |l| l.rows[0].turn = 0,
        |l| l.rows[1].job = 5,
        |l| l.head.limit = 0,
        |l| l.head.last_turn = 2,
        |l| l.rows[1].asked = 0,
    ];
    for fault in faults {
        assert_eq!(load(&changed(fault)), Err(3));
    }
    assert_eq!(load(&changed(with_nothing_first)), Err(3));
    assert_eq!(load(&changed(doubled)), Err(3));
}

/// Its second row has the second token, if there is one.
#[test]
fn a_row_that_declares_nothing_has_its_token() {
    let emptied = |l: &mut Layout| {
        l.rows[1].declared = 0;
        l.rows[1].asked = 0;
        l.rows[1].since = 0;
    };
    let with_token = changed(emptied);
    let table = load(&with_token).expect("a sound table");
    assert_eq!(table.rows[63].declared, 0);
    assert_eq!(file(&table), with_token);
    let without = changed(|l| {
        emptied(l);
        l.head.tokens_less_1 = 0;
    });
    assert_eq!(load(&without), Err(3));
}

/// Each table would be sound, were its rows taken as they come.
#[test]
fn more_rows_than_jobs() {
    for count in [JOBS as u64, JOBS as u64 + 1, 127] {
        let mut layout = Layout::of(&file(&Table::empty(64, 1, 1, 0))).expect("it has a head");
        layout.head.count = count;
        layout.head.last_turn = count;
        layout.rows = (0..count)
            .map(|place| FileRow {
                job: place % 64,
                turn: place + 1,
                declared: 1,
                ..FileRow::default()
            })
            .collect();
        let loaded = load(&layout.bytes());
        assert_eq!(loaded.is_ok(), count == 64);
        assert!(loaded.is_ok() || loaded == Err(3));
    }
}

#[test]
fn the_order_of_loading_refusals() {
    let unsound_and_stray = |l: &mut Layout| {
        l.head.limit = 0;
        l.rows[0].zero = 1;
    };
    let mut file = changed(unsound_and_stray);
    assert_eq!(refusals(&file), [19, 3]);
    assert_eq!(refusals(&file[..HEAD + ROW]), [21, 19, 3]);
    assert_eq!(refusals(&file[..HEAD]), [21, 3]);
    assert_eq!(refusals(&file[..HEAD - 1]), [21]);
    file[0] += 16;
    assert_eq!(refusals(&file), [22, 19, 3]);
    assert_eq!(refusals(&file[..HEAD + ROW]), [22, 19, 3]);
    assert_eq!(refusals(&file[..HEAD - 1]), [21]);
    assert_eq!(refusals(&SMALL), []);
}

#[test]
fn saving_keeps_what_stands_behind_the_file() {
    for more in [0, 1, 1000] {
        let mut room = lent((SMALL.len() + more) as u16);
        let before = room.clone();
        assert_eq!(save(&small(), &mut room), Ok(SMALL.len()));
        assert_eq!(room[..SMALL.len()], SMALL);
        assert_eq!(room[SMALL.len()..], before[SMALL.len()..]);
    }
}

#[test]
fn the_order_of_saving_refusals_which_keep_the_room() {
    let mut unsound = small();
    unsound.limit = 0;
    let whole = SMALL.len();
    for (table, room, refusals) in [
        (&small(), whole - 1, &[21][..]),
        (&small(), 0, &[21]),
        (&unsound, whole, &[3]),
        (&unsound, whole - 1, &[3, 21]),
        (&unsound, 0, &[3, 21]),
    ] {
        assert_eq!(refusing_save(table, room).collect::<Vec<u8>>(), refusals);
        let mut lent_room = lent(room as u16);
        assert_eq!(save(table, &mut lent_room), Err(refusals[0]));
        assert_eq!(lent_room, lent(room as u16));
    }
}

fn sound_tables(count: usize) -> Vec<Table> {
    let mut random = Random::new(8);
    let mut walk = tables::Walk::new();
    let built = (0..count).map(|_| {
        let mut table = match random.below(3) {
            0 => tables::built(&mut random),
            1 => tables::built_of(&mut random, 9, 64, 64),
            _ => walk.next(&mut random),
        };
        tables::late(&mut random, &mut table);
        table
    });
    built.collect()
}

#[test]
fn what_is_saved_loads_back_and_unlike_tables_have_unlike_files() {
    let tables = sound_tables(200);
    let files: Vec<Vec<u8>> = tables.iter().map(file).collect();
    for (table, bytes) in tables.iter().zip(&files) {
        assert_eq!(load(bytes).as_ref(), Ok(table));
        for (other, other_bytes) in tables.iter().zip(&files) {
            assert_eq!(table == other, bytes == other_bytes);
        }
    }
}

/// A file can't be read in two ways: whatever is accepted is the one file of its table.
#[test]
fn what_is_loaded_saves_back() {
    let mut accepted = 0;
    for case in files::mixed(5).take(500) {
        if let ServiceCase::Load(bytes) = case {
            if let Ok(table) = load(&bytes) {
                assert_eq!(file(&table), bytes);
                accepted += 1;
            }
        }
    }
    assert!(accepted > 50);
}

#[test]
fn a_service_case_reads_back_from_its_bytes() {
    let mut bytes: Vec<u8> = files::mixed(6)
        .take(50)
        .flat_map(|c| c.to_bytes())
        .collect();
    bytes.push(0);
    let mut input = bytes.as_slice();
    for case in files::mixed(6).take(50) {
        match next_case(&mut input).expect("it can be read") {
            Next::Case(read) => assert_eq!(*read, case),
            _ => panic!("a whole case is there"),
        }
    }
    assert!(matches!(next_case(&mut input), Ok(Next::Cut)));
    assert!(matches!(next_case(&mut input), Ok(Next::End)));
}

#[test]
fn what_is_printed_of_service_cases() {
    let table = Table::empty(1, 1, 9, 7);
    let loads = [SMALL.to_vec(), SMALL[1..].to_vec()].map(ServiceCase::Load);
    let saves = [22, 24].map(|room| ServiceCase::Save {
        room,
        table: table.clone(),
    });
    let cases = loads.iter().chain(&saves);
    let mut row: Vec<u8> = cases.flat_map(ServiceCase::to_bytes).collect();
    row.extend([0, 0, 1]);
    let mut out = Vec::new();
    assert!(service_case::run(row.as_slice(), &mut out).expect("it can be read"));
    let out = String::from_utf8(out).expect("text");
    let lines: Vec<&str> = out.lines().collect();
    assert_eq!(
        lines[..6],
        [
            "1 done",
            "table 2 3 50 4294967301 3 5:1,5,1,0,0 63:3,1,0,1,4294967290",
            "2 no 22",
            "table 0 0 0 0 0",
            "3 no 21",
            "list 3 10 17 24 31 38 45 52 59 66 73 80 87 94 101 108 115 122 129 136 143 150",
        ]
    );
    let saved = "list 16 0 0 0 0 9 0 0 0 0 0 0 0 14 0 0 0 0 0 0 0 0 0 164";
    assert_eq!(lines[6..], ["4 saved 23", saved, "cut"]);
}

#[test]
fn a_turned_bit_is_known_by_its_field() {
    let three = file(&tables::built_of(&mut Random::new(1), 2, 3, 3));
    for (field, name) in (0..FLIPS).zip(flips::names()) {
        for nth in [0, 1, 62, 63] {
            let mut flipped = three.clone();
            flips::flip(&mut flipped, field, nth);
            assert_eq!(flips::between(&three, &flipped), Some(name.clone()));
        }
    }
    assert_eq!(flips::between(&three, &three), None);
}

fn shown(file: &[u8]) -> String {
    let mut out = Vec::new();
    table_text::show(file, &mut out).expect("it can be written");
    String::from_utf8(out).expect("text")
}

#[test]
fn a_file_shown_at_the_desk() {
    let rows = "row 5 1 5 1 0 0\nrow 63 3 1 0 1 4294967290\n";
    let whole = format!("table 2 3 50 4294967301 3 2\n{rows}");
    assert_eq!(shown(&SMALL), whole);
    assert_eq!(shown(&SMALL[1..]), "no 22\n");
    assert_eq!(shown(&[]), "no 21\n");
}

fn saved(text: &str) -> Result<Vec<u8>, u8> {
    let recording = lines::recording(text).expect("lines");
    table_text::file_of_recording(recording.as_slice()).expect("it can be read")
}

/// The last two records are refused: they leave the table as it is.
#[test]
fn the_file_of_a_recording() {
    let text = "start 2 3 4294967280 50\n\
                open 5 4294967281 5\nopen 7 4294967281 2\ncomplete 7 4294967285\n\
                ask 5 4294967286 1\nopen 63 4294967286 1\nask 63 4294967290 1\n\
                beat 5\nask 63 6 1\nbytes 22 80\n";
    assert_eq!(saved(text), Ok(SMALL.to_vec()));
}

#[test]
fn a_recording_that_does_not_start() {
    assert_eq!(saved(""), Err(17));
    assert_eq!(saved("beat 7"), Err(20));
    assert_eq!(saved("start 2 3 0 0"), Err(1));
    assert_eq!(saved("bytes ff 0 0 0 0 0 0 0 0 0 0 0 0 0"), Err(18));
}
