//! Waves of recordings written by hand and of fresh ones, and dumps that are not taken.

use crate::arbiter::Request;
use crate::desk_sessions::{recording, split, NIGHT};
use crate::read_wave::read;
use crate::recordings;
use crate::set::{to_number, Set};
use crate::table::JOBS;
use crate::told::{named, tell};
use crate::wave::{mask, wave};

fn waved(recording: &[u8]) -> Vec<String> {
    let shown = named(recording).expect("it can be read");
    let mut out = Vec::new();
    wave(recording, &shown, &mut out).expect("it can be written");
    split(out)
}

fn place(lines: &[String], line: &str) -> usize {
    let found = lines.iter().position(|other| other == line);
    found.unwrap_or_else(|| panic!("{line} is not there"))
}

#[test]
fn the_beginning_of_the_night() {
    let lines = waved(&recording(NIGHT));
    assert_eq!(
        lines[..16],
        [
            "$version Norakkeun desk $end",
            "$timescale 1 ms $end",
            "$scope module drive $end",
            "$var integer 64 r record $end",
            "$var integer 64 n records_in_this_ms $end",
            "$var integer 64 l live $end",
            "$var integer 64 t tokens_in_use $end",
            "$var integer 64 x refusals $end",
            "$scope module job_3 $end",
            "$var wire 2 s3 state $end",
            "$var wire 1 k3 token_3 $end",
            "$var wire 1 w3 waits_3 $end",
            "$var wire 3 d3 declared $end",
            "$var wire 3 h3 held $end",
            "$var wire 3 a3 asked $end",
            "$upscope $end",
        ]
    );
    let end = place(&lines, "$enddefinitions $end");
    let first = ["#4291500000", "$dumpvars", "b1 r", "b1 n", "b0 l"];
    assert_eq!(lines[end - 1], "$upscope $end");
    assert_eq!(lines[end + 1..end + 6], first);
    assert_eq!(lines.last().map(String::as_str), Some("#4294967368"));
}

#[test]
fn two_records_in_a_millisecond() {
    let lines = waved(&recording(NIGHT));
    let from = place(&lines, "#4294967240");
    assert_eq!(
        lines[from + 1..from + 14],
        [
            "b110 r",
            "b1 n",
            "b10 l",
            "b10 t",
            "b10 s7",
            "1k7",
            "b11 d7",
            "b111 r",
            "b10 n",
            "b11 s7",
            "1w7",
            "b11 a7",
            "#4294967300",
        ]
    );
}

/// What changes at the job that a record names comes before the woken ones.
#[test]
fn the_woken_after_the_named() {
    let lines = waved(&recording(NIGHT));
    let from = place(&lines, "b1011 r");
    let drive = ["b1 n", "b11 l"];
    let current_control = ["b0 s3", "0k3", "b0 d3", "b0 h3"];
    let brake = ["b10 s7", "0w7", "b11 h7", "b0 a7"];
    let display = ["b10 s12", "1k12", "0w12", "#4294967317"];
    let expected = [&drive[..], &current_control, &brake, &display].concat();
    assert_eq!(lines[from + 1..from + 15], expected);
}

#[test]
fn without_a_table() {
    let event_first = recording("open 7 9 3");
    let empty = Vec::new();
    for bytes in [empty, event_first] {
        let lines = waved(&bytes);
        assert!(!lines.iter().any(|line| line.contains("job")));
        assert_eq!(
            lines[8..],
            [
                "$upscope $end",
                "$enddefinitions $end",
                "#0",
                "$dumpvars",
                "b1 r",
                "b1 n",
                "b0 l",
                "b0 t",
                "b1 x",
                "$end",
            ]
        );
    }
}

#[test]
fn only_the_jobs_of_the_mask() {
    let mut shown = [false; JOBS];
    shown[7] = true;
    let mut out = Vec::new();
    wave(recording(NIGHT).as_slice(), &shown, &mut out).expect("it can be written");
    let lines = split(out);
    let of = |letters: &str| lines.iter().filter(|line| line.ends_with(letters)).count();
    assert_eq!((of(" s7"), of(" s3"), of(" s12")), (5, 0, 0));
    assert_eq!(mask(&"0".repeat(63)), None);
    assert_eq!(mask(&"2".repeat(64)), None);
    let word = format!("0000000{}", "1".repeat(57));
    assert!(mask(&word).is_some_and(|mask| !mask[6] && mask[7]));
}

/// With one resource a set is of one bit too, but written as a set.
#[test]
fn one_bit_and_one_resource() {
    let lines = waved(&recording("start 1 1 5 5\n open 3 6 1\n open 4 6 1"));
    assert!(lines.contains(&"$var wire 1 d4 declared $end".to_string()));
    let from = place(&lines, "#6");
    assert_eq!(
        lines[from + 1..],
        [
            "b10 r", "b1 n", "b1 l", "b1 t", "b10 s3", "1k3", "b1 d3", "b11 r", "b10 n", "b10 l",
            "b1 s4", "1w4", "b1 d4", "#7",
        ]
    );
}

/// What the tables say at the end of each millisecond, as a dump names it.
fn from_tables(recording: &[u8]) -> Vec<(u64, Vec<(String, u64)>)> {
    let named = named(recording).expect("it can be read");
    let mut moments: Vec<(u64, Vec<(String, u64)>)> = Vec::new();
    tell(recording, |told| {
        let mut values = vec![("drive.record".to_string(), told.number)];
        let live = told.after.iter().flat_map(|after| &after.line);
        live.for_each(|request| assert!(named[usize::from(request.job)]));
        for job in (0..JOBS as u8).filter(|job| named[usize::from(*job)]) {
            let Some(table) = &told.after else { break };
            let request = table.line.iter().find(|request| request.job == job);
            let set =
                |of: fn(&Request) -> &Set| request.map_or(0, |request| to_number(of(request)));
            let token = request.is_some_and(|request| table.has_token(request.turn));
            let waits = request.is_some_and(|request| !token || !request.asked.is_empty());
            let of_job = [
                (format!("token_{job}"), u64::from(token)),
                (format!("waits_{job}"), u64::from(waits)),
                ("declared".to_string(), set(|request| &request.declared)),
                ("held".to_string(), set(|request| &request.held)),
                ("asked".to_string(), set(|request| &request.asked)),
            ];
            values.extend(of_job.map(|(of, value)| (format!("drive.job_{job}.{of}"), value)));
        }
        moments.retain(|(time, _)| *time != told.time());
        moments.push((told.time(), values));
        Ok(())
    })
    .expect("it can be read");
    moments
}

#[test]
fn a_dump_says_what_the_tables_do() {
    for (kind, seed) in [("lively", 3), ("damaged", 4), ("ticks", 5), ("still", 6)] {
        let bytes = recordings::make(kind, seed, 300).expect("there is such a kind");
        let moments = read(&waved(&bytes).join("\n")).expect("it is a dump");
        let expected = from_tables(&bytes);
        // The dump has one time more, after the last record.
        assert_eq!(moments.len(), expected.len() + 1);
        for ((time, values), (other, expected)) in moments.iter().zip(expected) {
            assert_eq!(*time, other);
            for (name, value) in expected {
                assert_eq!(values.get(&name), Some(&value), "{name} at {time}");
            }
        }
    }
}

#[test]
fn what_is_no_dump() {
    let good = waved(&recording("start 1 2 5 5\n open 3 6 3")).join("\n");
    let moments = read(&good).expect("it is a dump");
    let times: Vec<u64> = moments.iter().map(|moment| moment.0).collect();
    assert_eq!(times, [5, 6, 7]);
    assert_eq!(moments[2].1["drive.job_3.declared"], 3);
    for (old, new) in [
        ("b11 d3", "b111 d3"),
        ("b11 d3", "b12 d3"),
        ("b11 d3", "bx d3"),
        ("b11 d3", "b11 d4"),
        ("b11 d3", "1d3"),
        ("1k3", "2k3"),
        ("1k3", "1k4"),
        ("1k3", "b11 k3"),
        ("#6", "#5"),
        ("#6", "#4"),
        ("#5\n", ""),
        ("$end\n#6", "#6"),
        ("1 ms", "1 us"),
        ("$enddefinitions $end", ""),
        ("$upscope $end\n$upscope $end", "$upscope $end"),
        ("$upscope $end", "$upscope $end\n$upscope $end"),
        ("n records_in_this_ms", "n record"),
        ("integer 64 n", "integer 65 n"),
        ("integer 64 n", "real 64 n"),
    ] {
        let bad = good.replacen(old, new, 1);
        assert_ne!(bad, good, "{old}");
        assert!(read(&bad).is_err(), "{old} as {new}");
    }
}
