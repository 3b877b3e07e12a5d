//! A sheet that nothing speaks against, and notes that do not.

use super::made_up::*;
use crate::document::Block;
use crate::output::read;
use crate::page::page;
use crate::sheet::sheet;
use crate::text::text;
use crate::words::{DEMANDS, NOT_CLAIMED};

#[test]
fn all_passes() {
    let sheet = sheet_of(&output());
    looks_passed(&sheet);
    assert!(!tops(&sheet)[0].contains("  -- "));
}

/// What is asked of the first page stands before the appendix, in both forms.
#[test]
fn the_first_page_is_enough_to_sign_by() {
    let sheet = sheet_of(&output());
    let sum = sum();
    let signed = ["c0ffee of 2026", "sha256 5eed", &sum, "rattle-kit-7", "--archive norakkeun", "bin/bundle"];
    let proved = ["demand3", "crates/promises/proofs/Demand/Holds.antt", "AnsweredInto", "one_record"];
    let trusted = ["LLVM", "norakkeun.h", "memcpy", "linker", "libos_c.a", "rattle_errno", "write", "do not name"];
    let compared = ["31 passed", "seed 4711", "seed 4712", "seed 4713", "2 broken rules", "both examples ran"];
    let ran = [
        "9 of 9 crates, with 9 functions",
        "2 of 2 refused",
        "sheet, evidence, commands, cost, edits, refusals, rules",
    ];
    let says =
        [&signed[..], &proved, &trusted, &compared, &ran, &["Milliseconds", "holder", "an hour", "Signature"]].concat();
    let first_of_text = text(&sheet).split("\nAppendix\n").next().unwrap().to_string();
    let first_of_page = page(&sheet).split("<h1 class=\"appendix\">").next().unwrap().to_string();
    assert!(first_of_text.len() < text(&sheet).len() && first_of_page.len() < page(&sheet).len());
    for said in says {
        assert!(first_of_text.contains(said) && first_of_page.contains(said), "not on the first page: {said}");
    }
    assert!(!first_of_text.contains("replay.o"), "its own object is no C code");
    for words in DEMANDS.iter().map(|demand| demand.proved).chain(NOT_CLAIMED) {
        let page = unescaped(&first_of_page).replace("<code>", "`").replace("</code>", "`");
        assert!(page.contains(words), "not on the first page: {words}");
    }
}

/// bin/bundle finds these rows between these headings.
#[test]
fn rows_of_what_is_signed() {
    let text = text(&sheet_of(&output()));
    let (_, rest) = text.split_once("\nWhat is signed\n").unwrap();
    let (rows, _) = rest.split_once("\nWhat was proved\n").unwrap();
    let archive = format!("  archive    sha256 {}", sum());
    for row in
        ["  commit     c0ffee of 2026-11-16T19:00:00+00:00", "  tree       clean", "  sources    sha256 5eed", &archive]
    {
        assert!(rows.lines().any(|line| line == row), "{row}\n{rows}");
    }
}

#[test]
fn the_appendix_has_the_rest() {
    let sheet = sheet_of(&output());
    let text = text(&sheet);
    let appendix = text.split("\nAppendix\n").nth(1).unwrap();
    let says = [
        "Proved in this run",
        "kit library libc",
        "always a <set> & more",
        "an hour is refused",
        "99 cases",
        "6 rules",
        "replay::made_up",
        ".ci/compare 4711",
    ];
    for said in says {
        assert!(appendix.contains(said), "not in the appendix: {said}");
    }
}

/// The counts of a kind are those since the one before it.
#[test]
fn kinds_of_input() {
    let sheet = sheet_of(&output());
    let has_row = |row: [&str; 5]| {
        sheet
            .blocks
            .iter()
            .any(|block| matches!(block, Block::Table(table) if table.rows.iter().any(|found| found == &row)))
    };
    assert!(has_row(["stored, and each", "13", "89", "8", "984"]));
    assert!(has_row(["mixed", "1", "11", "10", "20000"]));
}

#[test]
fn another_commit_of_the_same_sources() {
    let sheet = sheet_of(&replaced(&output(), "commit c0ffee", "commit decaf"));
    looks_passed(&sheet);
    both_say_on_top(&sheet, &["The gate ran at commit decaf of 2026"]);
    assert!(text(&sheet).contains("  commit      decaf of") && text(&sheet).contains("  commit now  c0ffee of"));
}

#[test]
fn firmware_that_this_machine_does_not_run() {
    let sheet = sheet_of(&replaced(
        &output(),
        "firmware: both",
        "firmware: not run on this machine: the example in Rust\nfirmware: both",
    ));
    looks_passed(&sheet);
    both_say_on_top(&sheet, &["The firmware examples: not run on this machine: the example in Rust"]);
    let (_, rest) = text(&sheet).split_once("\nWhat was run\n").map(|(a, b)| (a.to_string(), b.to_string())).unwrap();
    assert!(rest.contains("not run on this machine"));
}

/// The statement is the tree's; it is what was proved only if the gate ran on these very sources.
#[test]
fn demand_3_of_other_sources_or_not_proved() {
    let other = text(&sheet_of(&replaced(&output(), "sha256 5eed", "sha256 feed")));
    assert!(other.contains("that it is of the text below is not shown") && !other.contains("Proved in this run"));
    let not = text(&sheet_of(&replaced(&output(), "rt: promises proved", "rt: promises NOT PROVED")));
    assert!(not.contains("NOT PROVED: the output does not say") && not.contains("NOT PROVED: `demand3`"));
}

#[test]
fn an_archive_that_reaches_a_library_of_the_kit() {
    let mut tree = tree();
    tree.crates.iter_mut().find(|item| item.name == "norakkeun").unwrap().knows.push("stream".to_string());
    let page = page(&sheet(&tree, &read(&output())));
    assert!(page.contains("It uses the toolchain's libraries io, libc, os,") && !page.contains("assume nothing"));
}

/// What rt ci takes from an earlier run of the same files passes, and the sheet says so and claims no more.
#[test]
fn crates_that_are_kept() {
    let kept = ["promises", "norakkeun", "replay"].iter().fold(output(), |output, name| with_kept(&output, name));
    let sheet = sheet_of(&kept);
    looks_passed(&sheet);
    both_say_on_top(&sheet, &["Of 9 crates 3 were not proved in this run"]);
    let text = text(&sheet);
    let says = [
        "6 of 9 crates, with 6 functions",
        "3 by an earlier run of the same files",
        "Proved by an earlier run of the same files",
        "kept: named in the output of the earlier run",
    ];
    for said in says {
        assert!(text.split_whitespace().collect::<Vec<&str>>().join(" ").contains(said), "not said: {said}\n{text}");
    }
    assert!(!text.contains("Proved in this run") && !text.contains("assume nothing of any C function"));
}

#[test]
fn a_program_that_one_compiler_alone_builds() {
    let sheet = sheet_of(&replaced(&output(), RAN_BY_RATTLE, ""));
    looks_passed(&sheet);
    both_say_on_top(&sheet, &["The program replay ran as LLVM builds it alone."]);
}
