//! Whatever speaks against a pass comes to the top of the sheet, also where the output ends
//! as passed all the same.

use super::made_up::*;
use crate::output::PARTS;
use crate::text::text;
use crate::tree::{axioms_in, declares, theorem_in};

const NOT_REFUSED: &str =
    "NOT REFUSED: the crate is still proved with this edit (one that means the same as before ..)";

fn with_edit_not_refused() -> String {
    replaced(&output(), &format!("laws/set_swapped.edit: {REFUSED}"), &format!("laws/set_swapped.edit: {NOT_REFUSED}"))
}

fn with_line_after(output: &str, line: &str, added: &str) -> String {
    replaced(output, &format!("{line}\n"), &format!("{line}\n{added}\n"))
}

fn with_axiom(output: &str) -> String {
    with_line_after(output, "fn arbiter::made_up: proved", "axioms arbiter: arbiter::magic (1 of the 1 declared)")
}

#[test]
fn an_edit_that_was_not_refused() {
    let tried = format!("laws/set_swapped: {NOT_REFUSED} - it tried: the two sets are swapped");
    against(&with_edit_not_refused(), &["NOT IN ORDER", &tried, "and this sheet counts 10"]);
}

#[test]
fn an_edit_that_is_bad() {
    let bad = replaced(
        &output(),
        &format!("laws/set_always.edit: {REFUSED}"),
        "laws/set_always.edit: BAD EDIT: no such line",
    );
    against(&bad, &["must-fail edit laws/set_always: BAD EDIT: no such line"]);
    let told = replaced(&bad, "edits: 2 refused", "edits: 1 refused, 1 bad");
    against(&told, &["rt ci says of the must-fail edits: 1 refused, 1 bad, and this sheet counts 1 refused"]);
    let is_row = |line: &str| line.starts_with("  laws/set_always ") && line.contains(" BAD EDIT ");
    assert!(text(&sheet_of(&bad)).lines().any(is_row));
}

#[test]
fn an_axiom() {
    let said = "arbiter::magic (1 of the 1 declared) - NOT OF THE KIT: declared in this repository";
    against(&with_axiom(&output()), &["NOT IN ORDER", "axiom in crate arbiter", said]);
}

#[test]
fn both_in_an_output_of_a_gate_that_failed() {
    let planted = with_axiom(&with_edit_not_refused());
    let planted = without(&planted, "11 passed") + "rt: FAILED: laws/set_swapped\ngate: FAILED: rt ci\n";
    against(
        &planted,
        &["THE GATE FAILED", NOT_REFUSED, "arbiter::magic", "rt: FAILED: laws/set_swapped", "gate: FAILED: rt ci"],
    );
}

#[test]
fn an_axiom_of_the_kit_in_a_library() {
    let axioms = "axioms libc: libc::write (1 of the 50 declared)";
    let planted = with_line_after(&output(), "fn stream::made_up: proved", axioms);
    against(&planted, &["axiom in crate stream, which is no program: libc: libc::write"]);
}

#[test]
fn an_axiom_of_a_library_that_crates_txt_does_not_name() {
    let planted =
        with_line_after(&output(), "fn replay::made_up: proved", "axioms magic: magic::wand (1 of the 1 declared)");
    against(&planted, &["axiom in crate replay: magic: magic::wand", "NOT KNOWN: crates.txt names no library magic"]);
}

#[test]
fn a_foreign_function_of_its_own() {
    let planted = replaced(&output(), "functions=1 sum", "functions=1 foreign=beep sum");
    against(&planted, &["axiom in crate laws: its own: beep - NOT OF THE KIT"]);
}

#[test]
fn axioms_that_are_counted_and_not_named() {
    against(&without(&output(), "axioms "), &["crate replay: 4 axioms counted, and none named"]);
}

#[test]
fn a_crate_that_is_not_proved() {
    let planted = replaced(&output(), "rt: record proved", "rt: record NOT PROVED");
    let says = ["THE GATE FAILED", "rt: record NOT PROVED", "crate record: NOT PROVED"];
    against(&planted, &says);
    for not in ["not proved", "no proof: expected answers in ./proofs/made_up/Answers.antt"] {
        let planted = replaced(&planted, "fn record::made_up: proved", &format!("fn record::made_up: {not}"));
        against(&planted, &[&says[..], &[&format!("fn record::made_up: {not}")]].concat());
    }
}

/// Only rt ci's own words for what it keeps count, and a crate is not both.
#[test]
fn a_crate_that_was_proved_earlier() {
    for earlier in ["proved (unchanged since it was last proved)", "proved (unchanged, 0 s)", "was proved"] {
        let planted = replaced(&output(), "rt: record proved", &format!("rt: record {earlier}"));
        against(&planted, &["crate record: the output says nothing of it", "and this sheet counts 10"]);
    }
    let both = with_line_after(&output(), "rt: record proved", "rt: record is kept: an earlier run ..");
    against(&both, &["the output speaks twice of crate record"]);
}

#[test]
fn an_output_in_which_rt_ci_does_not_say_that_all_is_well() {
    against(&without(&output(), "rt: ok; "), &["rt ci: the output does not say that all is well"]);
    let other = replaced(&output(), "edits: 2 refused", "edits: 3 refused");
    against(&other, &["rt ci says of the must-fail edits: 3 refused, and this sheet counts 2 refused"]);
}

#[test]
fn a_crate_that_the_output_leaves_out() {
    let planted = without(&without(&output(), "fn record::"), "rt: record proved");
    against(&planted, &["crate record: the output says nothing of it", "and this sheet counts 10"]);
}

#[test]
fn a_crate_that_crates_txt_does_not_list() {
    let planted = replaced(&output(), "rt: laws proved", "rt: lows proved");
    against(&planted, &["crate lows: in the output, and not in crates.txt"]);
}

#[test]
fn a_function_that_is_counted_and_not_named() {
    let planted = without(&output(), "fn record::made_up: ");
    against(&planted, &["crate record: 1 functions counted, 0 named as proved"]);
}

#[test]
fn a_crate_without_a_verdict() {
    let verdict = "logic=proved functions=1 sum=0123abcd native=nat logic-built=trusted\nrt: record";
    against(&replaced(&output(), verdict, "rt: record"), &["crate record: the output has no verdict of the prover"]);
}

#[test]
fn a_verdict_of_the_quick_loop() {
    for word in ["cache=trusted", "incremental=trusted", "pinned=no"] {
        let planted = replaced(&output(), "logic-built=trusted", &format!("logic-built=trusted {word}"));
        against(&planted, &[&format!("crate laws: its verdict rests on {word}, which is not trusted here")]);
    }
}

#[test]
fn an_edit_that_the_output_leaves_out() {
    against(&without(&output(), "rt: must-fail laws/set_always"), &["the output says nothing of 1 of 2"]);
}

#[test]
fn an_edit_that_is_not_in_the_tree() {
    let planted =
        with_line_after(&output(), "rt: laws proved", "rt: must-fail laws/other.edit: refused, as it must be");
    against(&planted, &["must-fail edit laws/other: in the output, and not in the tree"]);
}

#[test]
fn a_program_that_was_not_run() {
    let planted = replaced(&output(), RAN, "rt: replay was not run: setpriv failed here\n");
    against(&planted, &["program replay: the output does not say that it ran"]);
    let planted =
        replaced(&output(), RAN, "rt: replay: the program ended with status 1, and not 0\nrt: FAILED: replay (run)\n");
    against(&planted, &["THE GATE FAILED", "rt: FAILED: replay (run)"]);
}

#[test]
fn what_rt_says_at_its_end() {
    for said in ["rt: FAILED: laws", "rt: FAILED: laws/set_swapped.edit replay (run)"] {
        against(&with_line_after(&output(), "rt: laws proved", said), &["THE GATE FAILED", said]);
    }
}

/// Every part of the gate, with its line spoilt, and with a failure in its place.
#[test]
fn a_part_of_which_nothing_is_said_or_that_failed() {
    for part in PARTS {
        let begins = if part.begins == "compare-breaks: " { "compare-breaks: 2 broken" } else { part.begins };
        let unsaid = format!("{} ({}): the output does not say that it came to its end", part.what, part.by);
        against(&replaced(&output(), begins, "something else"), &["NOT IN ORDER", &unsaid]);
        let not_run = format!("{begins}not run on this machine: ");
        against(&replaced(&output(), begins, &not_run), &["NOT IN ORDER", &unsaid]);
        let failure = format!("{}: FAILED: some <reason>", part.begins.split(": ").next().unwrap());
        against(&replaced(&output(), begins, &format!("\n{failure}\n")), &["THE GATE FAILED", &failure, &unsaid]);
    }
}

#[test]
fn a_part_that_says_that_it_failed_before_a_verdict() {
    let names = [
        "gate",
        "sheet test",
        "evidence test",
        "commands test",
        "cost test",
        "edits test",
        "refusals test",
        "rules test",
        "page test",
        "bundle test",
        "firmware",
        "compare",
        "compare-table",
        "compare-desk",
        "compare-breaks",
    ];
    for name in names {
        for word in ["FAILED", "DIFFERENCE"] {
            let failure = format!("{name}: {word}: probe on x.cases, at number 3");
            against(
                &replaced(&output(), "\n11 passed", &format!("\n{failure}\n11 passed")),
                &["THE GATE FAILED", &failure],
            );
        }
    }
}

#[test]
fn the_models_own_tests() {
    against(&without(&output(), "test result: "), &["the model's own tests: the output says nothing of them"]);
    against(&replaced(&output(), "ok. 31 passed", "ok. 0 passed"), &["the model's own tests: none passed"]);
    let failed = replaced(&output(), "test result: ok. 31 passed; 0", "test result: FAILED. 30 passed; 1");
    against(&failed, &["THE GATE FAILED", "the model's own tests: test result: FAILED. 30 passed; 1 failed"]);
}

#[test]
fn a_broken_rule_that_was_not_found() {
    against(
        &without(&output(), "compare-breaks: order-by-tick: found"),
        &["the output does not say that 1 of 2 were found"],
    );
}

#[test]
fn firmware_examples_of_which_nothing_is_said() {
    let unsaid = "the firmware examples (.ci/firmware): the output does not say that they came to their end";
    against(&without(&output(), "firmware: both"), &[unsaid]);
    let not_run = replaced(&output(), "firmware: both examples ran", "firmware: not run on this machine: both");
    against(&not_run, &[unsaid]);
    against(
        &replaced(&output(), "firmware: both examples ran", "firmware: FAILED: the example in C"),
        &["THE GATE FAILED", unsaid],
    );
}

#[test]
fn an_archive_without_a_sum_or_with_two() {
    let unsaid = replaced(&without(&output(), "firmware: archive sha256"), "libnorakkeun.a has sha256", "it has");
    against(&unsaid, &["the archive: the output does not tell its sum"]);
    let other = replaced(&output(), "a has sha256 a1", "a has sha256 00");
    against(&other, &["the archive: the output tells no one sum of it: a1b2"]);
    let cut = replaced(&output(), &sum(), "a1b2");
    against(&cut, &["the archive: the output tells no one sum of it"]);
}

#[test]
fn an_output_that_is_cut_off_or_empty() {
    let cut = output().split("compare: mixed").next().unwrap().to_string();
    against(&cut, &["THE GATE FAILED", "programs and model", "but with: compare: each: alike"]);
    let within_a_line = output().split("::made_up+run: proved\naxioms libc: libc::read").next().unwrap().to_string();
    against(&within_a_line, &["THE GATE FAILED", "crate replay: the output says nothing of it", "but with: fn replay"]);
    against(
        "",
        &["THE GATE FAILED", "crate arbiter: the output says nothing of it", "the output does not name its sources"],
    );
}

#[test]
fn a_last_line_with_a_failure_or_another_count() {
    against(
        &replaced(&output(), "11 passed, 0 failed", "10 passed, 1 failed"),
        &["THE GATE FAILED", "the output says: 10 passed, 1 failed"],
    );
    against(
        &replaced(&output(), "11 passed,", "12 passed,"),
        &["ends with '12 passed, 0 failed', and this sheet counts 11"],
    );
}

#[test]
fn two_runs_in_one_output() {
    against(&(output() + &output()), &["the output speaks twice of the gate's toolchain and of "]);
    let once = [
        ("rt: record proved", "crate record"),
        (&format!("rt: must-fail laws/set_always.edit: {REFUSED}"), "must-fail edit laws/set_always"),
        ("compare: alike: 14 recordings with 100 records; seed 4711; 33 s", "programs and model"),
        ("compare-breaks: order-by-tick: found: probe on x.cases, at number 3", "broken rule order-by-tick"),
        ("11 passed, 0 failed", "'N passed, 0 failed'"),
    ];
    for (line, what) in once {
        let twice = with_line_after(&output(), line, line);
        against(&twice, &[&format!("the output speaks twice of {what}, so it is not of one run")]);
    }
}

#[test]
fn an_output_of_another_tree() {
    against(&without(&output(), "evidence: "), &["the output does not name its sources"]);
    let other = replaced(&output(), "evidence: toolchain rattle-kit-7", "evidence: toolchain rattle-kit-0");
    against(&other, &["the gate ran with the toolchain rattle-kit-0 logic 0123abcd, and this one is rattle-kit-7"]);
    let other = replaced(&output(), "sha256 5eed", "sha256 feed");
    against(&other, &["the gate ran on other sources, at commit c0ffee"]);
    let other = replaced(&output(), "sum=0123abcd", "sum=ffff");
    against(&other, &["crate laws was proved with the logic ffff, and this toolchain is rattle-kit-7"]);
}

#[test]
fn a_status_that_is_not_0() {
    against(&format!("evidence: status 3\n{}", output()), &["THE GATE FAILED", "the gate ended with status 3"]);
}

// ---- what the tree says against it

#[test]
fn a_tree_that_is_not_its_commit() {
    let state = |tree: &mut crate::tree::Tree| {
        tree.facts.insert("state".to_string(), "1 files differ from the commit".to_string());
    };
    tree_against(state, &["the tree is not its commit: 1 files differ from the commit"]);
}

#[test]
fn an_axiom_in_the_sources() {
    let sources = "-- axiom in a comment\npub axioms : A\n  axiom pub planted : A\nunsafe extern \"C\" {\nextern \"C\" fn f() {\n";
    let found = axioms_in("crates/laws/specs/X.antt", sources);
    assert_eq!(
        found,
        ["crates/laws/specs/X.antt:3: axiom pub planted : A", "crates/laws/specs/X.antt:4: unsafe extern \"C\" {"]
    );
    let declared = |tree: &mut crate::tree::Tree| tree.axioms = found.clone();
    tree_against(declared, &["the sources declare what nothing proves: crates/laws/specs/X.antt:3: axiom pub planted"]);
}

#[test]
fn no_theorem() {
    tree_against(|tree| tree.theorem.clear(), &["no file of crates/promises/proofs has the theorem demand3"]);
    let module = "module _ (T : ℕ)\n  (R : ℕ) where\n  pub demand3 : Demand3 T R\n";
    let found = theorem_in("Holds.antt", &format!("module Other where\n{module}"));
    assert_eq!(found, ["Holds.antt:4", "module _ (T : ℕ)", "  (R : ℕ) where", "  pub demand3 : Demand3 T R"]);
    assert!(theorem_in("Holds.antt", &module.replace("demand3 :", "demand_3 :")).is_empty());
}

#[test]
fn a_name_that_its_file_does_not_have() {
    let gone = |tree: &mut crate::tree::Tree| tree.not_there.push("Answered in X.antt".to_string());
    tree_against(gone, &["the sheet names what the sources do not have: Answered in X.antt"]);
    assert!(declares("pub record Answered (n : ℕ) : Type 0 where\n", "Answered"));
    assert!(declares("abbrev pub Answered : Type 0\n", "Answered"));
    assert!(!declares("pub record AnsweredInto (a : Answered)\nAnswered = x\n-- pub Answered\n", "Answered"));
}

#[test]
fn a_clause_without_a_sentence_or_a_sentence_without_a_clause() {
    let with = |old: &str, new: &str| crate::demand3::pieces(&replaced(&statement(), old, new));
    let added = with("    pub token_comes :", "    pub brand_new : A\n    pub token_comes :");
    tree_against(|tree| tree.statement = added.clone(), &["no sentence says what the clause brand_new means"]);
    let removed = with("    pub token_comes : A → B < C\n", "");
    tree_against(
        |tree| tree.statement = removed.clone(),
        &["a sentence says what token_comes means, which is no clause"],
    );
    let no_record = with("pub record Demand3 ", "pub record Demand4 ");
    tree_against(|tree| tree.statement = no_record.clone(), &["the statement has no record Demand3"]);
}
