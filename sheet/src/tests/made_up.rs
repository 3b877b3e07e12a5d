//! A small tree, an output as .ci/run prints it when all of that tree passes, and what is
//! asked of a sheet.

use crate::demand3::{pieces, SENTENCES};
use crate::document::{Block, Document};
use crate::output::{facts_in, read};
use crate::page::page;
use crate::sheet::sheet;
use crate::text::text;
use crate::tree::{Crate, Edit, Tree};

pub const IDENTITY: &str = "\
evidence: toolchain rattle-kit-7 logic 0123abcd
evidence: commit c0ffee of 2026-11-16T19:00:00+00:00
evidence: state clean
evidence: sources sha256 5eed
";

const CRATES: &str = "laws: | arbiter: laws | in_place: arbiter | record: laws | writing: record | \
                      promises: arbiter | norakkeun: in_place | stream: io libc os | replay: stream laws";

pub fn tree() -> Tree {
    let mut facts = facts_in(IDENTITY);
    facts.insert("output".to_string(), "made.log, last written today".to_string());
    Tree {
        facts,
        crates: CRATES.split(" | ").map(made_crate).collect(),
        edits: vec![
            edit("laws/set_swapped", "the two sets are swapped"),
            edit("laws/set_always", "always a <set> & more"),
        ],
        breaks: vec![edit("order-by-tick", "turns are ticks"), edit("hour-refused", "an hour is refused")],
        statement: pieces(&statement()),
        theorem: vec![
            "crates/promises/proofs/Demand/Holds.antt:9".to_string(),
            "  pub demand3 : Demand3 ours".to_string(),
        ],
        ..Tree::default()
    }
}

fn made_crate(line: &str) -> Crate {
    let (name, knows) = line.split_once(':').unwrap();
    Crate {
        name: name.to_string(),
        knows: knows.split_whitespace().map(str::to_string).collect(),
        is_program: name == "replay",
        lines: [3, 4, 5],
    }
}

fn edit(name: &str, tries: &str) -> Edit {
    Edit { name: name.to_string(), tries: tries.to_string() }
}

/// A statement with the clauses that the sentences know.
pub fn statement() -> String {
    let clauses: String =
        SENTENCES.iter().map(|(name, _)| format!("    -- what {name} is\n    pub {name} : A → B < C\n")).collect();
    format!("-- Demand 3\nmodule _ (T : ℕ) where\n  pub record Demand3 : Type 0 where\n{clauses}")
}

pub const REFUSED: &str = "refused, as it must be: ./proofs/X/Answers.antt:1:2: error: `returns`";
pub const RAN: &str = "rt: replay ran, and wrote what its file stdout has\n";
pub const RAN_BY_RATTLE: &str = "rt: replay ran (built by Rattle's own compiler), and wrote what its file stdout has\n";
const EARLIER: &str = "an earlier run on this machine proved the same files over the same libraries";

/// The same output, but that of a crate only says that it is kept.
pub fn with_kept(output: &str, name: &str) -> String {
    let (before, rest) = output.split_once(&format!("== {name}\n")).unwrap();
    let (_, after) = rest.split_once(&format!("rt: {name} proved\n")).unwrap();
    format!("{before}rt: {name} is kept: {EARLIER}\n{after}")
}

pub fn output() -> String {
    let mut lines = IDENTITY.to_string();
    lines +=
        "sheet test: ok: 99 cases\nevidence test: 47 cases\ncommands test: ok: 7 commands\ncost test: as it must be\n";
    lines += "edits test: 2 edits, each named\nrefusals test: as the definitions say\nrules test: ok: 6 rules\n";
    for Crate { name, is_program, .. } in tree().crates {
        lines += &crate_lines(&name, is_program);
    }
    for edit in tree().edits {
        lines += &format!("rt: must-fail {}.edit: {REFUSED}\n", edit.name);
    }
    lines += RAN;
    lines += RAN_BY_RATTLE;
    lines += "rt: ok; handles allowed: none; must-fail edits: 2 refused; every proof and must-fail edit was done in this run\n";
    lines += "test result: ok. 31 passed; 0 failed; 0 ignored; 0 measured; 0 filtered out; finished in 0.10s\n";
    lines += "compare: bin/run-program with target/model/release/model, seed 4711\n";
    lines += "compare: each: alike (13 recordings, 89 records, 8 rows, 984 cases so far; 7 s)\n";
    lines += "compare: mixed: alike (14 recordings, 100 records, 18 rows, 20984 cases so far; 10 s)\n";
    lines += "compare: alike: 14 recordings with 100 records; seed 4711; 33 s\n";
    lines += "compare-table: alike: 325 files shown; seed 4712; 12 s\ncompare-desk: alike: 7 desks; seed 4713; 1 s\n";
    for rule in tree().breaks {
        lines += &format!("compare-breaks: {}: found: probe on x.cases, at number 3\n", rule.name);
    }
    lines += "compare-breaks: 2 broken rules, each found\n";
    lines += &format!("firmware: archive sha256 {}\n", sum());
    lines += &format!("firmware: both examples ran; page test: 9 listings; run; bundle test: libnorakkeun.a has sha256 {}; the sums hold\n", sum());
    lines + "cost: the whole gate took 61 min 1 s\n11 passed, 0 failed\n"
}

pub fn sum() -> String {
    "a1b2c3d4".repeat(8)
}

fn crate_lines(name: &str, is_program: bool) -> String {
    let (named, counted, linked) = if is_program {
        (
            "axioms libc: libc::read, libc::write (2 of the 50 declared)\naxioms os: os::c::rattle_errno, ... (2 of the 10 declared)\n\
             axioms std: none reached of the 2 declared\n",
            " axioms=4 target=x86_64-unknown-linux-gnu cpu=x86-64-v2",
            "linked target=x86_64-unknown-linux-gnu files=out/replay.o,/kit/lib/libos_c.a\n\
             linked target=x86_64-unknown-linux-gnu files=out/replay.by-rattle.o,/kit/lib/libos_c.a\n",
        )
    } else {
        ("axioms libc: none reached of the 50 declared\n", "", "")
    };
    format!(
        "== {name}\nstruct {name}::Made: proved\nfn {name}::made_up: proved\nfn {name}::made_up+run: proved\n{named}\
         logic=proved functions=1{counted} sum=0123abcd native=nat logic-built=trusted\n{linked}rt: {name} proved\n"
    )
}

// ---- changes; each of them must change something

pub fn replaced(output: &str, old: &str, new: &str) -> String {
    assert!(output.contains(old), "there is no {old} to change");
    output.replacen(old, new, 1)
}

pub fn without(output: &str, begins: &str) -> String {
    let kept: Vec<&str> = output.lines().filter(|line| !line.starts_with(begins)).collect();
    assert!(kept.len() < output.lines().count(), "no line begins with {begins}");
    kept.join("\n") + "\n"
}

// ---- what is asked of a sheet

pub fn sheet_of(output: &str) -> Document {
    sheet(&tree(), &read(output))
}

/// What both forms say before the first heading; of the page with its marks as they are.
pub fn tops(sheet: &Document) -> [String; 2] {
    let first = sheet.blocks.iter().find_map(|block| if let Block::Head(text) = block { Some(text) } else { None });
    let text = text(sheet).split(&format!("\n{}\n", first.unwrap())).next().unwrap().to_string();
    let page = page(sheet).split("<body>").nth(1).unwrap().split("<h2>").next().unwrap().to_string();
    [text, unescaped(&page)]
}

pub fn unescaped(page: &str) -> String {
    page.replace("&lt;", "<").replace("&gt;", ">").replace("&amp;", "&")
}

pub fn both_say_on_top(sheet: &Document, says: &[&str]) {
    for top in tops(sheet) {
        for said in says {
            assert!(top.contains(said), "not at the top: {said}\n{top}");
        }
    }
}

/// Only a sheet that nothing speaks against says that the gate passed, and has a line to sign on.
pub fn looks_passed(sheet: &Document) {
    assert!(sheet.passed, "{}", text(sheet));
    both_say_on_top(sheet, &["The gate passed: 11 passed, 0 failed"]);
    for form in [text(sheet), page(sheet)] {
        assert!(form.contains("Signature") && form.contains("What is signed"));
    }
    assert!(page(sheet).contains("class=\"pass\"") && !page(sheet).contains("class=\"fail\""));
    assert!(!text(sheet).contains("!!"));
}

pub fn looks_failed(sheet: &Document) {
    assert!(!sheet.passed, "{}", text(sheet));
    for form in [text(sheet), page(sheet)] {
        assert!(
            !form.contains("The gate passed")
                && !form.contains("Signature")
                && !form.contains("What is signed")
                && !form.contains("What was proved")
        );
    }
    assert!(page(sheet).contains("class=\"fail\"") && !page(sheet).contains("class=\"pass\""));
    let [text, page] = tops(sheet);
    assert!(text.contains("\n  !! ") && page.contains("class=\"against\""));
}

/// The output with one change looks failed, and both forms say so at their top.
pub fn against(output: &str, says: &[&str]) {
    let sheet = sheet_of(output);
    looks_failed(&sheet);
    both_say_on_top(&sheet, says);
}

/// The same of a tree with one change, whose output is of a tree without it.
pub fn tree_against(change: impl Fn(&mut Tree), says: &[&str]) {
    let mut tree = tree();
    change(&mut tree);
    let sheet = sheet(&tree, &read(&output()));
    looks_failed(&sheet);
    both_say_on_top(&sheet, says);
}
