//! The first page, which is enough to sign by.

use crate::document::{Block, Table};
use crate::judge::{kit_libraries, Judgement};
use crate::output::{Part, PARTS};
use crate::sheet::{Sheet, MISSING};
use crate::words;
use std::collections::BTreeSet;

impl Sheet<'_> {
    pub fn top(&mut self, judgement: Judgement) {
        self.blocks.extend(judgement.reasons.into_iter().map(Block::Against));
        self.blocks.extend(judgement.notes.into_iter().map(Block::Note));
    }

    pub fn signed(&mut self, passed: bool) {
        let mut table = Table::new(&["What", "Is"]);
        for (what, fact) in
            [("commit", "commit"), ("tree", "state"), ("sources", "sources"), ("toolchain", "toolchain")]
        {
            let now = self.tree.facts.get(fact).map_or("not known", String::as_str);
            match self.output.facts.get(fact) {
                None => table.row([what, &format!("NOT SAID by the output; of this tree: {now}")]),
                Some(then) if then == now => table.row([what, then]),
                Some(then) => {
                    table.row([what, then]);
                    table.row([&format!("{what} now"), now]);
                }
            }
        }
        let archive = self.output.archives.first();
        table.row(["archive", &archive.map_or(MISSING.to_string(), |sum| format!("sha256 {sum}"))]);
        self.head(if passed { "What is signed" } else { "Of what this is, and nothing of it is signed" });
        self.blocks.push(Block::Table(table));
        self.paragraph(words::HOW_TO_MAKE_AGAIN);
    }

    pub fn proved(&mut self, passed: bool) {
        let mut table = Table::new(&["For", "In plain words", "Carried by"]);
        for demand in &words::DEMANDS {
            let carried: Vec<String> = demand.carried_by.iter().map(|carried| self.carried(carried)).collect();
            table.row([demand.number, demand.proved, &carried.join("; ")]);
        }
        self.head(if passed { "What was proved" } else { "What is to be proved" });
        self.blocks.push(Block::Table(table));
        self.paragraph(
            "The demands are those of document 00. `docs/PROMISES.md` says more of what carries them; the \
             appendix has demand 3, clause by clause.",
        );
    }

    /// The names, their file, and whether its crate is proved.
    fn carried(&self, (names, file): &(&[&str], &str)) -> String {
        let name = file.split('/').nth(1).unwrap_or("");
        let not = if self.is_proved(name) { "" } else { "NOT PROVED: " };
        let names: Vec<String> = names.iter().map(|name| format!("`{name}`")).collect();
        format!("{not}{} in {file}", names.join(", "))
    }

    pub fn trusted(&mut self) {
        let mut table = Table::new(&["Of what", "What is trusted"]);
        table.row(["the prover (antt)", words::PROVER]);
        table.row(["code generator (LLVM)", words::CODE_GENERATOR]);
        table.row(["definitions", words::DEFINITIONS]);
        table.row(["for the archive", &format!("{}. {}", words::OF_THE_ARCHIVE, self.axioms_of_the_archive())]);
        table.row(["for the programs", &self.trust_of_programs()]);
        self.head("What is trusted");
        self.blocks.push(Block::Table(table));
    }

    fn axioms_of_the_archive(&self) -> String {
        let libraries = Vec::from_iter(kit_libraries(self.tree, "norakkeun"));
        if libraries.is_empty() && self.is_kept("norakkeun") {
            "It names no library of the toolchain; of which C functions its proofs assume something, the output of the \
             earlier run that proved it tells"
                .to_string()
        } else if libraries.is_empty() {
            "Its proofs assume nothing of any C function".to_string()
        } else {
            format!("It uses the toolchain's libraries {}, which assume C functions", libraries.join(", "))
        }
    }

    /// The names of the C functions are those that the checks give. Where there are many, a
    /// check names some and puts `...` for the others.
    fn trust_of_programs(&self) -> String {
        let names: Vec<&str> = self.programs().collect();
        let checks = || names.iter().filter_map(|name| self.output.checks.get(*name));
        let mut functions: BTreeSet<&str> =
            checks().flat_map(|check| &check.axioms).flat_map(|line| c_functions(line)).collect();
        let others = if functions.remove("...") { ", and some that the checks count and do not name" } else { "" };
        let functions: Vec<String> = functions.iter().map(|name| format!("`{name}`")).collect();
        let linked = checks().flat_map(|check| check.linked.split(", ")).filter(|file| !file.is_empty());
        let linked: BTreeSet<&str> = linked.filter_map(|file| file.rsplit('/').next()).collect();
        let kept: Vec<&str> = names.iter().copied().filter(|name| self.is_kept(name)).collect();
        let earlier = if kept.is_empty() {
            String::new()
        } else {
            format!(" (what {} call and link, the output of the earlier run that proved them tells)", kept.join(", "))
        };
        format!(
            "also the linker and the operating system; the C functions that {} call: {}{others}; the C code \
             that the toolchain links into them: {}{earlier}. That a program hands its bytes to the proved \
             functions and prints what they answer is compared, not proved",
            names.join(", "),
            functions.join(", "),
            Vec::from_iter(linked).join(", "),
        )
    }

    pub fn not_claimed(&mut self) {
        self.head("What is not claimed");
        self.blocks.push(Block::List(words::NOT_CLAIMED.iter().map(|item| item.to_string()).collect()));
    }

    pub fn ran(&mut self) {
        let mut table = Table::new(&["What", "By", "How much, as the output says"]);
        let all = self.tree.crates.len();
        let now = self.tree.crates.iter().filter(|item| self.check_of(&item.name).is_some()).count();
        let kept = self.tree.crates.iter().filter(|item| self.is_kept(&item.name)).count();
        let functions: usize = self.output.checks.values().map(|check| check.proved.len()).sum();
        let earlier = match kept {
            0 => String::new(),
            _ => format!("; {kept} by an earlier run of the same files on this machine"),
        };
        table.row([
            "proofs",
            "rt ci",
            &format!("{now} of {all} crates, with {functions} functions, proved from nothing in this run{earlier}"),
        ]);
        let refused = format!("{} of {} refused, as they must be", self.refused(""), self.tree.edits.len());
        table.row(["wrong versions", "rt ci", &refused]);
        let wrote: Vec<&str> = self.programs().filter(|name| self.output.programs.contains(*name)).collect();
        let both = wrote.iter().filter(|name| self.output.programs_of_rattle.contains(**name)).count();
        let programs = format!(
            "{} ran and wrote what is stored: {}; {both} of them also as Rattle's own compiler builds them",
            wrote.len(),
            wrote.join(", ")
        );
        table.row(["programs", "rt ci", &programs]);
        let tests = self.output.model_tests.join(" | ");
        table.row(["tests of the model", "cargo test", if tests.is_empty() { MISSING } else { &tests }]);
        for part in PARTS.iter().filter(|part| !part.is_test()) {
            table.row([part.what, part.by, &shortened(self.said_by(part))]);
        }
        for said in self.firmware() {
            table.row(["archive in firmware", ".ci/firmware", &shortened(said)]);
        }
        table.row(["tests", "tests/", &self.tests()]);
        self.head("What was run");
        self.blocks.push(Block::Table(table));
    }

    fn tests(&self) -> String {
        let tests = PARTS.iter().filter(|part| part.is_test());
        let (said, missing): (Vec<&Part>, Vec<&Part>) = tests.partition(|part| self.said_by(part) != MISSING);
        let names = |parts: Vec<&Part>| {
            parts.iter().map(|part| part.by.trim_start_matches("tests/")).collect::<Vec<&str>>().join(", ")
        };
        match missing.len() {
            0 => format!("{} passed: {}", said.len(), names(said)),
            _ => format!("{MISSING}: {}; passed: {}", names(missing), names(said)),
        }
    }
}

/// Without what occurred, which the appendix has.
fn shortened(said: &str) -> String {
    let mut parts = said.split("; occurred: ");
    let first = parts.next().unwrap_or("").to_string();
    first + &parts.map(|part| part.find("; seed ").map_or("", |at| &part[at..])).collect::<String>()
}

/// The last parts of the names in `LIBRARY: a::b, c::d (2 of the 9 declared)`.
fn c_functions(line: &str) -> impl Iterator<Item = &str> {
    let names = line.split_once(": ").map_or("", |(_, names)| names);
    let names = names.split(" (").next().unwrap_or("");
    names.split(", ").map(|name| name.rsplit("::").next().unwrap_or(name))
}
