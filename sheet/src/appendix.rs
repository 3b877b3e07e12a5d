//! The appendix: the statement of demand 3, and all that the first page only counts.

use crate::demand3;
use crate::document::{Block, Table};
use crate::judge::{kit_libraries, origin};
use crate::output::{KEPT, PARTS};
use crate::sheet::{Sheet, MISSING};
use crate::tree::{Crate, STATEMENT};

impl Sheet<'_> {
    pub fn statement(&mut self) {
        self.head("Demand 3, as the source states it");
        let same = self.output.facts.get("sources").is_some_and(|then| self.tree.facts.get("sources") == Some(then));
        self.paragraph(match (self.is_proved("promises"), same) {
            (false, _) => "NOT PROVED: the output does not say that the crate promises is proved. The theorem is:",
            (true, true) if self.is_kept("promises") => {
                "Proved by an earlier run of the same files on this machine, with the crate promises. The theorem is:"
            }
            (true, true) => "Proved in this run, with the crate promises. The theorem is:",
            (true, false) => "The output says that the crate promises is proved; that it is of the text below is not shown. The theorem is:",
        });
        self.blocks.push(Block::Code(self.tree.theorem.clone()));
        self.paragraph(&format!(
            "The statement, {STATEMENT}, word for word, with what each clause says in plain English beside it; \
             there T is the number of tokens, p the number of other live requests when the request is opened:"
        ));
        for piece in &self.tree.statement {
            let lines = piece.lines.clone();
            self.blocks.push(match &piece.clause {
                None => Block::Code(lines),
                Some(name) => Block::Clause(name.clone(), demand3::sentence(name).to_string(), lines),
            });
        }
    }

    pub fn crates(&mut self) {
        self.head("The crates, and how large they are");
        self.paragraph(
            "Lines are those that are neither empty nor comment: code in src, definitions and most laws with \
             their proofs in specs, other laws and proofs of functions in proofs. Of a crate that is kept, an \
             earlier run on this machine proved the same files, and its functions and axioms stand in the output \
             of that run.",
        );
        let counts = [">functions", ">src", ">specs", ">proofs", ">axioms", ">edits refused"];
        let mut table = Table::new(&[&["crate", "result"], &counts[..], &["kit libraries beside std"]].concat());
        let mut sums = [0; 4];
        for item in &self.tree.crates {
            let numbers = self.numbers_of(item);
            sums.iter_mut().zip(numbers).for_each(|(sum, number)| *sum += number);
            let [functions, src, specs, proofs] = numbers.map(|number| number.to_string());
            let functions = if self.is_kept(&item.name) { "-".to_string() } else { functions };
            let result = self.output.checks.get(&item.name).map_or(MISSING, |check| &check.result);
            let (axioms, edits) = (self.axioms_of(&item.name), self.edits_of(&item.name));
            let kit = Vec::from_iter(kit_libraries(self.tree, &item.name)).join(" ");
            let kit = if kit.is_empty() { "none" } else { &kit };
            table.row([&item.name, result, &functions, &src, &specs, &proofs, &axioms, &edits, kit]);
        }
        let [functions, src, specs, proofs] = sums.map(|sum| sum.to_string());
        let edits = format!("{} of {}", self.refused(""), self.tree.edits.len());
        table.row(["all", "", &functions, &src, &specs, &proofs, "", &edits, ""]);
        self.blocks.push(Block::Table(table));
    }

    /// Functions and lines.
    fn numbers_of(&self, item: &Crate) -> [usize; 4] {
        let functions = self.output.checks.get(&item.name).map_or(0, |check| check.proved.len());
        let [src, specs, proofs] = item.lines;
        [functions, src, specs, proofs]
    }

    /// A library's check names no axioms of the kit's libraries below it: the programs above it do.
    fn axioms_of(&self, name: &str) -> String {
        let Some(check) = self.check_of(name) else {
            return "-".to_string();
        };
        match (check.axioms.is_empty(), check.axiom_count) {
            (false, 0) => "NOT COUNTED".to_string(),
            (false, counted) => counted.to_string(),
            // An archive's check names those that it reaches, as a program's does.
            _ if kit_libraries(self.tree, name).is_empty() || self.programs().any(|program| program == name) => {
                "0".to_string()
            }
            _ => "see programs".to_string(),
        }
    }

    fn edits_of(&self, name: &str) -> String {
        let of = format!("{name}/");
        let all = self.tree.edits.iter().filter(|edit| edit.name.starts_with(&of)).count();
        let refused = self.refused(&of);
        match all {
            0 => "none".to_string(),
            _ if refused < all => format!("NOT ALL: {refused} of {all}"),
            _ => format!("{refused} of {all}"),
        }
    }

    pub fn assumed(&mut self) {
        self.head("Axioms, and the words of the verdicts");
        self.paragraph("Axioms, as the checks name them: functions whose contracts are assumed.");
        let mut table = Table::new(&["crate", "where from", "axioms"]);
        for (name, check) in &self.output.checks {
            for axioms in &check.axioms {
                table.row([name, &origin(self.tree, name, axioms), axioms]);
            }
        }
        for declared in &self.tree.axioms {
            table.row(["sources", "NOT OF THE KIT: declared in this repository", declared]);
        }
        if table.rows.is_empty() {
            table.row(["all", "-", "the output names none"]);
        }
        self.blocks.push(Block::Table(table));
        self.words_by_crate();
    }

    /// Crates that have the same to say share a row.
    fn words_by_crate(&mut self) {
        self.paragraph(
            "What the verdicts say they took on trust (the toolchain's own design guide says under \
             Verdict what the words mean), and C code that programs link:",
        );
        let mut shared: Vec<(String, Vec<&str>)> = Vec::new();
        let mut share = |words: &str, name| match shared.iter_mut().find(|(said, _)| said == words) {
            Some((_, names)) => names.push(name),
            None => shared.push((words.to_string(), vec![name])),
        };
        for item in &self.tree.crates {
            let check = self.output.checks.get(&item.name);
            let rests = check.map_or("", |check| &check.rests);
            share(
                match rests {
                    "" if self.is_kept(&item.name) => KEPT,
                    "" => "NOT SAID",
                    said => said,
                },
                &item.name,
            );
            if let Some(check) = check.filter(|check| !check.linked.is_empty()) {
                share(&check.linked, &item.name);
            }
        }
        let mut table = Table::new(&["words", "crates"]);
        for (words, names) in &shared {
            table.row([words, &names.join(" ")]);
        }
        self.blocks.push(Block::Table(table));
    }

    pub fn edits(&mut self) {
        self.head("Wrong versions that must be refused");
        let all = self.tree.edits.len();
        self.paragraph(&format!("{} of {all} were refused.", self.refused("")));
        let mut table = Table::new(&["edit", "result", "what it tried"]);
        for edit in &self.tree.edits {
            match self.output.trials.get(&edit.name) {
                Some(trial) => table.row([&edit.name, trial.result, &edit.tries]),
                None => table.row([&edit.name, MISSING, &edit.tries]),
            }
        }
        for (name, trial) in &self.output.trials {
            if !self.tree.edits.iter().any(|edit| edit.name == *name) {
                table.row([name, trial.result, "NOT IN THE TREE"]);
            }
        }
        self.blocks.push(Block::Table(table));
    }

    pub fn parts(&mut self) {
        self.head("What each part of the gate said");
        let mut table = Table::new(&["What", "By", "What it said"]);
        let ended =
            self.output.facts.get("ended").map_or("when it ended is not said".to_string(), |at| format!("ended {at}"));
        let output = self.tree.facts.get("output").map_or("not known", String::as_str);
        table.row(["all of it", ".ci/run", &format!("{ended}; the output is {output}")]);
        for part in &PARTS {
            table.row([part.what, part.by, self.said_by(part)]);
        }
        for said in self.firmware() {
            table.row(["archive in firmware", ".ci/firmware", said]);
        }
        self.blocks.push(Block::Table(table));
    }

    pub fn compared(&mut self) {
        self.head("What was compared with the model");
        if let Some(seed) = &self.output.seed {
            self.paragraph(&format!("To repeat the comparison: .ci/compare {seed}"));
        }
        let mut kinds = Table::new(&["input", ">recordings", ">records", ">rows", ">cases"]);
        let mut before = vec![0; 4];
        for (at, kind) in self.output.kinds.iter().enumerate() {
            // Stored input is compared before the first kind, and the output counts both together.
            let name = if at == 0 { format!("stored, and {}", kind.name) } else { kind.name.clone() };
            let new = |i: usize| kind.so_far.get(i).unwrap_or(&0).saturating_sub(before[i]).to_string();
            kinds.row([&name, &new(0), &new(1), &new(2), &new(3)]);
            before = kind.so_far.clone();
            before.resize(4, 0);
        }
        if !kinds.rows.is_empty() {
            self.blocks.push(Block::Table(kinds));
        }
        self.paragraph("Rules of the model that were broken on purpose, for the comparison to find:");
        let mut table = Table::new(&["rule", "found", "what was broken"]);
        for rule in &self.tree.breaks {
            table.row([&rule.name, self.output.found.get(&rule.name).map_or(MISSING, String::as_str), &rule.tries]);
        }
        self.blocks.push(Block::Table(table));
    }

    pub fn functions(&mut self) {
        self.head("Functions proved, by name");
        let mut table = Table::new(&["crate", "functions"]);
        for item in &self.tree.crates {
            let names = self.output.checks.get(&item.name).map(|check| check.proved.join(", "));
            let names = names.unwrap_or(MISSING.to_string());
            let none = if self.is_kept(&item.name) { "kept: named in the output of the earlier run" } else { "none" };
            table.row([&item.name, if names.is_empty() { none } else { &names }]);
        }
        self.blocks.push(Block::Table(table));
    }
}
