//! What speaks against a pass. A part of the gate that the output says nothing of counts
//! against it as a failed one does.

use crate::demand3;
use crate::output::{is_verdict, Check, Output, Part, KEPT, PARTS};
use crate::tree::{Crate, Tree};
use crate::words::TRUSTED;
use std::collections::BTreeSet;

#[derive(Default)]
pub struct Judgement {
    /// The gate itself failed, or its output is cut off.
    pub failed: bool,
    pub reasons: Vec<String>,
    pub notes: Vec<String>,
    /// Crates proved and edits refused, which is what the gate's last line counts.
    good: usize,
}

/// The end is judged by what was counted, so it comes last; the reasons then stand in the
/// order of the gate's parts.
pub fn judge(tree: &Tree, output: &Output) -> Judgement {
    let mut judgement = Judgement::default();
    for failure in &output.failures {
        judgement.fails(failure.clone());
    }
    judgement.crates(tree, output);
    judgement.edits(tree, output);
    judgement.axioms(tree, output);
    judgement.parts(output);
    judgement.model(tree, output);
    judgement.firmware(output);
    judgement.demands(tree);
    judgement.identity(tree, output);
    judgement.end(output);
    judgement
}

impl Judgement {
    fn against(&mut self, reason: String) {
        if !self.reasons.contains(&reason) {
            self.reasons.push(reason);
        }
    }

    fn fails(&mut self, reason: String) {
        self.failed = true;
        self.against(reason);
    }

    fn crates(&mut self, tree: &Tree, output: &Output) {
        for Crate { name, is_program, .. } in &tree.crates {
            let Some(check) = output.checks.get(name) else {
                self.against(format!("crate {name}: the output says nothing of it"));
                continue;
            };
            match check.result.as_str() {
                "proved" => {
                    self.good += 1;
                    self.check(name, check);
                }
                KEPT => self.good += 1,
                other => self.against(format!("crate {name}: {other}")),
            }
            if *is_program && !output.programs.contains(name) {
                self.against(format!("program {name}: the output does not say that it ran and wrote what it must"));
            } else if *is_program && !output.programs_of_rattle.contains(name) {
                self.notes.push(format!("The program {name} ran as LLVM builds it alone."));
            }
        }
        let kept = output.checks.values().filter(|check| check.result == KEPT).count();
        if kept > 0 {
            let all = tree.crates.len();
            self.notes.push(format!(
                "Of {all} crates {kept} were not proved in this run: an earlier run on this machine proved the same files."
            ));
        }
        for name in output.checks.keys() {
            if !tree.crates.iter().any(|item| item.name == *name) {
                self.against(format!("crate {name}: in the output, and not in crates.txt"));
            }
        }
    }

    fn check(&mut self, name: &str, check: &Check) {
        let proved = check.proved.len();
        match check.functions {
            None => self.against(format!("crate {name}: the output has no verdict of the prover")),
            Some(counted) if counted != proved => {
                self.against(format!("crate {name}: {counted} functions counted, {proved} named as proved"));
            }
            _ => {}
        }
        for word in check.rests.split(' ').skip(1) {
            if !TRUSTED.iter().any(|known| word.starts_with(known)) {
                self.against(format!("crate {name}: its verdict rests on {word}, which is not trusted here"));
            }
        }
    }

    fn edits(&mut self, tree: &Tree, output: &Output) {
        let mut unsaid = 0;
        for edit in &tree.edits {
            match output.trials.get(&edit.name) {
                None => unsaid += 1,
                Some(trial) if trial.result == "refused" => self.good += 1,
                Some(trial) => {
                    self.against(format!("must-fail edit {}: {} - it tried: {}", edit.name, trial.said, edit.tries));
                }
            }
        }
        if unsaid > 0 {
            let all = tree.edits.len();
            self.against(format!(
                "must-fail edits: the output says nothing of {unsaid} of {all} (MISSING in their table)"
            ));
        }
        for (name, trial) in &output.trials {
            if !tree.edits.iter().any(|edit| edit.name == *name) {
                self.against(format!("must-fail edit {name}: in the output, and not in the tree ({})", trial.said));
            }
        }
        self.well(output);
    }

    /// The line `ok; ..; must-fail edits: N refused, M bad; ..` counts as this sheet does, and none is bad.
    fn well(&mut self, output: &Output) {
        let Some(well) = &output.well else {
            self.against("rt ci: the output does not say that all is well".to_string());
            return;
        };
        let told = well.split("; ").find_map(|part| part.strip_prefix("must-fail edits: ")).unwrap_or("0 refused");
        let refused = output.trials.values().filter(|trial| trial.result == "refused").count();
        let words: Vec<&str> = told.split(' ').collect();
        if words.first() != Some(&refused.to_string().as_str()) || words.last() == Some(&"bad") {
            self.against(format!("rt ci says of the must-fail edits: {told}, and this sheet counts {refused} refused"));
        }
    }

    /// An axiom is expected of the toolchain's libraries that a program reaches, and of nothing else.
    fn axioms(&mut self, tree: &Tree, output: &Output) {
        for (name, check) in &output.checks {
            for axioms in &check.axioms {
                let origin = origin(tree, name, axioms);
                let is_program = tree.crates.iter().any(|item| item.name == *name && item.is_program);
                if !origin.starts_with("kit ") {
                    self.against(format!("axiom in crate {name}: {axioms} - {origin}"));
                } else if !is_program {
                    self.against(format!("axiom in crate {name}, which is no program: {axioms}"));
                }
            }
            if check.axiom_count > 0 && check.axioms.is_empty() {
                self.against(format!("crate {name}: {} axioms counted, and none named", check.axiom_count));
            }
        }
        for declared in &tree.axioms {
            self.against(format!("the sources declare what nothing proves: {declared}"));
        }
    }

    fn parts(&mut self, output: &Output) {
        for Part { what, by, begins } in PARTS {
            if !output.parts.contains_key(begins) {
                self.against(format!("{what} ({by}): the output does not say that it came to its end"));
            }
        }
    }

    fn model(&mut self, tree: &Tree, output: &Output) {
        let passed_some = |said: &String| said.contains(" passed") && !said.contains(" 0 passed");
        if output.model_tests.is_empty() {
            self.against("the model's own tests: the output says nothing of them".to_string());
        } else if !output.model_tests.iter().any(passed_some) {
            self.against("the model's own tests: none passed".to_string());
        }
        let unsaid = tree.breaks.iter().filter(|rule| !output.found.contains_key(&rule.name)).count();
        if unsaid > 0 {
            let all = tree.breaks.len();
            self.against(format!(
                "broken rules of the model: the output does not say that {unsaid} of {all} were found (MISSING in their table)"
            ));
        }
    }

    fn firmware(&mut self, output: &Output) {
        let not_run = |said: &&String| said.starts_with("not run");
        let says_more = |said: &String| !said.starts_with("not run") && !said.starts_with("archive sha256 ");
        if !output.firmware.iter().any(says_more) {
            self.against(
                "the firmware examples (.ci/firmware): the output does not say that they came to their end".to_string(),
            );
        }
        match output.archives.as_slice() {
            [] => self.against("the archive: the output does not tell its sum".to_string()),
            [first, others @ ..] => {
                if first.len() != 64 || others.iter().any(|sum| sum != first) {
                    self.against(format!(
                        "the archive: the output tells no one sum of it: {}",
                        output.archives.join(", ")
                    ));
                }
            }
        }
        for said in output.firmware.iter().filter(not_run) {
            self.notes.push(format!("The firmware examples: {said}"));
        }
    }

    fn demands(&mut self, tree: &Tree) {
        if tree.theorem.is_empty() {
            self.against("demand 3: no file of crates/promises/proofs has the theorem demand3".to_string());
        }
        for found in demand3::disagreements(&tree.statement, &demand3::SENTENCES) {
            self.against(format!("demand 3: {found}"));
        }
        for name in &tree.not_there {
            self.against(format!("the sheet names what the sources do not have: {name}"));
        }
    }

    fn identity(&mut self, tree: &Tree, output: &Output) {
        let now = |what: &str| tree.facts.get(what).map_or("not known", String::as_str);
        for (name, check) in &output.checks {
            let words = check.rests.split(' ');
            let logic = words.filter_map(|word| word.strip_prefix("sum=")).next().unwrap_or("");
            if !logic.is_empty() && !now("toolchain").contains(logic) {
                self.against(format!(
                    "crate {name} was proved with the logic {logic}, and this toolchain is {}",
                    now("toolchain")
                ));
            }
        }
        if now("state") != "clean" {
            self.against(format!("the tree is not its commit: {}", now("state")));
        }
        let then = |what: &str| output.facts.get(what).map_or("not said", String::as_str);
        if !output.facts.contains_key("sources") {
            self.against("the output does not name its sources, so that it is of this tree is not shown".to_string());
            return;
        }
        if then("toolchain") != now("toolchain") {
            self.against(format!(
                "the gate ran with the toolchain {}, and this one is {}",
                then("toolchain"),
                now("toolchain")
            ));
        }
        if then("sources") != now("sources") {
            self.against(format!("the gate ran on other sources, at commit {}", then("commit")));
        } else if then("commit") != now("commit") {
            self.notes
                .push(format!("The gate ran at commit {}, whose files that it reads are the same.", then("commit")));
        }
    }

    fn end(&mut self, output: &Output) {
        if let [first, others @ ..] = output.said_twice.as_slice() {
            let more = if others.is_empty() { String::new() } else { format!(" and of {} more", others.len()) };
            self.against(format!("the output speaks twice of {first}{more}, so it is not of one run"));
        }
        let last = &output.last;
        if !is_verdict(last) || !last.ends_with(" 0 failed") {
            self.fails(format!("the output does not end with 'N passed, 0 failed', but with: {last}"));
        } else if last.split(' ').next() != Some(self.good.to_string().as_str()) {
            self.against(format!("the output ends with '{last}', and this sheet counts {}", self.good));
        }
        if let Some(status) = output.facts.get("status").filter(|status| *status != "0") {
            self.fails(format!("the gate ended with status {status}"));
        }
    }
}

/// The library that each crate may use without naming it, and those whose C functions it calls.
const ALWAYS_THERE: [&str; 3] = ["std", "libc", "os"];

/// The toolchain's libraries that a crate reaches beside std: what crates.txt names and does not list.
pub fn kit_libraries(tree: &Tree, name: &str) -> BTreeSet<String> {
    let mut libraries = BTreeSet::new();
    let mut reached = BTreeSet::from([name]);
    let mut waiting = vec![name];
    while let Some(name) = waiting.pop() {
        let Some(item) = tree.crates.iter().find(|item| item.name == name) else {
            libraries.insert(name.to_string());
            continue;
        };
        waiting.extend(item.knows.iter().map(String::as_str).filter(|known| reached.insert(known)));
    }
    libraries
}

/// Where axioms, as a check names them, come from.
pub fn origin(tree: &Tree, name: &str, axioms: &str) -> String {
    let from = axioms.split(':').next().unwrap_or("");
    if from == "its own" || tree.crates.iter().any(|item| item.name == from) {
        "NOT OF THE KIT: declared in this repository".to_string()
    } else if ALWAYS_THERE.contains(&from) || kit_libraries(tree, name).contains(from) {
        format!("kit library {from}")
    } else {
        format!("NOT KNOWN: crates.txt names no library {from} for it")
    }
}
