//! The sheet as a document: a first page that is enough to sign by, and the appendix.

use crate::document::{Block, Document};
use crate::judge::{judge, Judgement};
use crate::output::{Check, Output, Part, KEPT};
use crate::tree::Tree;

pub const MISSING: &str = "MISSING";

pub fn sheet(tree: &Tree, output: &Output) -> Document {
    let judgement = judge(tree, output);
    let passed = judgement.reasons.is_empty();
    let verdict = verdict(&judgement, output);
    let commit = output.facts.get("commit").map_or("not said", String::as_str);
    let mut sheet = Sheet { tree, output, blocks: Vec::new() };
    sheet.top(judgement);
    sheet.signed(passed);
    sheet.proved(passed);
    sheet.trusted();
    sheet.not_claimed();
    sheet.ran();
    if passed {
        sheet.blocks.push(Block::Sign(["Name", "Date", "Signature"]));
    }
    sheet.blocks.push(Block::Appendix("Appendix".to_string()));
    sheet.statement();
    sheet.crates();
    sheet.assumed();
    sheet.edits();
    sheet.parts();
    sheet.compared();
    sheet.functions();
    let foot = format!("Norakkeun, commit {commit}: {verdict}");
    Document { title: "Norakkeun: what the gate showed".to_string(), verdict, passed, foot, blocks: sheet.blocks }
}

fn verdict(judgement: &Judgement, output: &Output) -> String {
    if judgement.failed {
        "THE GATE FAILED".to_string()
    } else if !judgement.reasons.is_empty() {
        "NOT IN ORDER, although the output ends as passed".to_string()
    } else {
        format!("The gate passed: {}", output.last)
    }
}

pub struct Sheet<'a> {
    pub tree: &'a Tree,
    pub output: &'a Output,
    pub blocks: Vec<Block>,
}

/// What both parts of the sheet ask.
impl Sheet<'_> {
    pub fn head(&mut self, text: &str) {
        self.blocks.push(Block::Head(text.to_string()));
    }

    pub fn paragraph(&mut self, text: &str) {
        self.blocks.push(Block::Paragraph(text.to_string()));
    }

    pub fn is_proved(&self, name: &str) -> bool {
        self.output.checks.get(name).is_some_and(|check| check.result == "proved" || check.result == KEPT)
    }

    /// What this very run says of the crate's check.
    pub fn check_of(&self, name: &str) -> Option<&Check> {
        self.output.checks.get(name).filter(|check| check.result == "proved")
    }

    pub fn is_kept(&self, name: &str) -> bool {
        self.output.checks.get(name).is_some_and(|check| check.result == KEPT)
    }

    pub fn programs(&self) -> impl Iterator<Item = &str> {
        self.tree.crates.iter().filter(|item| item.is_program).map(|item| item.name.as_str())
    }

    pub fn said_by(&self, part: &Part) -> &str {
        self.output.parts.get(part.begins).map_or(MISSING, String::as_str)
    }

    pub fn firmware(&self) -> impl Iterator<Item = &String> {
        self.output.firmware.iter().filter(|said| !said.starts_with("archive sha256 "))
    }

    pub fn refused(&self, of: &str) -> usize {
        let trials = self.output.trials.iter();
        let of_tree = |name: &String| self.tree.edits.iter().any(|edit| edit.name == *name);
        trials.filter(|(name, trial)| name.starts_with(of) && trial.result == "refused" && of_tree(name)).count()
    }
}
