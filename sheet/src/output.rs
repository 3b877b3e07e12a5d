//! What an output of the gate says.
//!
//! What a crate's check prints stands between a line `== NAME` and the line of rt that ends
//! it, so it is gathered in `current` until that line comes.

use std::collections::{BTreeMap, BTreeSet};

/// What the tree, or an output, says of itself: toolchain, commit, state, sources and more.
pub type Facts = BTreeMap<String, String>;

/// A part of the gate that tells in one line how it ended.
pub struct Part {
    pub what: &'static str,
    pub by: &'static str,
    /// How that line begins. An output that has none such speaks against a pass.
    pub begins: &'static str,
}

impl Part {
    pub fn is_test(&self) -> bool {
        self.by.starts_with("tests/")
    }
}

const fn part(what: &'static str, by: &'static str, begins: &'static str) -> Part {
    Part { what, by, begins }
}

pub const PARTS: [Part; 13] = [
    part("programs and model", ".ci/compare", "compare: alike: "),
    part("program table and model", ".ci/compare-table", "compare-table: alike: "),
    part("program desktool and model", ".ci/compare-desk", "compare-desk: alike: "),
    part("broken rules of model", ".ci/compare-breaks", "compare-breaks: "),
    part("test of this sheet", "tests/sheet", "sheet test: ok: "),
    part("test of bin/evidence", "tests/evidence", "evidence test: "),
    part("test of the commands", "tests/commands", "commands test: ok: "),
    part("test of the cost", "tests/cost", "cost test: "),
    part("names of wrong versions", "tests/edits", "edits test: "),
    part("table of refusals", "tests/refusals", "refusals test: "),
    part("page of the rules", "tests/rules", "rules test: ok: "),
    part("page for firmware", "tests/page", "page test: "),
    part("bundle for firmware", "tests/bundle", "bundle test: "),
];

#[derive(Default)]
pub struct Output {
    pub facts: Facts,
    pub checks: BTreeMap<String, Check>,
    pub trials: BTreeMap<String, Trial>,
    /// The broken rules of the model that were found, and where.
    pub found: BTreeMap<String, String>,
    /// Those that ran and wrote what they must, as LLVM builds them.
    pub programs: BTreeSet<String>,
    /// Likewise, as Rattle's own compiler builds them.
    pub programs_of_rattle: BTreeSet<String>,
    /// The line with which rt ci says that all is well.
    pub well: Option<String>,
    /// By how its line begins, what a part of the gate said at its end.
    pub parts: BTreeMap<String, String>,
    pub model_tests: Vec<String>,
    pub seed: Option<String>,
    pub kinds: Vec<Kind>,
    pub firmware: Vec<String>,
    /// Every sum of the archive that the output tells: they must be one.
    pub archives: Vec<String>,
    pub failures: Vec<String>,
    /// What one run says once and this output more often.
    pub said_twice: Vec<String>,
    pub last: String,
    verdicts: BTreeMap<String, ()>,
}

/// What a crate's check comes to where an earlier run on this machine proved the same files:
/// rt ci takes that, and says nothing else of it.
pub const KEPT: &str = "kept";

/// A crate's check.
#[derive(Default)]
pub struct Check {
    /// `proved`, `KEPT`, or what speaks against a pass.
    pub result: String,
    /// As the verdict counts them, if there is one.
    pub functions: Option<usize>,
    pub proved: Vec<String>,
    /// The words of the verdict that tell what it took on trust.
    pub rests: String,
    pub axiom_count: usize,
    pub axioms: Vec<String>,
    /// What is linked besides the program's own object.
    pub linked: String,
}

/// A wrong version that was tried.
pub struct Trial {
    pub said: String,
    pub result: &'static str,
}

/// A kind of input that was compared, with the counts of `compare: KIND: alike (..)`.
pub struct Kind {
    pub name: String,
    pub so_far: Vec<usize>,
}

pub fn read(text: &str) -> Output {
    let mut output = Output::default();
    let mut current = Check::default();
    for line in text.lines() {
        let line = line.replace('\t', " ");
        if !line.trim().is_empty() {
            output.last = line.clone();
        }
        current.gather(&line);
        output.take_proofs(&line, &mut current);
        output.take_parts(&line);
        output.take_model(&line);
        output.take_failures(&line);
    }
    output
}

/// The facts among the lines `evidence: WORD VALUE`.
pub fn facts_in(text: &str) -> Facts {
    text.lines().filter_map(fact).collect()
}

fn fact(line: &str) -> Option<(String, String)> {
    let (word, value) = line.strip_prefix("evidence: ")?.split_once(' ')?;
    Some((word.to_string(), value.to_string()))
}

impl Check {
    fn gather(&mut self, line: &str) {
        if line.starts_with("== ") {
            *self = Check::default();
        } else if let Some(name) = between(line, "fn ", ": proved") {
            // What rattle itself writes round `main` is no function of the sources, and it counts none.
            if !name.ends_with("+run") {
                self.proved.push(name.to_string());
            }
        } else if let Some(axioms) = line.strip_prefix("axioms ").filter(|a| a.contains(": ")) {
            if !axioms.contains(": none reached of ") {
                self.axioms.push(axioms.to_string());
            }
        } else if line.starts_with("linked ") {
            let files = word(line, "files").split(',');
            let others: Vec<&str> = files.filter(|file| !file.starts_with("out/")).collect();
            self.linked = others.join(", ");
        } else if line.starts_with("logic=proved ") {
            self.functions = Some(number(word(line, "functions")));
            self.axiom_count = number(word(line, "axioms"));
            if !word(line, "foreign").is_empty() {
                self.axioms.push(format!("its own: {}", word(line, "foreign")));
            }
            self.rests = line.find("sum=").map_or("", |at| &line[at..]).to_string();
        }
    }
}

impl Output {
    fn take_proofs(&mut self, line: &str, current: &mut Check) {
        if line.starts_with("fn ") && !line.ends_with(": proved") && !line.contains(": proved, may ") {
            self.failures.push(line.to_string());
        }
        let Some(said) = line.strip_prefix("rt: ") else {
            return;
        };
        if let Some(trial) = said.strip_prefix("must-fail ") {
            self.take_trial(trial);
        } else if said.starts_with("ok; ") {
            self.well = Some(said.to_string());
        } else if said.starts_with("FAILED: ") {
            self.failures.push(line.to_string());
        } else if let Some((name, said)) = said.split_once(' ') {
            self.take_crate(name, said, line, current);
        }
    }

    fn take_crate(&mut self, name: &str, said: &str, line: &str, current: &mut Check) {
        let result = match said {
            "proved" => "proved",
            _ if said.starts_with("is kept: ") => KEPT,
            _ if said.starts_with("NOT PROVED") => "NOT PROVED",
            _ if said.starts_with("ran, and wrote what") => {
                self.programs.insert(name.to_string());
                return;
            }
            _ if said.starts_with("ran (built by Rattle's own compiler), and wrote what") => {
                self.programs_of_rattle.insert(name.to_string());
                return;
            }
            _ => return,
        };
        if result == "NOT PROVED" {
            self.failures.push(line.to_string());
        }
        let mut check = if result == KEPT { Check::default() } else { std::mem::take(current) };
        check.result = result.to_string();
        once(&mut self.checks, &mut self.said_twice, name, check, format!("crate {name}"));
    }

    fn take_trial(&mut self, line: &str) {
        let Some((name, said)) = line.split_once(": ") else {
            return;
        };
        let name = name.trim_end_matches(".edit");
        let result = match said {
            _ if said.starts_with("refused, as it must be") => "refused",
            _ if said.starts_with("BAD EDIT") => "BAD EDIT",
            _ if said.starts_with("NOT TRIED") => "NOT TRIED",
            _ => "NOT REFUSED",
        };
        let trial = Trial { said: said.to_string(), result };
        once(&mut self.trials, &mut self.said_twice, name, trial, format!("must-fail edit {name}"));
    }

    fn take_parts(&mut self, line: &str) {
        if let Some((word, value)) = fact(line) {
            once(&mut self.facts, &mut self.said_twice, &word, value, format!("the gate's {word}"));
        }
        for Part { what, begins, .. } in PARTS {
            let Some(said) = line.strip_prefix(begins).filter(|_| !tells_failure(line)) else { continue };
            let is_end = begins != "compare-breaks: " || said.ends_with(" broken rules, each found");
            if is_end && !said.starts_with("not run") {
                once(&mut self.parts, &mut self.said_twice, begins, said.to_string(), what.to_string());
            }
        }
        if let Some(said) = line.strip_prefix("firmware: ").filter(|_| !tells_failure(line)) {
            self.take_firmware(said);
        }
    }

    /// The tests that .ci/firmware runs stand at the end of its own line.
    fn take_firmware(&mut self, said: &str) {
        self.archives.extend(sums_of_the_archive(said));
        let said = said.replace("; page test: ", "\npage test: ").replace("; bundle test: ", "\nbundle test: ");
        let mut lines = said.lines();
        self.firmware.extend(lines.next().map(str::to_string));
        lines.for_each(|line| self.take_parts(line));
    }

    fn take_model(&mut self, line: &str) {
        // Tests of crates have such a line too, which counts no measured ones.
        if let Some(said) = line.strip_prefix("test result: ").filter(|said| said.contains("; 0 measured")) {
            self.model_tests.push(said.split("; 0 measured").next().unwrap_or(said).to_string());
            if !said.starts_with("ok.") {
                self.failures.push(format!("the model's own tests: {line}"));
            }
        }
        if let Some((name, place)) = line.strip_prefix("compare-breaks: ").and_then(|said| said.split_once(": found: "))
        {
            once(&mut self.found, &mut self.said_twice, name, place.to_string(), format!("broken rule {name}"));
        }
        let Some(said) = line.strip_prefix("compare: ") else {
            return;
        };
        if let Some((_, seed)) = said.rsplit_once(", seed ").filter(|(rest, _)| rest.contains(" with ")) {
            self.seed = Some(seed.to_string());
        }
        if let Some((name, counts)) = said.split_once(": alike (").filter(|(name, _)| !name.contains(' ')) {
            let words = counts.split(' ').step_by(2).take(4);
            self.kinds.push(Kind { name: name.to_string(), so_far: words.map(number).collect() });
        }
    }

    fn take_failures(&mut self, line: &str) {
        if tells_failure(line) {
            self.failures.push(line.to_string());
        }
        if is_verdict(line) {
            once(&mut self.verdicts, &mut self.said_twice, "", (), "'N passed, 0 failed'".to_string());
            if !line.ends_with(", 0 failed") {
                self.failures.push(format!("the output says: {line}"));
            }
        }
    }
}

/// Whether the line is a part's own word that it failed: `NAME: FAILED: why`, or the same
/// with DIFFERENCE.
fn tells_failure(line: &str) -> bool {
    let of_a_name = |name: &str| name.bytes().all(|byte| byte.is_ascii_lowercase() || b" -".contains(&byte));
    [": FAILED: ", ": DIFFERENCE: "].iter().any(|mark| line.split_once(mark).is_some_and(|(name, _)| of_a_name(name)))
}

/// Whether the line is `N passed, M failed`.
pub fn is_verdict(line: &str) -> bool {
    let words: Vec<&str> = line.split(' ').collect();
    matches!(words.as_slice(), [n, "passed,", m, "failed"] if is_number(n) && is_number(m))
}

fn is_number(text: &str) -> bool {
    !text.is_empty() && text.bytes().all(|byte| byte.is_ascii_digit())
}

/// Keeps the value, and that there was one before: the later of two runs would hide the other.
fn once<V>(map: &mut BTreeMap<String, V>, said_twice: &mut Vec<String>, key: &str, value: V, what: String) {
    if map.insert(key.to_string(), value).is_some() {
        said_twice.push(what);
    }
}

/// The sums that stand after `archive sha256` or `libnorakkeun.a has sha256`.
fn sums_of_the_archive(said: &str) -> Vec<String> {
    let mut sums = Vec::new();
    for mark in ["archive sha256 ", "libnorakkeun.a has sha256 "] {
        if let Some((_, rest)) = said.split_once(mark) {
            sums.push(rest.chars().take_while(char::is_ascii_hexdigit).collect());
        }
    }
    sums
}

/// The value of `name=` among the words of a line, or nothing.
fn word<'a>(line: &'a str, name: &str) -> &'a str {
    let value = |word: &'a str| word.strip_prefix(name)?.strip_prefix('=');
    line.split(' ').find_map(value).unwrap_or("")
}

fn between<'a>(line: &'a str, before: &str, after: &str) -> Option<&'a str> {
    line.strip_prefix(before)?.strip_suffix(after)
}

fn number(text: &str) -> usize {
    let digits: String = text.chars().take_while(char::is_ascii_digit).collect();
    digits.parse().unwrap_or(0)
}
