//! What the sources say, whatever an output says of them.

use crate::demand3;
use crate::output::Facts;
use crate::words;
use std::fs;
use std::path::{Path, PathBuf};

pub const STATEMENT: &str = "crates/promises/specs/Demand/Statement.antt";

#[derive(Default)]
pub struct Tree {
    pub facts: Facts,
    /// In the order of crates.txt.
    pub crates: Vec<Crate>,
    /// The wrong versions that must be refused, as CRATE/LABEL.
    pub edits: Vec<Edit>,
    /// The rules of the model that are broken on purpose.
    pub breaks: Vec<Edit>,
    /// Lines that declare what nothing proves; rt refuses both kinds, so a source that has
    /// one is not what a passing output speaks of.
    pub axioms: Vec<String>,
    pub statement: Vec<demand3::Piece>,
    /// The theorem of demand 3, where it stands first, with the module that binds its names.
    pub theorem: Vec<String>,
    /// Names that the sheet gives as what carries a demand, and that are not in their file.
    pub not_there: Vec<String>,
}

#[derive(Default)]
pub struct Crate {
    pub name: String,
    pub knows: Vec<String>,
    pub is_program: bool,
    /// Lines that are neither empty nor comment, in src, specs and proofs.
    pub lines: [usize; 3],
}

pub struct Edit {
    pub name: String,
    /// Its comment, which says what it tries.
    pub tries: String,
}

const SOURCES: [(&str, &str); 3] = [("src", "rt"), ("specs", "antt"), ("proofs", "antt")];

pub fn read(root: &Path, facts: Facts) -> Result<Tree, String> {
    let mut tree = Tree { facts, crates: crates(root)?, ..Tree::default() };
    for item in &mut tree.crates {
        let home = root.join("crates").join(&item.name);
        item.is_program = home.join("src/main.rt").is_file();
        tree.edits.extend(edits(&home.join("must-fail"), &format!("{}/", item.name))?);
    }
    tree.edits.sort_by(|a, b| a.name.cmp(&b.name));
    tree.breaks = edits(&root.join("model/breaks"), "")?;
    read_sources(root, &mut tree)?;
    tree.statement = demand3::pieces(&text_of(&root.join(STATEMENT))?);
    tree.theorem = theorem(root)?;
    for (name, file) in words::carriers() {
        let is_there = text_of(&root.join(file)).is_ok_and(|text| declares(&text, name));
        if !is_there {
            tree.not_there.push(format!("{name} in {file}"));
        }
    }
    Ok(tree)
}

/// Each line of crates.txt is `NAME: the crates it knows`, or `NAME staticlib: ..`.
fn crates(root: &Path) -> Result<Vec<Crate>, String> {
    let text = text_of(&root.join("crates.txt"))?;
    let lines = text.lines().filter_map(|line| line.split('#').next()?.split_once(':'));
    let listed = |(name, knows): (&str, &str)| Crate {
        name: name.split_whitespace().next().unwrap_or("").to_string(),
        knows: knows.split_whitespace().map(str::to_string).collect(),
        ..Crate::default()
    };
    Ok(lines.map(listed).collect())
}

/// Also of folders that crates.txt does not list, for an axiom there is one all the same.
fn read_sources(root: &Path, tree: &mut Tree) -> Result<(), String> {
    for home in entries(&root.join("crates"))? {
        let name = name_of(&home);
        for (kind, (folder, ending)) in SOURCES.iter().enumerate() {
            for file in files_below(&home.join(folder), ending)? {
                let text = text_of(&file)?;
                let place = file.strip_prefix(root).unwrap_or(&file).display().to_string();
                tree.axioms.extend(axioms_in(&place, &text));
                if let Some(item) = tree.crates.iter_mut().find(|item| item.name == name) {
                    item.lines[kind] += text.lines().filter(|line| says_something(line)).count();
                }
            }
        }
    }
    Ok(())
}

fn says_something(line: &str) -> bool {
    let line = line.trim_start();
    !(line.is_empty() || line.starts_with("//") || line.starts_with("--"))
}

pub fn axioms_in(place: &str, text: &str) -> Vec<String> {
    let assumes = |line: &str| {
        let line = line.trim_start();
        let is_foreign =
            |line: &str| line.strip_prefix("extern \"C\"").is_some_and(|rest| rest.trim_start().starts_with('{'));
        line.split_whitespace().next() == Some("axiom") || is_foreign(line.strip_prefix("unsafe ").unwrap_or(line))
    };
    let numbered = text.lines().enumerate().filter(|(_, line)| assumes(line));
    numbered.map(|(at, line)| format!("{place}:{}: {}", at + 1, line.trim())).collect()
}

/// Each edit with its comment.
fn edits(folder: &Path, before: &str) -> Result<Vec<Edit>, String> {
    let mut edits = Vec::new();
    for file in files_below(folder, "edit")? {
        let text = text_of(&file)?;
        let comment: Vec<&str> = text.lines().filter_map(|line| line.strip_prefix('#')).map(str::trim).collect();
        let name = name_of(&file);
        let name = format!("{before}{}", name.trim_end_matches(".edit"));
        edits.push(Edit { name, tries: comment.join(" ") });
    }
    Ok(edits)
}

fn theorem(root: &Path) -> Result<Vec<String>, String> {
    for file in files_below(&root.join("crates/promises/proofs"), "antt")? {
        let place = file.strip_prefix(root).unwrap_or(&file).display().to_string();
        let found = theorem_in(&place, &text_of(&file)?);
        if !found.is_empty() {
            return Ok(found);
        }
    }
    Ok(Vec::new())
}

pub fn theorem_in(place: &str, text: &str) -> Vec<String> {
    let mut module: Vec<String> = Vec::new();
    let mut in_head = false;
    for (at, line) in text.lines().enumerate() {
        if line.starts_with("module ") {
            module.clear();
            in_head = true;
        }
        if in_head {
            module.push(line.to_string());
            in_head = !line.ends_with(" where");
        }
        if line.trim_start().starts_with("pub demand3 :") {
            module.insert(0, format!("{place}:{}", at + 1));
            module.push(line.to_string());
            return module;
        }
    }
    Vec::new()
}

/// Whether the text declares the name for others to use.
pub fn declares(text: &str, name: &str) -> bool {
    const BEFORE: [&str; 4] = ["pub", "abbrev", "unfoldable", "record"];
    text.lines().any(|line| {
        let mut words = line.split_whitespace().skip_while(|word| BEFORE.contains(word));
        words.next() == Some(name) && line.contains("pub ")
    })
}

fn text_of(path: &Path) -> Result<String, String> {
    fs::read_to_string(path).map_err(|error| format!("{}: {error}", path.display()))
}

/// In order of name; a folder that is not there has none.
fn entries(folder: &Path) -> Result<Vec<PathBuf>, String> {
    if !folder.is_dir() {
        return Ok(Vec::new());
    }
    let of_folder = |error| format!("{}: {error}", folder.display());
    let listed: Result<Vec<_>, _> = fs::read_dir(folder).map_err(of_folder)?.collect();
    let mut paths: Vec<PathBuf> = listed.map_err(of_folder)?.iter().map(|entry| entry.path()).collect();
    paths.sort();
    Ok(paths)
}

fn files_below(folder: &Path, ending: &str) -> Result<Vec<PathBuf>, String> {
    let mut files = Vec::new();
    for path in entries(folder)? {
        if path.is_dir() {
            files.extend(files_below(&path, ending)?);
        } else if path.extension().is_some_and(|found| found == ending) {
            files.push(path);
        }
    }
    Ok(files)
}

fn name_of(path: &Path) -> String {
    path.file_name().map_or(String::new(), |name| name.to_string_lossy().into_owned())
}
