//! The tree that this program stands in: a clause, a theorem or a name that is not as the
//! sheet has it fails here, before anything is proved.

use crate::demand3::{disagreements, SENTENCES};
use crate::output::{read as read_output, Facts};
use crate::page::page;
use crate::sheet::sheet;
use crate::tree::{read, Tree, STATEMENT};
use std::fs;
use std::path::{Path, PathBuf};

fn root() -> PathBuf {
    Path::new(env!("CARGO_MANIFEST_DIR")).join("..")
}

fn tree() -> Tree {
    read(&root(), Facts::new()).unwrap()
}

#[test]
fn every_clause_has_its_sentence_and_every_sentence_its_clause() {
    let pieces = tree().statement;
    assert_eq!(disagreements(&pieces, &SENTENCES), Vec::<String>::new());
    let one_less = disagreements(&pieces, &SENTENCES[1..]);
    assert_eq!(one_less.len(), 1, "{one_less:?}");
}

#[test]
fn the_pieces_are_the_statement() {
    let lines: Vec<String> = tree().statement.into_iter().flat_map(|piece| piece.lines).collect();
    assert_eq!(lines.join("\n") + "\n", fs::read_to_string(root().join(STATEMENT)).unwrap());
}

#[test]
fn what_the_first_page_names_is_there() {
    assert_eq!(tree().not_there, Vec::<String>::new());
    assert!(tree().theorem.first().is_some_and(|place| place.starts_with("crates/promises/proofs/Demand/Holds.antt:")));
}

/// Pages, commands and headings that the first page sends her to.
#[test]
fn what_the_first_page_sends_her_to_is_there() {
    let page = page(&sheet(&tree(), &read_output("")));
    let first = page.split("<h1 class=\"appendix\">").next().unwrap();
    let marked = first.split("<code>").skip(1).filter_map(|part| part.split("</code>").next());
    let paths: Vec<&str> = marked
        .filter_map(|text| text.split(' ').next())
        .filter(|text| text.ends_with(".md") || text.starts_with("bin/"))
        .collect();
    assert!(paths.len() > 4, "{paths:?}");
    for path in paths {
        assert!(root().join(path).is_file(), "{path}");
    }
    for (file, heading) in [("README.md", "## Where to read"), ("docs/FIRMWARE.md", "## What the caller owes")] {
        let text = fs::read_to_string(root().join(file)).unwrap();
        assert!(text.lines().any(|line| line == heading), "{file}: {heading}");
    }
}

#[test]
fn the_sources_declare_nothing_unproved() {
    assert_eq!(tree().axioms, Vec::<String>::new());
}

#[test]
fn crates_edits_and_broken_rules_are_read() {
    let tree = tree();
    let listed: Vec<&str> = tree.crates.iter().map(|item| item.name.as_str()).collect();
    assert!(listed.contains(&"arbiter") && listed.contains(&"norakkeun"));
    assert!(tree.crates.iter().any(|item| item.is_program && item.name == "replay"));
    assert!(tree.crates.iter().all(|item| item.lines.iter().sum::<usize>() > 0));
    assert!(tree.edits.len() > 100 && tree.edits.iter().all(|edit| !edit.tries.is_empty()));
    assert!(tree.breaks.len() > 10 && tree.breaks.iter().all(|edit| !edit.tries.is_empty()));
}

#[test]
fn a_folder_that_is_no_repository() {
    assert!(read(Path::new(env!("CARGO_MANIFEST_DIR")), Facts::new()).is_err_and(|why| why.contains("crates.txt")));
}
