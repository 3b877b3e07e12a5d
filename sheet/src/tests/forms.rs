//! Text and page are of one document, and say all of it.

use super::made_up::*;
use crate::demand3::SENTENCES;
use crate::document::{Block, Document, Table};
use crate::page::page;
use crate::text::{text, wrapped};

fn words_of(block: &Block) -> Vec<String> {
    match block {
        Block::Against(text)
        | Block::Note(text)
        | Block::Head(text)
        | Block::Paragraph(text)
        | Block::Appendix(text) => vec![text.clone()],
        Block::List(texts) | Block::Code(texts) => texts.clone(),
        Block::Table(table) => table.rows.concat(),
        Block::Clause(name, sentence, code) => [vec![name.clone(), sentence.clone()], code.clone()].concat(),
        Block::Sign(labels) => labels.iter().map(|label| label.to_string()).collect(),
    }
}

fn without_marks(page: &str) -> String {
    let body = page.split("<body>").nth(1).unwrap();
    let parts = body.split('<').map(|part| part.split_once('>').map_or(part, |(_, text)| text));
    unescaped(&parts.collect::<String>())
}

#[test]
fn both_forms_say_every_word_of_the_document() {
    for output in [output(), without(&output(), "rt: must-fail"), String::new()] {
        let sheet = sheet_of(&output);
        let (text, page) = (text(&sheet), without_marks(&page(&sheet)));
        for word in sheet
            .blocks
            .iter()
            .flat_map(words_of)
            .flat_map(|said| said.split_whitespace().map(str::to_string).collect::<Vec<_>>())
        {
            assert!(text.contains(&word), "the text has no {word}");
            assert!(page.contains(&word.replace('`', "")), "the page has no {word}");
        }
    }
}

#[test]
fn the_page_loads_nothing() {
    let page = page(&sheet_of(&output())).to_lowercase();
    for loads in ["<script", "<link", "<img", "<iframe", "src=", "href=", "url(", "@import"] {
        assert!(!page.contains(loads), "{loads}");
    }
    assert!(page.contains("default-src 'none'"));
}

/// The pieces of the statement make up the file, and each stands in both forms line by line.
#[test]
fn the_statement_is_word_for_word() {
    let sheet = sheet_of(&output());
    let is_demand_3 = |block: &Block| matches!(block, Block::Head(text) if text.starts_with("Demand 3"));
    let from = sheet.blocks.iter().position(is_demand_3).unwrap();
    let code = sheet.blocks[from..].iter().filter_map(|block| match block {
        Block::Code(lines) | Block::Clause(_, _, lines) => Some(lines.join("\n")),
        _ => None,
    });
    let pieces: Vec<String> = code.skip(1).collect(); // the first is the theorem
    assert_eq!(pieces.join("\n") + "\n", statement());
    let (text, page) = (text(&sheet), page(&sheet));
    for piece in pieces {
        assert!(text.contains(&format!("\n    {}\n", piece.replace('\n', "\n    "))), "{piece}");
        assert!(unescaped(&page).contains(&format!("<pre>{piece}</pre>")), "{piece}");
    }
}

/// The sentence stands right before its clause in the text, and in one box with it on the page.
#[test]
fn a_sentence_stands_beside_its_clause() {
    let sheet = sheet_of(&output());
    for (name, sentence) in SENTENCES {
        let said = wrapped(&format!("{name}: {sentence}"), 114);
        assert!(text(&sheet).contains(&format!("\n  > {}\n    ", said[0])), "{name}");
        assert!(text(&sheet).contains(&format!("{}\n        -- what {name} is\n", said.last().unwrap())), "{name}");
        let boxed = page(&sheet)
            .split("<div class=\"clause\">")
            .any(|part| part.contains(&format!("<b>{name}</b>: ")) && part.contains(&format!("pub {name} :")));
        assert!(boxed, "{name}");
    }
}

fn document(blocks: Vec<Block>) -> Document {
    Document { title: "T".to_string(), verdict: "V".to_string(), passed: true, foot: "a\"b <c>".to_string(), blocks }
}

#[test]
fn marks_are_escaped_and_names_set_as_code() {
    let page = page(&document(vec![
        Block::Paragraph("a <b> & `c`".to_string()),
        Block::Paragraph("an odd ` one".to_string()),
    ]));
    assert!(page.contains("<p>a &lt;b&gt; &amp; <code>c</code></p>") && page.contains("<p>an odd ` one</p>"));
    assert!(page.contains("content: \"ab c\""));
}

#[test]
fn a_cell_that_tells_something_bad_is_marked() {
    let mut table = Table::new(&["What", ">Number"]);
    table.row(["MISSING", "7"]);
    table.row(["as it must be", "NOT ALL"]);
    let page = page(&document(vec![Block::Table(table)]));
    assert!(
        page.contains("<td class=\"bad short\" data-what=\"What\">MISSING</td>")
            && page.contains("<td class=\"bad number\" data-what=\"Number\">NOT ALL</td>")
    );
    assert!(page.contains("<td class=\"short\" data-what=\"What\">as it must be</td>"));
}

#[test]
fn columns_of_the_text() {
    let mut table = Table::new(&["What", ">Number", "Words"]);
    table.row(["a", "7", &"word ".repeat(30)]);
    table.row(["longer", "17", "b"]);
    let text = text(&document(vec![Block::Table(table)]));
    assert!(text.contains("  What    Number  Words\n  a            7  word word"), "{text}");
    assert!(text.contains("\n                  word word") && text.contains("  longer      17  b\n"), "{text}");
    assert!(text.lines().all(|line| line.chars().count() <= 118));
}

#[test]
fn wrapping_keeps_every_word_whole() {
    assert_eq!(wrapped("a bc def g", 4), ["a bc", "def", "g"]);
    assert_eq!(wrapped("longerthanthat b", 4), ["longerthanthat", "b"]);
    assert_eq!(wrapped("", 4), [""]);
}
