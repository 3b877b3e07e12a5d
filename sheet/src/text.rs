//! A sheet as text. Reasons and notes are one line each, for grep; the rest is wrapped.

use crate::document::{Block, Document, Table};

const WIDTH: usize = 118;
/// No column is made narrower than this.
const LEAST: usize = 14;

pub fn text(document: &Document) -> String {
    let mut lines = vec![document.title.clone(), "=".repeat(document.title.len()), String::new()];
    if document.passed {
        lines.push(format!("    {}", document.verdict));
    } else {
        let bar = "!".repeat(78);
        lines.extend([bar.clone(), format!("!!  {}", document.verdict), bar]);
    }
    lines.push(String::new());
    for block in &document.blocks {
        lines.extend(lines_of(block));
    }
    lines.join("\n") + "\n"
}

fn lines_of(block: &Block) -> Vec<String> {
    match block {
        Block::Against(text) => vec![format!("  !! {text}")],
        Block::Note(text) => vec![format!("  -- {text}")],
        Block::Head(text) => vec![String::new(), text.clone(), "-".repeat(text.len()), String::new()],
        Block::Appendix(text) => vec![String::new(), "=".repeat(WIDTH), text.clone()],
        Block::Paragraph(text) => spaced(wrapped(text, WIDTH)),
        Block::List(items) => spaced(items.iter().flat_map(|item| hung("  - ", item)).collect()),
        Block::Table(table) => spaced(rows_of(table)),
        Block::Code(code) => spaced(indented(code)),
        Block::Clause(name, sentence, code) => {
            let said = hung("  > ", &format!("{name}: {sentence}"));
            spaced([said, indented(code)].concat())
        }
        Block::Sign(labels) => {
            labels.iter().flat_map(|label| spaced(vec![format!("  {label}: {}", "_".repeat(50))])).collect()
        }
    }
}

fn spaced(mut lines: Vec<String>) -> Vec<String> {
    lines.push(String::new());
    lines
}

fn indented(code: &[String]) -> Vec<String> {
    code.iter().map(|line| format!("    {line}").trim_end().to_string()).collect()
}

/// Wrapped with a mark before the first line, and the others under its text.
fn hung(mark: &str, text: &str) -> Vec<String> {
    let lines = wrapped(text, WIDTH - mark.len());
    let with_mark = |(at, line): (usize, &String)| {
        if at == 0 {
            format!("{mark}{line}")
        } else {
            format!("    {line}")
        }
    };
    lines.iter().enumerate().map(with_mark).collect()
}

/// A word that is longer than the width stands alone on its line.
pub fn wrapped(text: &str, width: usize) -> Vec<String> {
    let mut lines: Vec<String> = vec![String::new()];
    for word in text.split_whitespace() {
        match lines.last_mut() {
            Some(line) if line.is_empty() => line.push_str(word),
            Some(line) if length(line) + 1 + length(word) <= width => {
                line.push(' ');
                line.push_str(word);
            }
            _ => lines.push(word.to_string()),
        }
    }
    lines
}

fn length(text: &str) -> usize {
    text.chars().count()
}

fn rows_of(table: &Table) -> Vec<String> {
    let widths = widths(table);
    let headings: Vec<String> = (0..table.columns.len()).map(|column| table.heading(column).to_string()).collect();
    let mut lines = Vec::new();
    for row in std::iter::once(&headings).chain(&table.rows) {
        let cells: Vec<Vec<String>> = row.iter().zip(&widths).map(|(cell, width)| wrapped(cell, *width)).collect();
        let height = cells.iter().map(Vec::len).max().unwrap_or(0);
        for at in 0..height {
            let parts = cells.iter().zip(&widths).enumerate().map(|(column, (lines, width))| {
                let part = lines.get(at).map_or("", String::as_str);
                if table.holds_numbers(column) {
                    format!("{part:>width$}")
                } else {
                    format!("{part:width$}")
                }
            });
            let line = format!("  {}", parts.collect::<Vec<String>>().join("  "));
            lines.push(line.trim_end().to_string());
        }
    }
    lines
}

/// As wide as their longest cell; if that is too much for a line, the widest give way.
fn widths(table: &Table) -> Vec<usize> {
    let longest = |column: usize| {
        let cells = table.rows.iter().filter_map(|row| row.get(column)).map(|cell| length(cell));
        cells.chain([length(table.heading(column))]).max().unwrap_or(0)
    };
    let mut widths: Vec<usize> = (0..table.columns.len()).map(longest).collect();
    let room = WIDTH.saturating_sub(2 * widths.len());
    while widths.iter().sum::<usize>() > room {
        match widths.iter_mut().max() {
            Some(widest) if *widest > LEAST => *widest -= 1,
            _ => break,
        }
    }
    widths
}
