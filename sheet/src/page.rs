//! A sheet as one page. It loads nothing, and its policy lets a browser load nothing.

use crate::document::{Block, Document, Table};

const STYLE: &str = include_str!("style.css");
const POLICY: &str = "default-src 'none'; style-src 'unsafe-inline'";
/// A table with more columns scrolls on a narrow screen, one with fewer is laid out anew.
const FEW_COLUMNS: usize = 4;

pub fn page(document: &Document) -> String {
    let title = escaped(&document.title);
    let verdict = element("p", if document.passed { "pass" } else { "fail" }, &escaped(&document.verdict));
    let blocks: String = document.blocks.iter().map(block).collect();
    format!(
        "<!DOCTYPE html>\n<html lang=\"en\"><head><meta charset=\"utf-8\">\n\
         <meta http-equiv=\"Content-Security-Policy\" content=\"{POLICY}\">\n\
         <meta name=\"viewport\" content=\"width=device-width, initial-scale=1\">\n\
         <style>\n{STYLE}{}</style>\n<title>{title}</title></head><body>\n<h1>{title}</h1>\n{verdict}{blocks}</body></html>\n",
        margins(&document.foot)
    )
}

/// Every printed page says of which commit it is and how the gate ended.
fn margins(foot: &str) -> String {
    let is_plain = |c: &char| c.is_ascii_alphanumeric() || " ,:+-".contains(*c);
    let foot: String = foot.chars().filter(is_plain).collect();
    format!(
        "@page {{ size: A4; margin: 9mm 12mm 13mm; @bottom-left {{ content: \"{foot}\"; font: 7pt sans-serif }}\n\
         @bottom-right {{ content: counter(page) \" of \" counter(pages); font: 7pt sans-serif }} }}\n"
    )
}

fn block(block: &Block) -> String {
    match block {
        Block::Against(text) => element("p", "against", &escaped(text)),
        Block::Note(text) => element("p", "note", &escaped(text)),
        Block::Head(text) => element("h2", "", &escaped(text)),
        Block::Appendix(text) => element("h1", "appendix", &escaped(text)),
        Block::Paragraph(text) => element("p", "", &marked(text)),
        Block::List(items) => {
            element("ul", "", &items.iter().map(|item| element("li", "", &marked(item))).collect::<String>())
        }
        Block::Table(content) => table(content),
        Block::Code(lines) => code(lines),
        Block::Clause(name, sentence, lines) => {
            let said = element("p", "", &format!("<b>{}</b>: {}", escaped(name), marked(sentence)));
            element("div", "clause", &(said + &code(lines)))
        }
        Block::Sign(labels) => element("div", "sign", &labels.map(|label| element("span", "", label)).concat()),
    }
}

fn table(table: &Table) -> String {
    let headings = (0..table.columns.len()).map(|column| {
        let class = if table.holds_numbers(column) { "number" } else { "" };
        element("th", class, &escaped(table.heading(column)))
    });
    let head = element("thead", "", &element("tr", "", &headings.collect::<String>()));
    let rows = table.rows.iter().map(|row| {
        let cells = row.iter().enumerate().map(|(column, text)| cell(table, column, text));
        element("tr", "", &cells.collect::<String>())
    });
    let body = element("tbody", "", &rows.collect::<String>());
    let class = match table.columns.len() {
        2 => "stack pairs",
        few if few <= FEW_COLUMNS => "stack",
        _ => "",
    };
    element("div", "wide", &element("table", class, &(head + &body)))
}

/// Where cells stand below each other there are no headings, so each tells what it is.
fn cell(table: &Table, column: usize, text: &str) -> String {
    let (class, what) = (class_of(table, column, text), table.heading(column));
    format!("<td class=\"{class}\" data-what=\"{what}\">{}</td>\n", marked(text))
}

fn class_of(table: &Table, column: usize, cell: &str) -> String {
    let is_bad = ["NOT ", "BAD ", "MISSING"].iter().any(|word| cell.starts_with(word));
    let layout = if table.holds_numbers(column) {
        "number"
    } else if cell.len() <= 24 {
        "short"
    } else {
        ""
    };
    [if is_bad { "bad" } else { "" }, layout].join(" ").trim().to_string()
}

fn code(lines: &[String]) -> String {
    element("pre", "", &escaped(&lines.join("\n")))
}

fn element(tag: &str, class: &str, content: &str) -> String {
    let class = if class.is_empty() { String::new() } else { format!(" class=\"{class}\"") };
    format!("<{tag}{class}>{content}</{tag}>\n")
}

fn escaped(text: &str) -> String {
    text.replace('&', "&amp;").replace('<', "&lt;").replace('>', "&gt;")
}

/// What stands between two backticks is set as code. Text with an odd one is left as it is.
fn marked(text: &str) -> String {
    let text = escaped(text);
    let parts: Vec<&str> = text.split('`').collect();
    if parts.len() % 2 == 0 {
        return text;
    }
    let set = |(at, part): (usize, &&str)| {
        if at % 2 == 1 {
            format!("<code>{part}</code>")
        } else {
            part.to_string()
        }
    };
    parts.iter().enumerate().map(set).collect()
}
