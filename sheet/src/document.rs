//! What a sheet says, before it is text or a page, so that both say the same.

pub struct Document {
    pub title: String,
    pub verdict: String,
    pub passed: bool,
    /// What every printed page says below: a page may part from the first.
    pub foot: String,
    pub blocks: Vec<Block>,
}

pub enum Block {
    /// Something that speaks against a pass.
    Against(String),
    /// Something to know that does not speak against it.
    Note(String),
    Head(String),
    Paragraph(String),
    List(Vec<String>),
    Table(Table),
    Code(Vec<String>),
    /// A clause of a statement: its name, what it says in plain English, and the source.
    Clause(String, String, Vec<String>),
    /// The lines to sign on.
    Sign([&'static str; 3]),
    /// What follows is an appendix, on a new page.
    Appendix(String),
}

/// In a heading a leading `>` says that the column holds numbers.
pub struct Table {
    pub columns: Vec<String>,
    pub rows: Vec<Vec<String>>,
}

impl Table {
    pub fn new(columns: &[&str]) -> Table {
        let columns = columns.iter().map(|name| name.to_string()).collect();
        Table { columns, rows: Vec::new() }
    }

    pub fn row<const N: usize>(&mut self, cells: [&str; N]) {
        self.rows.push(cells.iter().map(|cell| cell.to_string()).collect());
    }

    pub fn heading(&self, column: usize) -> &str {
        self.columns[column].trim_start_matches('>')
    }

    pub fn holds_numbers(&self, column: usize) -> bool {
        self.columns[column].starts_with('>')
    }
}
