//! Makes the sheet that is signed, of an output of the gate and of the tree that it is of.
//!
//! ```text
//! sheet LOG FOLDER < facts
//! ```
//!
//! Reads LOG, an output of `.ci/run`, and the repository in the current folder, and writes
//! `sheet.txt` and `sheet.html` into FOLDER. The facts are the lines of `bin/evidence
//! --identity` and one that tells which output this is. Exits with 0 if nothing speaks
//! against a pass, with 1 if something does, with 2 if there is no sheet.

mod appendix;
mod demand3;
mod document;
mod first_page;
mod judge;
mod output;
mod page;
mod sheet;
#[cfg(test)]
mod tests;
mod text;
mod tree;
mod words;

use std::io::Read;
use std::path::Path;
use std::process::ExitCode;
use std::{env, fs, io};

fn main() -> ExitCode {
    match make_sheet() {
        Ok(passed) => ExitCode::from(u8::from(!passed)),
        Err(why) => {
            eprintln!("sheet: {why}");
            ExitCode::from(2)
        }
    }
}

fn make_sheet() -> Result<bool, String> {
    let arguments: Vec<String> = env::args().skip(1).collect();
    let [log, folder] = arguments.as_slice() else {
        return Err("usage: sheet LOG FOLDER < facts".to_string());
    };
    let mut facts = String::new();
    let of_stdin = |error| format!("the facts on standard input: {error}");
    io::stdin().read_to_string(&mut facts).map_err(of_stdin)?;
    let printed = fs::read(log).map_err(|error| format!("{log}: {error}"))?;
    let tree = tree::read(Path::new("."), output::facts_in(&facts))?;
    let sheet = sheet::sheet(&tree, &output::read(&String::from_utf8_lossy(&printed)));
    write(folder, "sheet.txt", &text::text(&sheet))?;
    write(folder, "sheet.html", &page::page(&sheet))?;
    println!("sheet: {folder}/sheet.txt and {folder}/sheet.html: {}", sheet.verdict);
    Ok(sheet.passed)
}

fn write(folder: &str, name: &str, content: &str) -> Result<(), String> {
    let path = Path::new(folder).join(name);
    fs::write(&path, content).map_err(|error| format!("{}: {error}", path.display()))
}
