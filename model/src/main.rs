//! A second reading of the rules of the lock arbiter, to compare the product with.
//!
//! ```text
//! model replay < recording > listing
//! model probe < cases > output
//! model make-recording KIND SEED COUNT > recording
//! model make-cases KIND SEED COUNT > cases
//! model record < lines > recording
//! model questions < lines > cases
//! model calls < calls > cases
//! model answers < calls > output
//! model service < service-cases > output
//! model make-files KIND SEED COUNT > service-cases
//! model unpack FOLDER < service-cases
//! model show < service-file > text
//! model save < recording > service-file
//! model explain < recording > text
//! model stats < recording > text
//! model at < recording > text
//! model jobs < recording > mask
//! model wave MASK < recording > dump
//! model read-wave < dump > text
//! model case-size
//! model block-size
//! model tally FILE...
//! model tally-recordings FILE...
//! model tally-files FILE...
//! ```
//!
//! `make-cases each` and `make-files each` make cases until the tally has met COUNT
//! times what is left to chance. The tallies exit with 1 if something was never met, `service`
//! if a file is not saved again as it was loaded, `save` if the recording does not begin
//! with an accepted start. `answers` prints what is written by hand beside the calls, as
//! the probe must print it. `unpack` puts each file that is to be loaded into the folder,
//! its name being the number of the case. `explain`, `stats`, `at` and `wave` print what
//! docs/DESK.md says, `at` of the last record. The mask has a 1 at the place of each job,
//! 0 to 63, that a record names; the dump shows the jobs of its mask. `desk` may stand
//! before these words, as .ci/compare-desk calls it. `read-wave` prints the values
//! of any dump at the end of each time. The sizes are the bytes of a case and the records
//! of a block. Wrong arguments, and input or output that fails, exit with 2.

mod answer;
mod arbiter;
mod at;
mod bits;
mod calls;
mod case;
mod cases;
mod clock;
#[cfg(test)]
mod desk_sessions;
mod drive;
mod explain;
mod file_changes;
mod file_tally;
mod file_traps;
mod files;
mod flips;
#[cfg(test)]
mod give_up_sessions;
mod history;
mod job_stats;
mod layout;
#[cfg(test)]
mod leap_sessions;
mod lines;
mod probe;
mod random;
mod read_wave;
mod record;
mod recording_tally;
mod recordings;
mod refuse;
mod replay;
mod service;
mod service_case;
#[cfg(test)]
mod service_sessions;
#[cfg(test)]
mod sessions;
mod set;
mod sound;
mod stats;
mod stream;
mod table;
mod table_text;
mod tables;
mod tally;
mod told;
mod traps;
mod wave;
#[cfg(test)]
mod wave_sessions;
mod words;

use std::fs;
use std::io::{self, BufReader, BufWriter, Read, Write};
use std::path::Path;
use std::process::ExitCode;

fn main() -> ExitCode {
    let arguments: Vec<String> = std::env::args().skip(1).collect();
    let arguments: Vec<&str> = arguments.iter().map(String::as_str).collect();
    match run(&arguments) {
        Ok(true) => ExitCode::SUCCESS,
        Ok(false) => ExitCode::from(1),
        Err(error) => {
            eprintln!("model: {error}");
            ExitCode::from(2)
        }
    }
}

/// False if something that was asked for does not hold: a tally misses something, say.
fn run(arguments: &[&str]) -> io::Result<bool> {
    let input = BufReader::new(io::stdin());
    let out = BufWriter::new(io::stdout());
    match *arguments {
        ["replay"] => replay::run(input, out).map(|()| true),
        ["probe"] => probe::run(input, out).map(|()| true),
        ["make-recording", kind, seed, count] => {
            let recording = recordings::make(kind, number(seed)?, number(count)?);
            put_out([recording.ok_or_else(wrong)?], out)
        }
        ["make-cases", "each", seed, count] => {
            put_out(tally::each(number(seed)?, number(count)?), out)
        }
        ["make-cases", kind, seed, count] => {
            let cases = cases::make(kind, number(seed)?, number(count)?);
            put_out(cases.ok_or_else(wrong)?, out)
        }
        ["record"] => put_out([lines::recording(&io::read_to_string(input)?)?], out),
        ["questions"] => put_out(lines::questions(&io::read_to_string(input)?)?, out),
        ["calls"] => put_out(calls::cases(&io::read_to_string(input)?)?, out),
        ["answers"] => put_out([calls::answers(&io::read_to_string(input)?)?], out),
        ["case-size"] => put_out([format!("{}\n", case::CASE).into()], out),
        ["block-size"] => put_out([format!("{}\n", recordings::BLOCK).into()], out),
        ["tally", ref files @ ..] => tally::of_cases(&read(files)?, out),
        ["tally-recordings", ref files @ ..] => recording_tally::of_recordings(&read(files)?, out),
        _ => run_service(arguments, input, out),
    }
}

/// What is about service files.
fn run_service(arguments: &[&str], mut input: impl Read, out: impl Write) -> io::Result<bool> {
    match *arguments {
        ["service"] => service_case::run(input, out),
        ["make-files", "each", seed, count] => {
            put_out(file_tally::each(number(seed)?, number(count)?), out)
        }
        ["make-files", kind, seed, count] => {
            let cases = files::make(kind, number(seed)?, number(count)?);
            put_out(cases.ok_or_else(wrong)?, out)
        }
        ["unpack", folder] => service_case::unpack(input, Path::new(folder)).map(|()| true),
        ["show"] => {
            let mut file = Vec::new();
            input.read_to_end(&mut file)?;
            table_text::show(&file, out).map(|()| true)
        }
        ["save"] => match table_text::file_of_recording(input)? {
            Ok(file) => put_out([file], out),
            Err(refusal) => {
                eprintln!("record 1: no {refusal}");
                Ok(false)
            }
        },
        ["tally-files", ref files @ ..] => file_tally::of_files(&read(files)?, out),
        _ => run_desk(arguments, input, out).map(|()| true),
    }
}

/// What is about a recording, for a person at a desk.
fn run_desk(arguments: &[&str], input: impl Read, mut out: impl Write) -> io::Result<()> {
    match *arguments {
        ["explain"] => explain::explain(input, out),
        ["stats"] => stats::stats(input, out),
        ["at"] => at::at(input, out),
        ["jobs"] => {
            let named = told::named(input)?.map(|named| if named { '1' } else { '0' });
            writeln!(out, "{}", named.iter().collect::<String>())?;
            out.flush()
        }
        ["wave", mask] => wave::wave(input, &wave::mask(mask).ok_or_else(wrong)?, out),
        ["read-wave"] => read_wave::run(&io::read_to_string(input)?, out),
        // As the program is called, so that the model can stand in its place.
        ["desk", ref words @ ..] => run_desk(words, input, out),
        _ => Err(wrong()),
    }
}

fn read(files: &[&str]) -> io::Result<Vec<Vec<u8>>> {
    files.iter().map(fs::read).collect()
}

fn put_out(pieces: impl IntoIterator<Item = Vec<u8>>, mut out: impl Write) -> io::Result<bool> {
    for bytes in pieces {
        out.write_all(&bytes)?;
    }
    out.flush()?;
    Ok(true)
}

fn number(text: &str) -> io::Result<u64> {
    text.parse().map_err(|_| wrong())
}

fn wrong() -> io::Error {
    io::Error::new(io::ErrorKind::InvalidInput, usage())
}

fn usage() -> String {
    let recordings: Vec<&str> = recordings::kinds().collect();
    let cases: Vec<&str> = cases::kinds().collect();
    let files: Vec<&str> = files::kinds().collect();
    format!(
        "arguments: replay | probe | record | questions | calls | answers\n\
         service | show | save | unpack FOLDER\n\
         explain | stats | at | jobs | wave MASK | read-wave\n\
         case-size | block-size\n\
         tally FILE... | tally-recordings FILE... | tally-files FILE...\n\
         make-recording KIND SEED COUNT, KIND one of {}\n\
         make-cases KIND SEED COUNT, KIND one of each {}\n\
         make-files KIND SEED COUNT, KIND one of each {}",
        recordings.join(" "),
        cases.join(" "),
        files.join(" ")
    )
}
