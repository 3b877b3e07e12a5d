//! `at`: the table after the last record, what is reported of each live job, and who is
//! overdue.

use crate::answer::report;
use crate::arbiter::Arbiter;
use crate::explain::listed;
use crate::table_text;
use crate::told::tell;
use std::io::{self, Read, Write};

pub fn at(input: impl Read, mut out: impl Write) -> io::Result<()> {
    let mut last = (0, None);
    tell(input, |told| {
        last = (told.number, told.after.clone());
        Ok(())
    })?;
    match last {
        (number, None) => writeln!(out, "after record {number}: no table")?,
        (number, Some(arbiter)) => {
            writeln!(out, "after record {number}: time {}", arbiter.time)?;
            table_text::lines(&arbiter.table(), &mut out)?;
            live(&arbiter, &mut out)?;
        }
    }
    out.flush()
}

/// What is reported of each live job, and who is overdue at this very time.
fn live(arbiter: &Arbiter, out: &mut impl Write) -> io::Result<()> {
    for request in &arbiter.line {
        let report = report(arbiter, u32::from(request.job));
        let (token, waiting) = (yes_or_no(report.token), yes_or_no(report.waiting));
        write!(
            out,
            "job {}: turn {}, token {token}",
            request.job, report.turn
        )?;
        write!(out, ", waiting {waiting}, ahead {}", report.ahead)?;
        writeln!(out, ", in the way {}", report.in_the_way)?;
    }
    // The tick that the counter shows at this time leaves it as it is.
    let late = arbiter.overdue(arbiter.time as u32);
    let late = if late.is_empty() {
        "nobody".to_string()
    } else {
        listed(late, ", ")
    };
    writeln!(out, "overdue: {late}")
}

fn yes_or_no(holds: bool) -> &'static str {
    if holds {
        "yes"
    } else {
        "no"
    }
}
