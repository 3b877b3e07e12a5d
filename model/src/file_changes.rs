//! Changes of a service file that has two rows or more, each kind of them in steps.

use crate::flips::{self, FLIPS};
use crate::layout::{FileRow, Head, Layout, HEAD, ROW};
use crate::random::Random;
use crate::service::VERSION;
use crate::table::JOBS;

#[derive(Clone, Copy)]
pub struct Changes {
    /// How many there are in a round.
    pub steps: u64,
    make: fn(&mut Random, Step) -> Vec<u8>,
}

/// Which change of which file is to be made.
struct Step<'a> {
    file: &'a [u8],
    round: u64,
    step: u64,
}

impl Changes {
    pub fn make(&self, random: &mut Random, file: &[u8], round: u64, step: u64) -> Vec<u8> {
        (self.make)(random, Step { file, round, step })
    }
}

/// A bit of each field turned over, in every round another bit.
pub const FLIPPED: Changes = Changes {
    steps: FLIPS,
    make: |_, Step { file, round, step }| {
        let mut file = file.to_vec();
        flips::flip(&mut file, step, round);
        file
    },
};

/// A byte or a row less or more, and 0 to 23 bytes.
pub const RESIZED: Changes = Changes {
    steps: 4 + HEAD as u64 + 1,
    make: |random, Step { file, step, .. }| {
        let size = match step {
            0 => file.len() - 1,
            1 => file.len().saturating_sub(ROW),
            2 => file.len() + 1,
            3 => file.len() + ROW,
            _ => step as usize - 4,
        };
        resized(random, file, size)
    },
};

/// Rows in another order, or twice, or with a job or turn that they can't have.
pub const ROWS_SPOILT: Changes = Changes {
    steps: OF_ROWS.len() as u64,
    make: |random, Step { file, step, .. }| {
        let mut layout = layout(file);
        OF_ROWS[step as usize](random, &mut layout);
        layout.bytes()
    },
};

/// Every count, with another length and with its own.
pub const COUNTED: Changes = Changes {
    steps: 2 * 128,
    make: |random, Step { file, step, .. }| match step % 2 {
        0 => with_count(file, step / 2),
        _ => crowd(random, step / 2),
    },
};

/// Every version, with six lengths.
pub const OF_VERSION: Changes = Changes {
    steps: 6 * 16,
    make: |random, Step { file, step, .. }| {
        let own = file.len();
        let sizes = [own, own - 1, own + 1, own + ROW, HEAD, HEAD - 1];
        let mut file = resized(random, file, sizes[step as usize % 6]);
        file[0] = file[0] % 16 + 16 * (step / 6) as u8;
        file
    },
};

type OfRows = fn(&mut Random, &mut Layout);

const OF_ROWS: [OfRows; 8] = [
    |random, layout| {
        let place = any_row_but_the_last(random, layout);
        layout.rows.swap(place, place + 1);
    },
    |_, layout| {
        let last = layout.rows.len() - 1;
        layout.rows.swap(0, last);
    },
    |random, layout| {
        double(random, layout);
        layout.head.count += 1;
    },
    double,
    // A job twice, in rows whose turns ascend.
    |random, layout| {
        let place = any_row_but_the_last(random, layout);
        layout.rows[place + 1].job = layout.rows[place].job;
    },
    |_, layout| {
        let last = layout.rows.len() - 1;
        layout.rows[last].job = layout.rows[0].job;
    },
    |_, layout| layout.rows[0].turn = 0,
    // A row that says nothing but the number of a job: idle, were it taken.
    |random, layout| {
        let nothing = FileRow {
            job: random.below(JOBS as u64),
            ..FileRow::default()
        };
        layout.rows.insert(0, nothing);
        layout.head.count += 1;
    },
];

fn any_row_but_the_last(random: &mut Random, layout: &Layout) -> usize {
    random.below(layout.rows.len() as u64 - 1) as usize
}

fn double(random: &mut Random, layout: &mut Layout) {
    let place = random.below(layout.rows.len() as u64) as usize;
    layout.rows.insert(place, layout.rows[place].clone());
}

fn layout(file: &[u8]) -> Layout {
    Layout::of(file).expect("only what has rows is changed")
}

/// New bytes are random ones.
fn resized(random: &mut Random, file: &[u8], size: usize) -> Vec<u8> {
    let mut file = file.to_vec();
    file.resize_with(size, || random.number() as u8);
    file
}

/// The file with this count, and a row less if the count would be true.
fn with_count(file: &[u8], count: u64) -> Vec<u8> {
    let mut layout = layout(file);
    if layout.rows.len() as u64 == count {
        layout.rows.pop();
    }
    layout.head.count = count;
    layout.bytes()
}

/// A file of this many rows with ascending turns, and sound if there are jobs enough.
fn crowd(random: &mut Random, count: u64) -> Vec<u8> {
    let tokens = 1 + random.below(64);
    let time = random.any_length() / 2;
    let row = |place| FileRow {
        job: place % JOBS as u64,
        turn: place + 1,
        declared: 1,
        since: if place < tokens { 0 } else { time },
        ..FileRow::default()
    };
    let head = Head {
        version: VERSION,
        tokens_less_1: tokens - 1,
        resources_less_1: random.below(64),
        limit: 1,
        time,
        last_turn: count,
        count,
        zero: 0,
    };
    let rows = (0..count).map(row).collect();
    Layout { head, rows }.bytes()
}
