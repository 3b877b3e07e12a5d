//! Makes recordings.

use crate::clock::HOUR;
use crate::drive::{self, Style};
use crate::random::Random;
use crate::record::{self, Record, LENGTH};
use crate::replay::Replay;
use crate::table::{Table, JOBS};

/// Bytes of the longest line of a listing: a number of 20 digits, ` ok`, every job
/// after a space, in up to three digits, and the line's end.
const LINE: u64 = 20 + 3 + 4 * JOBS as u64 + 1;

/// Records that the replay program takes at once: as many as have room for their
/// longest lines in 65,536 bytes.
pub const BLOCK: u64 = 65_536 / LINE;

const CALM: &[u64] = &[0, 0, 0, 1, 1, 2, 3, 40, 1000, HOUR];

/// Mostly hours, so that a wrap comes along, and the edges: a longer step is a leap, up
/// to half the counter, where the clock turns from forward to back. The last of these is
/// one tick back.
const EDGES: &[u64] = &[
    0,
    1,
    HOUR - 1,
    HOUR,
    HOUR,
    HOUR,
    HOUR,
    HOUR,
    HOUR,
    HOUR,
    HOUR + 1,
    3 * HOUR,
    (1 << 31) - 1,
    1 << 31,
    (1 << 31) + 1,
    (1 << 32) - 1,
];

struct Plan {
    tokens: &'static [u8],
    resources: &'static [u8],
    style: Style,
    /// One record in this many is damaged; 0 for none.
    damage: u64,
    /// One record in this many can be read.
    readable: u64,
}

const fn plan(jobs: u64, steps: &'static [u64], wild: u64) -> Plan {
    Plan {
        tokens: &[1, 2, 3, 4, 8],
        resources: &[1, 2, 4, 8, 64],
        style: Style { jobs, steps, wild },
        damage: 0,
        readable: 1,
    }
}

/// Every kind with its plan.
const PLANS: [(&str, Plan); 10] = [
    ("lively", plan(12, CALM, 40)),
    (
        "damaged",
        Plan {
            damage: 4,
            ..plan(12, CALM, 6)
        },
    ),
    ("ticks", plan(12, EDGES, 12)),
    ("crowd", plan(JOBS as u64, CALM, 12)),
    ("few", plan(2, CALM, 4)),
    // One tick for all, so that copies of it in a row are not just refusals.
    ("still", plan(12, &[0], 40)),
    (
        "corner",
        Plan {
            tokens: &[1, 64],
            resources: &[1, 64],
            ..plan(JOBS as u64, CALM, 12)
        },
    ),
    ("cut", plan(12, CALM, 12)),
    // Blocks are about reading and counting: most records never come to the table,
    // which would only take time.
    (
        "block",
        Plan {
            readable: 4,
            ..plan(12, CALM, 12)
        },
    ),
    ("first", plan(12, CALM, 12)),
];

pub fn kinds() -> impl Iterator<Item = &'static str> {
    PLANS.iter().map(|(kind, _)| *kind)
}

/// A recording of `count` records. Nothing if there is no such kind.
///
/// The seed steps through the edges, so that a row of seeds meets them all: a `cut`
/// one has seed modulo 14 bytes more; a `block` one has `count` times `BLOCK`
/// records, less one to more one by seed modulo 3, and (seed / 3) modulo 14 bytes more; a
/// `first` one has one of seven bad beginnings by seed modulo 7, the last of them
/// (seed / 7) modulo 14 bytes and no more.
pub fn make(kind: &str, seed: u64, count: u64) -> Option<Vec<u8>> {
    let (_, plan) = PLANS.iter().find(|(name, _)| *name == kind)?;
    let mut random = Random::new(seed);
    let (records, rest) = match kind {
        "cut" => (count, seed % 14),
        "block" => ((count * BLOCK + seed % 3).saturating_sub(1), seed / 3 % 14),
        "damaged" => (count, random.below(14)),
        _ => (count, 0),
    };
    // One record more than asked for, to take the rest from.
    let mut bytes = good_start(&mut random, plan, records + 1);
    bytes.truncate(records as usize * LENGTH + rest as usize);
    if kind == "first" || (kind == "damaged" && random.one_in(8)) {
        bytes = spoil_first(&mut random, bytes, seed);
    }
    Some(bytes)
}

/// A recording that begins with an accepted start.
fn good_start(random: &mut Random, plan: &Plan, count: u64) -> Vec<u8> {
    let mut replay = Replay::default();
    let mut bytes = Vec::new();
    for _ in 0..count {
        let mut record = match &replay.table {
            None => start(random, plan),
            Some(table) => record::write(&drive::event(random, table, &plan.style)),
        };
        if replay.table.is_some() && plan.damage > 0 && random.one_in(plan.damage) {
            damage(random, &mut record);
        }
        if replay.table.is_some() && !random.one_in(plan.readable) {
            // Kind 7.
            record[0] |= 224;
        }
        // Following what is really written keeps later events sensible.
        replay.step(&record);
        bytes.extend(record);
    }
    bytes
}

fn start(random: &mut Random, plan: &Plan) -> [u8; LENGTH] {
    let any = random.number() as u32;
    let in_the_last_hour = u32::MAX - any % HOUR as u32;
    record::write(&Record::Start {
        tokens: random.pick(plan.tokens),
        resources: random.pick(plan.resources),
        tick: random.pick(&[0, 1, u32::MAX - 20, u32::MAX, in_the_last_hour, any]),
        limit: random.pick(&[1, 50, 1000, u32::MAX, any.max(1)]),
    })
}

fn damage(random: &mut Random, record: &mut [u8; LENGTH]) {
    match random.below(5) {
        0 => flip(record, random.below(8 * LENGTH as u64)),
        // Among the first 16 bits are kind, job and a gap.
        1 => flip(record, random.below(16)),
        2 => record[0] = record[0] % 32 + 32 * random.below(8) as u8,
        3 => record.fill_with(|| random.number() as u8),
        _ => *record = start(random, &PLANS[0].1),
    }
}

fn flip(record: &mut [u8; LENGTH], bit: u64) {
    record[bit as usize / 8] ^= 128 >> (bit % 8);
}

/// Puts a first record with which no replay starts, or hardly any, before good
/// ones, or ends the recording within it.
fn spoil_first(random: &mut Random, mut bytes: Vec<u8>, seed: u64) -> Vec<u8> {
    let mut record = start(random, &PLANS[0].1);
    match seed % 7 {
        0 => record = record::write(&drive::event(random, &Table::zero(), &PLANS[0].1.style)),
        // A limit of 0.
        1 => record[6..10].fill(0),
        // A bit in the gaps.
        2 => flip(&mut record, random.pick(&[15, 80, 111])),
        3 => record[0] |= 64,
        4 => record.fill_with(|| random.number() as u8),
        5 => {
            record[6..10].fill(0);
            flip(&mut record, 111);
        }
        _ => return record[..(seed / 7 % 14) as usize].to_vec(),
    }
    let first = bytes.len().min(LENGTH);
    bytes.splice(..first, record);
    bytes
}
