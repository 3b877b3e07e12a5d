//! Makes rows of service cases.
//!
//! Kinds that are about changes of a file go in rounds: first the file of a fresh table,
//! then changes of the last file that was accepted, each in its turn, so that a row that
//! is long enough has them all. The tally recognises a change by that file too.

use crate::file_changes::{Changes, COUNTED, FLIPPED, OF_VERSION, RESIZED, ROWS_SPOILT};
use crate::layout::{Layout, HEAD, LONGEST, ROW};
use crate::random::Random;
use crate::service::{file, length, load, VERSION};
use crate::service_case::ServiceCase;
use crate::table::{Table, JOBS};
use crate::tables::{self, Walk};

struct Maker {
    random: Random,
    walk: Walk,
    /// How many cases were made.
    place: u64,
    /// The last file that is accepted.
    accepted: Vec<u8>,
}

type Draw = fn(&mut Maker) -> ServiceCase;

/// Every kind with what makes a case of it.
const KINDS: [(&str, Draw); 11] = [
    ("sound", Maker::sound),
    ("damaged", Maker::damaged),
    ("flips", |maker| maker.in_rounds(FLIPPED, &WITH_A_MIDDLE)),
    ("sizes", |maker| maker.in_rounds(RESIZED, &[3, 0, 1, 64])),
    ("rows", |maker| maker.in_rounds(ROWS_SPOILT, &WITH_A_MIDDLE)),
    ("counts", |maker| maker.in_rounds(COUNTED, &WITH_A_MIDDLE)),
    ("versions", |maker| {
        maker.in_rounds(OF_VERSION, &WITH_A_MIDDLE)
    }),
    ("random", Maker::any_bytes),
    ("saves", Maker::save),
    ("mixed", Maker::mixed),
    ("cut", Maker::mixed),
];

/// Live rows of the tables that rounds begin with: enough for one between first and last.
const WITH_A_MIDDLE: [u64; 8] = [3, 4, 5, 6, 7, 8, 12, JOBS as u64];

pub fn kinds() -> impl Iterator<Item = &'static str> {
    KINDS.iter().map(|(kind, _)| *kind)
}

/// A row of `count` cases; a `cut` row goes on with what is no whole case, one of eight
/// such by seed modulo 8. Nothing if there is no such kind.
pub fn make(kind: &str, seed: u64, count: u64) -> Option<impl Iterator<Item = Vec<u8>>> {
    let (kind, draw) = *KINDS.iter().find(|(name, _)| *name == kind)?;
    let mut maker = Maker::new(seed);
    let rest = (kind == "cut").then(|| no_whole_case(seed));
    Some(
        (0..count)
            .map(move |_| draw(&mut maker).to_bytes())
            .chain(rest),
    )
}

/// The cases of a `mixed` row, without end.
pub fn mixed(seed: u64) -> impl Iterator<Item = ServiceCase> {
    let mut maker = Maker::new(seed);
    std::iter::from_fn(move || Some(maker.mixed()))
}

fn no_whole_case(seed: u64) -> Vec<u8> {
    let table = Table::empty(1, 1, 1, 0);
    let load = ServiceCase::Load(file(&table)).to_bytes();
    let save = ServiceCase::Save { room: 30, table }.to_bytes();
    match seed % 8 {
        0 => load[..1].into(),
        1 => save[..1].into(),
        2 => load[..2].into(),
        3 => load[..3].into(),
        4 => load[..load.len() - 1].into(),
        5 => save[..3].into(),
        6 => save[..save.len() - 1].into(),
        // A call that doesn't exist, with a whole case after it.
        _ => [&[2 + (seed / 8 % 254) as u8], load.as_slice()].concat(),
    }
}

impl Maker {
    fn new(seed: u64) -> Maker {
        Maker {
            random: Random::new(seed),
            walk: Walk::new(),
            place: 0,
            accepted: Vec::new(),
        }
    }

    fn next_place(&mut self) -> u64 {
        self.place += 1;
        self.place - 1
    }

    /// The tables that rounds begin with have these numbers of live rows, one after
    /// the other.
    fn in_rounds(&mut self, changes: Changes, rows: &[u64]) -> ServiceCase {
        let place = self.next_place();
        let round = place / (changes.steps + 1);
        let file = match (place % (changes.steps + 1)).checked_sub(1) {
            None => file(&self.built_of(rows[round as usize % rows.len()])),
            Some(step) => changes.make(&mut self.random, &self.accepted, round, step),
        };
        if load(&file).is_ok() {
            self.accepted.clone_from(&file);
        }
        ServiceCase::Load(file)
    }

    fn built_of(&mut self, requests: u64) -> Table {
        let random = &mut self.random;
        let tokens = random.pick(&[1, 2, 5, 64]);
        let resources = random.pick(&[1, 3, 8, 64]);
        let mut table = tables::built_of(random, tokens, resources, requests);
        to_the_ends(random, &mut table);
        table
    }

    fn sound_table(&mut self) -> Table {
        let random = &mut self.random;
        let mut table = if random.one_in(2) {
            tables::built(random)
        } else {
            self.walk.next(random)
        };
        to_the_ends(random, &mut table);
        table
    }

    fn damaged_table(&mut self) -> Table {
        let mut table = self.sound_table();
        tables::damage(&mut self.random, &mut table);
        table
    }

    /// Every second table steps through all numbers of tokens, resources and requests.
    fn sound(&mut self) -> ServiceCase {
        let place = self.next_place();
        if place % 2 == 1 {
            return ServiceCase::Load(file(&self.sound_table()));
        }
        let step = place / 2;
        let tokens = 1 + step % 64;
        let resources = 1 + (3 * step + step / 64) % 64;
        let requests = 7 * step % (JOBS as u64 + 1);
        let random = &mut self.random;
        let mut table = tables::built_of(random, tokens as u8, resources as u8, requests);
        to_the_ends(random, &mut table);
        ServiceCase::Load(file(&table))
    }

    /// Most damage can be written; the fields have no place for the rest of it.
    fn damaged(&mut self) -> ServiceCase {
        let table = self.damaged_table();
        ServiceCase::Load(Layout::of_table(VERSION, &table).bytes())
    }

    /// Mostly damaged tables, for each single thing that can be broken is rare.
    fn mixed(&mut self) -> ServiceCase {
        match self.random.below(8) {
            0..=3 => {
                let sort = self.random.pick(&[0, 1, 1, 2]);
                let table = self.table_to_save(sort, 3);
                let room = room_for(&table, self.random.below(ROOMS - 1));
                ServiceCase::Save { room, table }
            }
            4 | 5 => self.damaged(),
            6 => ServiceCase::Load(file(&self.sound_table())),
            _ => self.changed_often(),
        }
    }

    /// One to three changes of a sound table's file, as long as two rows are left.
    fn changed_often(&mut self) -> ServiceCase {
        let mut file = file(&self.sound_table());
        let random = &mut self.random;
        for _ in 0..=random.below(3) {
            let changes = random.pick(&[FLIPPED, RESIZED, ROWS_SPOILT, COUNTED, OF_VERSION]);
            let any = random.number();
            if file.len() >= HEAD + 2 * ROW {
                file = changes.make(random, &file, any, any % changes.steps);
            }
        }
        ServiceCase::Load(file)
    }
}

/// Moves true time, turns and limit to their ends now and then. Sound stays sound.
fn to_the_ends(random: &mut Random, table: &mut Table) {
    if random.one_in(4) {
        tables::late(random, table);
    }
    if random.one_in(4) {
        tables::last(random, table);
    }
    if random.one_in(4) {
        table.limit = random.pick(&[1, u32::MAX]);
    }
}

// ---- bytes without a plan, and saves

impl Maker {
    /// Three in four with a head that fits their length, so that more than that is read.
    fn any_bytes(&mut self) -> ServiceCase {
        let random = &mut self.random;
        let rows = random.below(JOBS as u64 + 2) as usize;
        let any = random.below(3000) as usize;
        let short = random.below(HEAD as u64 + 1) as usize;
        let whole = HEAD + ROW * rows;
        let mut size = random.pick(&[any, short, whole, whole, whole]);
        if random.one_in(64) {
            size = random.pick(&[LONGEST + 1, usize::from(u16::MAX)]);
        }
        let mut file: Vec<u8> = (0..size).map(|_| random.number() as u8).collect();
        if random.one_in(4) {
            return ServiceCase::Load(file);
        }
        if let Some(mut layout) = Layout::of(&file) {
            layout.head.version = VERSION;
            layout.head.count = layout.rows.len() as u64;
            if random.one_in(2) {
                layout.head.zero = 0;
                layout.rows.iter_mut().for_each(|row| row.zero = 0);
            }
            file = layout.bytes();
        }
        ServiceCase::Load(file)
    }

    /// Steps through the rooms for tables of every sort.
    fn save(&mut self) -> ServiceCase {
        let place = self.next_place();
        let (room, sort, round) = (place % ROOMS, place / ROOMS % 3, place / ROOMS / 3);
        let table = self.table_to_save(sort, round);
        let room = room_for(&table, room);
        ServiceCase::Save { room, table }
    }

    /// Sound, damaged or random; of the sound ones some with no, one or every row live.
    fn table_to_save(&mut self, sort: u64, round: u64) -> Table {
        match (sort, round % 4) {
            (0, 0) => self.built_of(0),
            (0, 1) => self.built_of(1),
            (0, 2) => self.built_of(JOBS as u64),
            (0, _) => self.sound_table(),
            (1, _) => self.damaged_table(),
            _ => tables::random(&mut self.random),
        }
    }
}

/// How many rooms `room_for` knows; the last one takes long to print.
pub const ROOMS: u64 = 8;

/// Rooms at the edges of what the table's file needs.
pub fn room_for(table: &Table, which: u64) -> u16 {
    let exact = length(table);
    let rooms = [0, HEAD - 1, HEAD, exact - 1, exact, exact + 1, LONGEST];
    rooms
        .get(which as usize)
        .map_or(u16::MAX, |&room| room as u16)
}
