//! What demand 3 says of live requests, found from the accepted records alone: who opened
//! when and for what, who has given up what and who has completed since. A table is only
//! looked at to compare.

use crate::answer::report;
use crate::arbiter::Arbiter;
use crate::case::Call;
use crate::record::Record;
use crate::table::Table;

/// How a request parts from an earlier one that was in its way.
const COMPLETION: &str = "parted by the earlier one's completion";
const GIVE_UP: &str = "parted by the earlier one's give up";
const OWN_GIVE_UP: &str = "parted by its own give up";

/// The completion of one from which a request has parted lowers its number no further.
const BEHIND_GIVE_UP: &str = "completed behind its give up that parted";
const BEHIND_OWN_GIVE_UP: &str = "completed behind the other's give up that parted";

const EMPTIED: &str = "gave up all that it still declared";

/// What can happen to requests that have their tokens and to those in their way.
pub const HAPPENINGS: [&str; 6] = [
    COMPLETION,
    GIVE_UP,
    OWN_GIVE_UP,
    BEHIND_GIVE_UP,
    BEHIND_OWN_GIVE_UP,
    EMPTIED,
];

/// An earlier request that was in the way when the token came.
struct Earlier {
    opening: u64,
    /// How the two have parted.
    parted: Option<&'static str>,
}

struct Live {
    opening: u64,
    job: u8,
    declares: u64,
    /// The set last asked for.
    asked: u64,
    /// Completions until it has its token.
    until_token: usize,
    /// Those in its way when its token came.
    at_token: Option<Vec<Earlier>>,
}

impl Live {
    fn shares(&self, other: &Live) -> bool {
        self.declares & other.declares != 0
    }

    /// The one of this opening, if it was in the way when the token came.
    fn earlier(&mut self, opening: u64) -> Option<&mut Earlier> {
        let mut earlier = self.at_token.iter_mut().flatten();
        earlier.find(|e| e.opening == opening)
    }

    /// What happens if they have not parted yet.
    fn parts(&mut self, opening: u64, how: &'static str) -> Option<&'static str> {
        let earlier = self.earlier(opening).filter(|e| e.parted.is_none())?;
        earlier.parted = Some(how);
        Some(how)
    }

    /// What happens when the one of this opening completes.
    fn loses(&mut self, opening: u64) -> Option<&'static str> {
        match self.earlier(opening)?.parted {
            None => self.parts(opening, COMPLETION),
            Some(OWN_GIVE_UP) => Some(BEHIND_OWN_GIVE_UP),
            Some(_) => Some(BEHIND_GIVE_UP),
        }
    }

    /// The number at the token less the partings so far.
    fn in_the_way(&self) -> Option<usize> {
        let earlier = self.at_token.as_ref()?.iter();
        Some(earlier.filter(|e| e.parted.is_none()).count())
    }
}

#[derive(Default)]
pub struct History {
    tokens: usize,
    openings: u64,
    /// In order of opening.
    line: Vec<Live>,
}

impl History {
    /// Takes an accepted record, and names what happens.
    pub fn take(&mut self, record: &Record) -> Vec<&'static str> {
        match *record {
            Record::Start { tokens, .. } => self.tokens = usize::from(tokens),
            Record::Event { call, job, set, .. } => match call {
                Call::Open => self.open(job, set),
                Call::Ask => self.live(job).asked = set,
                Call::Complete => return self.complete(job),
                Call::GiveUp => return self.give_up(job, set),
                _ => {}
            },
        }
        Vec::new()
    }

    fn place(&self, job: u8) -> usize {
        let place = self.line.iter().position(|live| live.job == job);
        place.expect("an accepted event of a live request")
    }

    fn live(&mut self, job: u8) -> &mut Live {
        let place = self.place(job);
        &mut self.line[place]
    }

    fn open(&mut self, job: u8, declares: u64) {
        self.openings += 1;
        self.line.push(Live {
            opening: self.openings,
            job,
            declares,
            asked: 0,
            until_token: (self.line.len() + 1).saturating_sub(self.tokens),
            at_token: None,
        });
        self.note_tokens();
    }

    fn complete(&mut self, job: u8) -> Vec<&'static str> {
        let gone = self.line.remove(self.place(job)).opening;
        let happened = |live: &mut Live| {
            live.until_token = live.until_token.saturating_sub(1);
            live.loses(gone)
        };
        let happened = self.line.iter_mut().filter_map(happened).collect();
        self.note_tokens();
        happened
    }

    fn note_tokens(&mut self) {
        for place in 0..self.line.len() {
            let (earlier, rest) = self.line.split_at_mut(place);
            let live = &mut rest[0];
            if live.until_token == 0 && live.at_token.is_none() {
                let in_the_way = earlier.iter().filter(|other| other.shares(live));
                let in_the_way = in_the_way.map(|other| Earlier {
                    opening: other.opening,
                    parted: None,
                });
                live.at_token = Some(in_the_way.collect());
                assert!(live.in_the_way() < Some(self.tokens));
            }
        }
    }

    fn give_up(&mut self, job: u8, set: u64) -> Vec<&'static str> {
        let place = self.place(job);
        self.line[place].declares &= !set;
        let (earlier, rest) = self.line.split_at_mut(place);
        let (giver, later) = rest.split_first_mut().expect("its place is in line");
        let apart = later.iter_mut().filter(|other| !other.shares(giver));
        let by_it = apart.filter_map(|other| other.parts(giver.opening, GIVE_UP));
        let mut happened: Vec<&str> = by_it.collect();
        if giver.declares == 0 {
            happened.push(EMPTIED);
        }
        let earlier: Vec<u64> = earlier
            .iter()
            .filter(|other| !other.shares(giver))
            .map(|other| other.opening)
            .collect();
        let own = |&opening| giver.parts(opening, OWN_GIVE_UP);
        happened.extend(earlier.iter().filter_map(own));
        happened
    }

    /// Compares a report of each live request with what the demand says of it.
    pub fn compare(&self, table: &Table) {
        let arbiter = Arbiter::of(table);
        for (place, live) in self.line.iter().enumerate() {
            let told = report(&arbiter, u32::from(live.job));
            let token = live.until_token == 0;
            let declares_asked = |other: &Live| other.declares & live.asked != 0;
            let waiting = !token || self.line[..place].iter().any(declares_asked);
            let in_the_way = live.in_the_way().unwrap_or(told.in_the_way);
            assert_eq!(
                (told.token, told.waiting, told.ahead, told.in_the_way),
                (token, waiting, place, in_the_way),
                "job {} of {table:?}",
                live.job
            );
        }
    }
}
