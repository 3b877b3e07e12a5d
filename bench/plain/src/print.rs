//! Text to standard output. The counter leaves out what runs in this module, by its name.

use crate::arbiter::{Report, Row, Said, Table};
use std::io::{self, Write};

const ROOM: usize = 65536;
/// The longest line of a table; only a list longer than any of a drive makes the room grow.
const LONGEST: usize = 8192;

pub struct Out {
    room: Vec<u8>,
    to: io::Stdout,
}

impl Out {
    pub fn new() -> Out {
        Out {
            room: Vec::with_capacity(ROOM + LONGEST),
            to: io::stdout(),
        }
    }

    pub fn flush(&mut self) -> io::Result<()> {
        let mut to = self.to.lock();
        to.write_all(&self.room)?;
        self.room.clear();
        to.flush()
    }

    fn make_room(&mut self) -> io::Result<()> {
        if self.room.len() < ROOM {
            return Ok(());
        }
        self.flush()
    }

    fn text(&mut self, text: &[u8]) {
        self.room.extend_from_slice(text);
    }

    fn number(&mut self, mut n: u64) {
        let mut digits = [0; 20];
        let mut at = digits.len();
        loop {
            at -= 1;
            digits[at] = b'0' + (n % 10) as u8;
            n /= 10;
            if n == 0 {
                break;
            }
        }
        self.room.extend_from_slice(&digits[at..]);
    }

    fn words(&mut self, mark: u8, numbers: &[u64]) {
        for &n in numbers {
            self.room.push(mark);
            self.number(n);
        }
    }

    /// A replay's line.
    #[inline(never)]
    pub fn record(&mut self, number: u64, said: &Result<Said, u8>, list: &[u8]) -> io::Result<()> {
        self.number(number);
        match said {
            Err(refusal) => {
                self.text(b" no ");
                self.number(u64::from(*refusal));
            }
            Ok(Said::Wait) => self.text(b" wait"),
            Ok(Said::Woke(count)) => {
                self.text(b" ok");
                self.bytes(&list[..*count]);
            }
            Ok(_) => self.text(b" ok"),
        }
        self.text(b"\n");
        self.make_room()
    }

    #[inline(never)]
    pub fn end(&mut self, live: u64, tokens: u64) -> io::Result<()> {
        self.text(b"end");
        self.words(b' ', &[live, tokens]);
        self.text(b"\n");
        self.flush()
    }

    fn bytes(&mut self, list: &[u8]) {
        for &entry in list {
            self.words(b' ', &[u64::from(entry)]);
        }
    }

    #[inline(never)]
    pub fn cut(&mut self) {
        self.text(b"cut\n");
    }

    fn refusal(&mut self, number: u8) {
        self.text(b"no ");
        self.number(u64::from(number));
    }

    fn counted(&mut self, word: &[u8], count: usize) {
        self.text(word);
        self.number(count as u64);
    }

    #[inline(never)]
    pub fn answer(&mut self, number: u64, said: &Result<Said, u8>) {
        self.number(number);
        self.text(b" ");
        match said {
            Err(refusal) => self.refusal(*refusal),
            Ok(Said::Token) => self.text(b"token"),
            Ok(Said::Granted) => self.text(b"granted"),
            Ok(Said::Wait) => self.text(b"wait"),
            Ok(Said::Done) => self.text(b"done"),
            Ok(Said::Woke(count)) => self.counted(b"woke ", *count),
        }
        self.text(b"\n");
    }

    #[inline(never)]
    pub fn report(&mut self, number: u64, report: &Result<Report, u8>) {
        self.number(number);
        self.text(b" ");
        match report {
            Err(refusal) => self.refusal(*refusal),
            Ok(r) => {
                self.text(b"report");
                let (ahead, in_way) = (u64::from(r.ahead), u64::from(r.in_way));
                self.words(
                    b' ',
                    &[
                        r.turn,
                        u64::from(r.token),
                        u64::from(r.waiting),
                        ahead,
                        in_way,
                    ],
                );
            }
        }
        self.text(b"\n");
    }

    #[inline(never)]
    pub fn late(&mut self, number: u64, late: &Result<usize, u8>) {
        self.number(number);
        self.text(b" ");
        match late {
            Err(refusal) => self.refusal(*refusal),
            Ok(count) => self.counted(b"overdue ", *count),
        }
        self.text(b"\n");
    }

    #[inline(never)]
    pub fn wrote(&mut self, number: u64, wrote: &Result<(), u8>, room: &[u8]) -> io::Result<()> {
        self.number(number);
        self.text(b" ");
        match wrote {
            Err(refusal) => self.refusal(*refusal),
            Ok(()) => self.text(b"wrote"),
        }
        self.text(b"\n");
        self.list(room);
        self.make_room()
    }

    #[inline(never)]
    pub fn saved(&mut self, number: u64, saved: &Result<usize, u8>, room: &[u8]) -> io::Result<()> {
        self.number(number);
        self.text(b" ");
        match saved {
            Err(refusal) => self.refusal(*refusal),
            Ok(length) => self.counted(b"saved ", *length),
        }
        self.text(b"\n");
        self.list(room);
        self.make_room()
    }

    #[inline(never)]
    pub fn list(&mut self, list: &[u8]) {
        self.text(b"list");
        self.bytes(list);
        self.text(b"\n");
    }

    #[inline(never)]
    pub fn table(&mut self, table: &Table) -> io::Result<()> {
        self.text(b"table ");
        self.number(u64::from(table.tokens));
        let (resources, limit) = (u64::from(table.resources), u64::from(table.limit));
        self.words(b' ', &[resources, limit, table.time, table.last]);
        for (job, row) in table.rows.iter().enumerate() {
            self.row(job as u64, row);
        }
        self.text(b"\n");
        self.make_room()
    }

    fn row(&mut self, job: u64, row: &Row) {
        if row.turn | row.declared | row.held | row.asked | row.since == 0 {
            return;
        }
        self.words(b' ', &[job]);
        self.words(b':', &[row.turn]);
        self.words(b',', &[row.declared, row.held, row.asked, row.since]);
    }
}
