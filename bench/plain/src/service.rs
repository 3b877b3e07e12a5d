//! Service cases, each of which loads a file or saves a table. The counter leaves out what runs in this module.

use crate::arbiter::Table;
use crate::bytes::number;
use crate::print::Out;
use crate::{fill, lend, parse, TABLE};
use std::io;

/// The first byte of a case.
const LOAD: u8 = 0;
const SAVE: u8 = 1;

pub fn run<const TRUST: bool>() -> io::Result<()> {
    let mut head = [0; 3];
    let mut bytes = vec![0; 1 << 16];
    let mut space = vec![0; 1 << 16];
    let mut out = Out::new();
    let mut table = Table::zero();
    for count in 1.. {
        let got = fill(&mut head)?;
        if got == 0 {
            break;
        }
        let length = usize::from(u16::from_be_bytes(number(&head, 1)));
        let rest = &mut bytes[..if head[0] == LOAD { length } else { TABLE }];
        if got < head.len() || head[0] > SAVE || fill(rest)? < rest.len() {
            out.cut();
            break;
        }
        if head[0] == LOAD {
            out.answer(count, &table.load::<TRUST>(rest));
            out.table(&table)?;
        } else {
            parse(rest.last_chunk().expect("a table"), &mut table);
            let room = &mut space[..length];
            lend(room);
            out.saved(count, &table.save::<TRUST>(room), room)?;
        }
    }
    out.flush()
}
