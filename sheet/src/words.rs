//! The prose of the first page: for an engineer who is no proof expert.

/// What was proved for a demand, in plain words, and by what: names, and the file that has them.
pub struct Demand {
    pub number: &'static str,
    pub proved: &'static str,
    pub carried_by: &'static [(&'static [&'static str], &'static str)],
}

pub const DEMANDS: [Demand; 3] = [
    Demand {
        number: "demand 1",
        proved: "Every call, on any table however damaged and with any argument, is answered: with \
                 the next table, or with one numbered refusal. Which refusal is fixed: the first in \
                 the documented order that applies. After a refusal the table, its clock and every \
                 lent list are as before. No caller has to check anything first.",
        carried_by: &[
            (
                &["Started", "Answered", "AnsweredInto", "ReportAnswered", "OverdueAnswered"],
                "crates/arbiter/specs/Promises.antt",
            ),
            (&["InPlace", "InPlaceInto"], "crates/in_place/specs/Promises.antt"),
        ],
    },
    Demand {
        number: "demand 2",
        proved: "An accepted event does what rules Q1 to Q6 of the protocol say, with the order of \
                 opening for time stamps, as documents 01 and 02 have them (`docs/RNLP.md`). An event \
                 that writing accepts has exactly one record of 14 bytes, and reading that record \
                 gives the event back.",
        carried_by: &[
            (&["accepted", "said", "wakes"], "crates/arbiter/specs/Meaning.antt"),
            (&["one_record"], "crates/record/specs/RoundTrip.antt"),
            (&["wrote_reads"], "crates/writing/specs/ReadBack.antt"),
        ],
    },
    Demand {
        number: "demand 3",
        proved: "Over any sequence of events after a start with T tokens, a request opened while p \
                 others are live has its token after exactly as many completions as p exceeds T-1, \
                 and at once if it does not. With its token, a set that it asks for waits exactly \
                 while an earlier-opened live request still declares a member of it, and is then \
                 granted whole. At most T-1 are in its way when its token comes, and the number \
                 reported falls by those who part from it, each once. No later request and no \
                 refused event changes any of this.",
        carried_by: &[
            (&["demand3"], "crates/promises/proofs/Demand/Holds.antt"),
            (&["Demand3"], "crates/promises/specs/Demand/Statement.antt"),
        ],
    },
];

/// Each name that carries a demand, with its file.
pub fn carriers() -> impl Iterator<Item = (&'static str, &'static str)> {
    let of_file =
        |(names, file): &'static (&'static [&'static str], &'static str)| names.iter().map(|name| (*name, *file));
    DEMANDS.iter().flat_map(move |demand| demand.carried_by.iter().flat_map(of_file))
}

pub const HOW_TO_MAKE_AGAIN: &str =
    "The archive is `libnorakkeun.a`, for x86-64. To make it again, check out the commit and run \
     `bin/build-program --archive norakkeun` (or `bin/bundle`), then `sha256sum target/built/libnorakkeun.a`: the same \
     sources and toolchain give the same bytes. `bin/evidence --identity` prints the sum of the sources.";

/// The words of a verdict that say what is trusted with the prover, as a check prints them
/// after `sum=`. The toolchain calls a result with others a working result, and no verdict.
pub const TRUSTED: [&str; 4] = ["native=", "logic-built=trusted", "libraries-built=trusted", "statements=trusted"];

/// What is trusted whatever is run; the rest is told by the output.
pub const PROVER: &str =
    "that it accepts no wrong proof, and that its rules for the language Rattle say what code does; with it \
     its logic and libraries, which it takes as checked before, and its own arithmetic";
pub const CODE_GENERATOR: &str =
    "that the machine code does what the proved code says; no proof speaks of the machine code";
pub const DEFINITIONS: &str =
    "that they say what you want: what is proved is that the code does what they say. `README.md` \
     lists them under \"Where to read\"";
pub const OF_THE_ARCHIVE: &str =
    "also the C or Rust compiler of the firmware and its linker; that the header `norakkeun.h` declares \
     the calls as they are (compiled, run and compared, not proved); `memcpy` and `memset`, the only \
     functions of the C library that it calls; and that firmware keeps to \"What the caller owes\" \
     in `docs/FIRMWARE.md`";

pub const NOT_CLAIMED: [&str; 7] = [
    "Milliseconds: waits are counted in completions.",
    "That a holder ever finishes.",
    "Elapsed time, once no event was accepted for over an hour.",
    "What the operating system does with a program's bytes.",
    "Which archive a flashed image holds: keep its sum.",
    "A drive that is not x86-64; two calls at once on one table.",
    "Scheduling, interrupts, brake logic: there is none in it.",
];
