//! The words of the refusals (docs/RULES.md).

/// The refusals are told to people, who should not have to look a number up.
pub fn words(number: u8) -> &'static str {
    match number {
        1 => "tokens, resources or limit out of range",
        2 => "the lent list is shorter than 64",
        3 => "the table is not sound",
        4 => "there is no such job",
        5 => "the clock has gone back",
        6 => "true time would pass its end",
        7 => "the job has a live request",
        8 => "the job has no live request",
        9 => "the job has no token",
        10 => "an earlier ask still waits",
        11 => "the set is empty",
        12 => "the set names a resource that does not exist",
        13 => "a member is not declared",
        14 => "a member is already held",
        15 => "a member is not held",
        16 => "no turn is left",
        17 => "the record is not 14 bytes long",
        18 => "the kind is unknown",
        19 => "a bit that must be 0 is 1",
        20 => "a start that is not first, or a first record that is no start",
        21 => "wrong length or too little room",
        22 => "the version is unknown",
        23 => "the clock leaps by more than an hour",
        _ => unreachable!("nothing is refused as {number}"),
    }
}
