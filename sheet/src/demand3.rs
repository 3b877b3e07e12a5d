//! The statement of demand 3, cut into its clauses, with a sentence of plain English for
//! each. A clause without a sentence, or a sentence without a clause, speaks against a pass.

/// In these sentences `the request` is the one that is opened, T is the number of tokens,
/// and p the number of other requests that are live when it is opened.
pub const SENTENCES: [(&str, &str); 19] = [
    (
        "opening_says",
        "The opening is answered with the token if at most T-1 others are live at that \
         moment, and with `wait` otherwise.",
    ),
    (
        "token_comes",
        "The request has its token exactly from the moment on when as many requests have \
         completed since its opening as p exceeds T-1; at once if p does not exceed it.",
    ),
    (
        "token_reported",
        "Whenever a report of the job is answered, it says that the token is there exactly if \
         it has come by that count.",
    ),
    (
        "token_listed",
        "While the request has no token, the event that brings it lists the job as woken, \
         once, and no other event lists the job.",
    ),
    ("ask_has_token", "An ask of this request is accepted only if it has its token."),
    (
        "ask_says_lem",
        "An accepted ask is answered with `wait` exactly if some earlier-opened live request \
         still declares a member of the set, and with `granted` otherwise.",
    ),
    (
        "ask_granted",
        "If no earlier one declares a member, the whole set is held at once. While one does, nothing of the \
         set is held; with the event after which none does, the whole set is held. That event lists the job \
         as woken, once, and none before it does.",
    ),
    (
        "still_declares",
        "What the request declares now is what it was opened with, less what its own accepted \
         give ups took out.",
    ),
    (
        "way_bounded",
        "Once the request has its token, at most T-1 are in its way: earlier-opened live \
         requests that declare something that it declares.",
    ),
    (
        "way_reported",
        "The number that a later report gives is the number in the way now, less those who have parted from \
         the request in between: by completing, or by a give up of either after which the two share nothing.",
    ),
    (
        "parted_then",
        "Whoever parts from the request by an accepted event is out of its way with that very \
         event.",
    ),
    (
        "parted_once",
        "An earlier-opened request that is not in its way never comes into it, so nobody is \
         counted as parting twice.",
    ),
    (
        "given_up_for_good",
        "What the request has given up it neither declares nor holds for as long as it lives, \
         and every ask for some of it is refused.",
    ),
    (
        "token_by_earlier",
        "Counting only the completions of earlier-opened requests gives the same: no later \
         request brings the token sooner or later.",
    ),
    (
        "later_unseen",
        "An event that names none of the requests up to this one (a beat, or an event of a \
         job whose request was opened later, or that has none) changes nothing for them: not \
         their rows, not who stands before them, not what is in their way; and it wakes none \
         of them.",
    ),
    ("refused_before", "Without the refused events before the opening, the table at the opening is the same."),
    ("refused_since", "Without the refused events since the opening, the table now is the same."),
    (
        "refused_uncounted",
        "A refused event counts as no completion: without the refused events the count is the \
         same.",
    ),
    ("refused_unparted", "A refused event parts nobody: without the refused events as many have parted."),
];

/// A part of the statement's lines: a clause with the comment before it, or, without a name,
/// what stands before the clauses or after them. The pieces one after the other are the file.
#[derive(Clone)]
pub struct Piece {
    pub clause: Option<String>,
    pub lines: Vec<String>,
}

/// What it is that the sentences and the clauses do not agree in.
pub fn disagreements(pieces: &[Piece], sentences: &[(&str, &str)]) -> Vec<String> {
    let clauses: Vec<&str> = pieces.iter().filter_map(|piece| piece.clause.as_deref()).collect();
    let mut found = Vec::new();
    if clauses.is_empty() {
        found.push("the statement has no record Demand3 with clauses".to_string());
    }
    for clause in &clauses {
        if !sentences.iter().any(|(name, _)| name == clause) {
            found.push(format!("no sentence says what the clause {clause} means (sheet/src/demand3.rs)"));
        }
    }
    for (name, _) in sentences {
        if !clauses.contains(name) {
            found.push(format!(
                "a sentence says what {name} means, which is no clause of the statement (sheet/src/demand3.rs)"
            ));
        }
    }
    found
}

pub fn sentence(clause: &str) -> &'static str {
    let known = SENTENCES.iter().find(|(name, _)| *name == clause);
    known.map_or("NOT SAID in plain English", |(_, sentence)| sentence)
}

/// Cuts the statement before the comment of each clause, and after the last.
pub fn pieces(text: &str) -> Vec<Piece> {
    let mut pieces = vec![Piece { clause: None, lines: Vec::new() }];
    let mut record = None;
    let mut comment: Vec<String> = Vec::new();
    for line in text.lines() {
        let indent = line.len() - line.trim_start().len();
        if record.is_some_and(|of_record| !line.trim().is_empty() && indent <= of_record) {
            record = None;
            pieces.push(Piece { clause: None, lines: std::mem::take(&mut comment) });
        }
        let is_inside = record.is_some_and(|of_record| indent == of_record + 2);
        if is_inside && line.trim_start().starts_with("--") {
            comment.push(line.to_string());
            continue;
        }
        if let Some(field) = line.trim_start().strip_prefix("pub ").filter(|_| is_inside) {
            let clause = field.split_whitespace().next().map(str::to_string);
            pieces.push(Piece { clause, lines: std::mem::take(&mut comment) });
        }
        if line.trim_start().starts_with("pub record Demand3 ") {
            record = Some(indent);
        }
        if let Some(piece) = pieces.last_mut() {
            piece.lines.append(&mut comment);
            piece.lines.push(line.to_string());
        }
    }
    if let Some(piece) = pieces.last_mut() {
        piece.lines.append(&mut comment);
    }
    pieces
}
