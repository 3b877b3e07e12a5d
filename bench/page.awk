# Writes docs/bench.md from what bench/run counted (what is around a call, the calls, those in place, the dearest of them,
# service files, the replays) and from bench/before.tsv, what the calls and the replays took when every call looked at all rows for each row (commit fe5bd26).
file == 1 { alone[$1] = $2; listed[$1] = $3 }
file == 2 { n[$1, $2, $3] = $4; p[$1, $2, $3] = $5; t[$1, $2, $3] = $6 }
file == 3 { in_place[$1, $2] = $3; plain_in_place[$1, $2] = $4 }
file == 4 {
    files++
    file_live[files] = $1
    file_call[files] = $2
    for (i = 3; i <= 5; i++) of_file[files, i] = $i
}
file == 5 {
    replays++
    name[replays] = $1
    live[replays] = $2
    for (i = 3; i <= 5; i++) replay[replays, i] = $i
}

file == 6 && $1 == "before" { was[$2, $3] = $4; was_called[$3] }
file == 6 && $1 == "replayed" { replayed[$3, $2] = $4 }
file == 7 { masked[$1] = $2 }

function row(order, size, call, shown) {
    if ((order, size, call) in n)
        compared(call, shown, n[order, size, call], p[order, size, call], t[order, size, call])
}

# A start has no table before it, so there are no live rows.
function table(order, i, s) {
    head("Call")
    split("64 8 1", size, " ")
    for (s = 1; s <= 3; s++)
        for (i = 1; i <= call_count; i++) row(order, size[s], calls[i], size[s])
    row(order, 1, "start", "none")
}

function growth(i, s, line) {
    print "\n| Call | 1 | 2 | 4 | 8 | 16 | 32 | 64 |"
    print "|---|---|---|---|---|---|---|---|"
    for (i = 1; i <= call_count; i++) {
        line = "| " name_of(calls[i]) " |"
        for (s = 1; s <= 64; s *= 2) line = line cell(calls[i], s)
        print line
    }
}

# What it took before, if there was such a call, and what it takes now.
function earlier(i, s, line) {
    print "\n| Call | 1 | 2 | 4 | 8 | 16 | 32 | 64 |"
    print "|---|---|---|---|---|---|---|---|"
    for (i = 1; i <= call_count; i++) {
        if (!(calls[i] in was_called)) continue
        line = "| " name_of(calls[i]) " |"
        for (s = 1; s <= 64; s *= 2)
            line = line ((s, calls[i]) in was ? " " big(was[s, calls[i]]) " → " big(n["rising", s, calls[i]]) " |" : " |")
        print line
    }
}

function replays_earlier(i) {
    print "\n| Records | Live rows | Before | Now | plain, no test |"
    print "|---|---|---|---|---|"
    for (i = 1; i <= replays; i++)
        printf "| %s | %s | %s | %s | %s |\n", name_of(name[i]), live[i], big(replayed[name_of(name[i]), live[i]]), \
            big(replay[i, 3]), big(replay[i, 5])
}

function cell(call, size) {
    if (!(("rising", size, call) in n)) return " |"
    return sprintf(" %s (%s) |", big(n["rising", size, call]), ratio(n["rising", size, call], p["rising", size, call]))
}

function in_place_table(i, s) {
    print "\n| Call | Live rows | by value | in place | plain in place | in place less plain |"
    print "|---|---|---|---|---|---|"
    split("64 8 1", size, " ")
    for (s = 1; s <= 3; s++)
        for (i = 1; i <= call_count; i++) in_place_row(size[s], calls[i])
}

function in_place_row(size, call) {
    if (!((size, call) in in_place)) return
    printf "| %s | %s | %s | %s |", name_of(call), size, big(n["rising", size, call]), big(in_place[size, call])
    printf " %s | %s |\n", big(plain_in_place[size, call]), less(in_place[size, call], plain_in_place[size, call])
}

function less(a, b) { return a < b ? "-" big(b - a) : big(a - b) }

# For which calls the difference is at most this many, said in words.
function within(most, s) {
    printf "\nIn place Norakkeun takes at most %s instructions more than the plain program:", most
    split("64 8 1", size, " ")
    for (s = 1; s <= 3; s++)
        printf "%s with %s live row%s for %s", s == 1 ? "" : ";", size[s], size[s] == 1 ? "" : "s", calls_within(most, size[s])
    print "."
}

function calls_within(most, size, i, all, few, line) {
    for (i = 1; i <= call_count; i++) {
        if (!((size, calls[i]) in in_place)) continue
        all++
        if (in_place[size, calls[i]] - plain_in_place[size, calls[i]] > most) continue
        line = line (few++ ? "; " : "") name_of(calls[i])
    }
    return few == all ? "every call" : few == 0 ? "no call" : few " of " all " calls (" line ")"
}

function file_table(i) {
    head("Call")
    for (i = 1; i <= files; i++)
        compared(file_call[i], file_live[i], of_file[i, 3], of_file[i, 4], of_file[i, 5])
}

function replay_table(i) {
    head("Records")
    for (i = 1; i <= replays; i++)
        compared(name[i], live[i], replay[i, 3], replay[i, 4], replay[i, 5])
}

# From the lowest ratio to the highest, as the tables below have them; nothing where there is none.
function widen(span, a, b) {
    if (ratio(a, b) == "-") return
    if (!((span, "low") in ends) || a / b < ends[span, "low"]) ends[span, "low"] = a / b
    if (!((span, "high") in ends) || a / b > ends[span, "high"]) ends[span, "high"] = a / b
}

function between(span, low, high) {
    low = ratio(100 * ends[span, "low"], 100)
    high = ratio(100 * ends[span, "high"], 100)
    return low == high ? low : low " to " high
}

# What all the figures come to, in two sentences.
function conclusion(key, part, i) {
    for (key in n) {
        split(key, part, SUBSEP)
        if (part[2] == 64 || part[2] == 8 || part[2] == 1) widen("calls", n[key], p[key])
    }
    for (key in in_place) widen("in place", in_place[key], plain_in_place[key])
    for (i = 1; i <= files; i++) widen("files", of_file[i, 3], of_file[i, 4])
    for (i = 1; i <= replays; i++) {
        widen("replays", replay[i, 3], replay[i, 4])
        widen("no test", replay[i, 3], replay[i, 5])
    }
    printf "As measured here, a call takes %s times the instructions of a plain Rust program with the same soundness test (in place %s times), ", \
        between("calls"), between("in place")
    print "and saving or loading a service file " between("files") " times."
    printf "A replay, which tests the table once for a block of records, takes %s times those of the plain program that tests it ", \
        between("replays")
    print "at each record, and " between("no test") " times those of one that never tests it.\n"
}

function opening() {
    print "# What the calls cost against a plain program\n"
    conclusion()
    print "`bench/run` wrote this page and measured every figure on it in one run. No figure is a pass mark.\n"
    print "Measured: " identity ".\n"
    printf "%s", "Three programs took the same input and gave the same answers: Norakkeun; `bench/plain`, which is document 01, "
    printf "%s", "service files, give up and the refusal of leaps (document 02, requests 1, 2 and 4) in plain Rust written for speed, "
    printf "%s", "with the soundness test in every call; and the same without that test. The plain program goes through the live rows "
    printf "%s", "once in order of turn and changes the table in place. With the test it was compared with the model by `.ci/compare` "
    print "first, with service files too.\n"
    printf "%s", "Instructions are those of x86-64 under user-mode emulation (QEMU), counted by `bench/count.c`, with copying and "
    printf "%s", "clearing by the C library's vector loops. Every machine counts the same with the same library and compilers. They "
    print "compare programs; they are no times on a drive. Times on x86-64 are in `docs/bench-times.md`."
}

function around() {
    print "\n## Each call\n"
    printf "%s", "Instructions of one accepted call, T = 8, turns in order of job. Norakkeun's calls are made through the archive "
    printf "%s", "that firmware links and counted from where the call is entered to where it returns, with every copy that it makes; "
    printf "%s", "the copies of the table that the caller makes to hand it in, and of the answer, are the caller's. The plain program "
    printf "%s", "changes the table in place; what is around its calls (reading the case, taking it apart, filling the lent list) is "
    printf "%s", "taken off as the writing of a record that is refused has it. At 64 live rows the opening has 63. It is the first in "
    printf "%s", "line that completes, and that gives up what the second, if there is one, waits for; either wakes the second, and the "
    print "completion also the first without a token. A ratio to fewer than ten instructions is not given."
}

function buffers() {
    printf "\nWere buffers cleared first? By Norakkeun's calls 576 bytes, for the line and a column of turns; by `replay` a block of "
    printf "%s bytes for each %s records and a room of 65,536 once. In the plain program once, at its start; a call that puts the ", \
        big(14 * records), big(records)
    printf "%s", "jobs in line clears 512 bytes for that. What clearing is in a call is in its figures; what is around a call of the "
    printf "plain program, and left out, takes %s instructions, with a list of 64 %s. ", big(alone["plain"]), big(listed["plain"])
    print "In the figures of the replay below it is included, but for what is cleared at the start."
}

function in_place_part() {
    print "\n## Each call, in place and by value\n"
    printf "%s", "Instructions of one accepted call on the tables above, turns in order of job. In place the caller hands in a pointer "
    printf "%s", "to its table; an event changes it there, and a question reads it. Norakkeun and the plain program, with its soundness "
    printf "%s", "test, are called the same way: from C, by `bench/in_place.c`, each through the archive that it makes. Both are "
    printf "%s", "counted from where the call is entered to where it returns, nothing is taken off, and both said and left the same. "
    print "By value is Norakkeun's figure from above; what its caller copies to hand the table in and take it back is not in it."
    in_place_table()
    within(300)
}

function masked_part(i) {
    print "\n## The dearest call in place\n"
    printf "%s", "What a caller masks, or locks, around a call is at most the dearest call of the event: all 64 rows live, 64 tokens, "
    printf "%s", "turns that fall with the job, so that each job is put in line before all others, and a completion or a give up "
    print "that lets 63 jobs go on at once (`bench/masked.c`). A refused event looks at as much as an accepted one."
    print "\n| Event | Instructions |"
    print "|---|---|"
    split("beat open refused release complete give-up record", event, " ")
    for (i = 1; i <= 7; i++)
        printf "| %s | %s |\n", event[i] == "refused" ? "ask, refused" : event[i] == "record" ? "the writing of a record" : name_of(event[i]), big(masked[event[i]])
}

function files_part() {
    print "\n## Service files\n"
    printf "%s", "Instructions of one accepted save and of one accepted load (document 02, request 1) of the same tables, turns in "
    printf "%s", "order of job. A file has 23 bytes and 41 for each live row: 2,647, 351 and 64 bytes here. The room that a save is "
    printf "%s", "lent has 2,647 bytes each time. In all three programs the call is counted from where it is entered to where it "
    print "returns, and nothing is taken off."
    file_table()
    printf "%s", "\nNorakkeun takes a field byte by byte, by functions that know fields of any width; the plain program is written for "
    printf "%s", "these widths and takes a row as five words of 64 bits and a byte. Rows stand in a file in order of turn: a save puts "
    printf "%s", "the live rows in line first; a load finds them in line, so the plain program tests each row as it reads it, while "
    printf "%s", "Norakkeun tests the table when it is whole. Without the test the plain program also takes rows out of order, and two "
    printf "%s", "of one job. Norakkeun hands the loaded table back by value, and its copies are counted; the plain program loads in "
    printf "%s", "place. Cleared in a call: by Norakkeun 576 bytes in a save, and 2,560 more, for the rows, in a load; by the plain "
    print "program 512 in a save, for the line, and 2,560 in a load."
}

function replays_part() {
    print "\n## The replay\n"
    printf "%s", "Instructions for each record, with reading, printing and clearing, without what starting the program takes. "
    printf "%s", "The busy recordings are the model's kinds `lively` and `crowd`, refusals and all; the others make the same calls "
    print "over and over beside so many live rows, T = 64."
    replay_table()
}

END {
    opening()
    around()
    table("rising")
    buffers()
    print "\nThe same where the turns are in no order of job, so that the plain program has to sort:"
    table("mixed")
    in_place_part()
    masked_part()
    print "\n## How it grows with the live rows\n"
    print "Norakkeun's instructions, and how many times the plain program's they are, turns in order of job."
    growth()
    print "\nBefore, when every call looked at all rows for each row and there was no give up (commit fe5bd26), and now:"
    earlier()
    print "\n![Instructions of an ask and of a completion by live rows, before and now](bench.svg)"
    files_part()
    replays_part()
    print "\nBefore, when the table was tested at each record and no busy recording had a give up, and now, tested once for a block:"
    replays_earlier()
}
