# Writes docs/bench-times.md from what bench/run timed, the replays. After each figure stands its spread.
{
    lines++
    what[lines] = $1
    size[lines] = $2
    for (i = 0; i < 3; i++) took[lines, i] = certain($(3 + 2 * i), $(4 + 2 * i))
}

# A difference that is not well above what the rounds differ by is no figure.
function certain(time, spread) { return time > 2 * spread ? time : "-" }

function table(i) {
    head("Records")
    for (i = 1; i <= lines; i++) compared(what[i], size[i], took[i, 0], took[i, 1], took[i, 2])
}

function opening() {
    print "# What a replay takes in time against a plain program\n"
    print "`bench/run` wrote this page on an x86-64 machine and measured every figure on it in one run. No figure is a pass mark.\n"
    print "Measured: " identity ".\n"
    printf "%s", "The three programs are those of `docs/bench.md`, which counts their instructions; they took the same input and "
    printf "%s", "gave the same answers. Figures are nanoseconds of processor time. What is measured and what is taken off it took "
    printf "turns, %d rounds of each, and the best round of each counts. A figure is uncertain by what the middle rounds took ", rounds
    printf "%s", "more than the best, and by a step of the clock, a millisecond in a whole round; where it is not above twice that, "
    printf "%s", "`-` stands instead. A ratio to less than ten nanoseconds is not given. Times vary from run to run and from machine "
    print "to machine."
}

END {
    opening()
    print "\n## Each record\n"
    printf "%s", "One record, with reading, printing and clearing, less as many runs on empty input; recordings of the kinds in "
    printf "%s", "`docs/bench.md`, but longer. A single call is not timed: beside printing what it leaves, its time cannot be told "
    print "from noise; `docs/bench.md` has its instructions."
    table()
}
