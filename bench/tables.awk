# What docs/bench.md and docs/bench-times.md have in common: names, figures and the lines of a table.
BEGIN {
    FS = "\t"
    call_count = split("beat open ask ask-wait release complete give-up report overdue", calls, " ")
    word["ask"] = "ask, granted"
    word["ask-wait"] = "ask, told to wait"
    word["give-up"] = "give up"
    word["lively"] = "busy, up to 12 jobs"
    word["crowd"] = "busy, up to 64 jobs"
    word["ask-release"] = "ask, release"
    word["open-complete"] = "open, complete"
}
FNR == 1 { file++ }

function name_of(x) { return x in word ? word[x] : x }

# A figure with commas; what is no figure stays as it is.
function big(x, s) {
    if (x == "-") return x
    s = sprintf("%d", x)
    while (s ~ /[0-9][0-9][0-9][0-9]/) sub(/[0-9][0-9][0-9]($|,)/, ",&", s)
    return s
}

# Plain does almost nothing in some calls, and a ratio to that says nothing.
function ratio(a, b) {
    if (a == "-" || b == "-" || b < 10) return "-"
    return a / b < 9.95 ? sprintf("%.1f", a / b) : big(a / b + 0.5)
}

# A line of a table: three figures and what the first is to the others.
function compared(what, size, a, b, c) {
    printf "| %s | %s | %s | %s | %s |", name_of(what), size, big(a), big(b), big(c)
    printf " %s | %s |\n", ratio(a, b), ratio(a, c)
}

function head(what) {
    print "\n| " what " | Live rows | Norakkeun | plain | plain, no test | Norakkeun / plain | Norakkeun / no test |"
    print "|---|---|---|---|---|---|---|"
}
