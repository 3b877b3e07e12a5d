# Reads the output of .ci/run and prints what it says as facts: a kind and its values, with tabs between.
# What a crate's check prints stands before the line of rt that ends it, so it is kept until that line comes.
BEGIN { FS = "\n"; OFS = "\t" }

# The value of WORD=.. on a line of words, or nothing.
function word(name,    a, n, i) {
    n = split($0, a, " ")
    for (i = 1; i <= n; i++) if (index(a[i], name "=") == 1) return substr(a[i], length(name) + 2)
    return ""
}

function after(text) { return substr($0, index($0, text) + length(text)) }

function crate_ends(name, result,    i) {
    print "checked", name, result, functions, proved, rests, axioms
    for (i = 1; i <= kept; i++) print keep[i, 1], name, keep[i, 2]
    check_begins()
}

function check_begins() {
    functions = proved = rests = axioms = ""
    kept = 0
}

function hold(kind, text) { kept++; keep[kept, 1] = kind; keep[kept, 2] = text }

function edit_ends(    a, label, said, result) {
    split(after("must-fail "), a, ": ")
    label = a[1]
    said = after(label ": ")
    sub(/\.edit$/, "", label)
    result = said ~ /^refused, as it must be/ ? "refused" : said ~ /^BAD EDIT/ ? "BAD EDIT" : said ~ /^NOT TRIED/ ? "NOT TRIED" : "NOT REFUSED"
    print "tried", label, result, said
}

# compare: KIND: alike (A recordings, B records, C rows, D cases so far; S s): the numbers add up over the kinds.
function kind_ends(    a, n, i) {
    split($0, a, ": ")
    split(after("alike ("), n, /[ ,;]+/)
    print "compared", a[2], n[1] - was[1], n[3] - was[3], n[5] - was[5], n[7] - was[7]
    for (i = 1; i <= 7; i += 2) was[i] = n[i]
}

{ gsub(/\t/, " "); sub(/\r$/, "") }
NF { last = $0 }

/^evidence: (toolchain|commit|state|sources|status|ended) / { split($0, a, " "); print "ran", a[2], after(a[2] " ") }

/^== / { check_begins() }
# What rattle itself writes round main is no function of the sources, and it counts none.
/^fn .*: proved$/ && !/\+run: proved$/ { proved++; name = after("fn "); sub(/: proved$/, "", name); hold("function", name) }
/^fn / && !/: proved$/ { hold("unproved", $0) }
/^axioms [^ ]+: / && !/: none reached of / { hold("axioms", after("axioms ")) }
/^axioms [^ ]+: none reached of / { axioms += 0 }
/^linked / { hold("linked", word("files")) }
/^logic=proved / {
    functions = word("functions")
    if (word("axioms") != "") axioms = word("axioms")
    if (word("foreign") != "") hold("axioms", "its own: " word("foreign"))
    rests = $0
    sub(/^.* sum=/, "sum=", rests)
}

/^rt: [a-z0-9_]+ proved$/ { split($0, a, " "); crate_ends(a[2], "proved") }
/^rt: [a-z0-9_]+ is kept: / { split($0, a, " "); crate_ends(a[2], "NOT PROVED ANEW") }
/^rt: [a-z0-9_]+ NOT PROVED/ { split($0, a, " "); crate_ends(a[2], "NOT PROVED"); print "wrong", $0 }
/^rt: [a-z0-9_]+: [0-9]+ of its [0-9]+ must-fail edits were tried by an earlier run/ { split($0, a, /[ :]+/); print "earlier", a[2], a[3] }
/^rt: [a-z0-9_]+ ran, and wrote what/ { split($0, a, " "); print "program", a[2], after(a[2] " ") }
/^rt: [a-z0-9_]+: its tests (are NOT PROVED|FAILED)$/ { print "wrong", $0 }
/^rt: must-fail / { edit_ends() }
/^rt: (FAILED|[^ ]+: BAD EDIT: )/ { print "wrong", $0 }
/^(gate|evidence test|sheet test|commands test|cost test|edits test|refusals test|rules test|page test|bundle test|firmware|compare|compare-table|compare-desk|compare-breaks): (FAILED|DIFFERENCE): / { print "wrong", $0 }
/^[0-9]+ passed, [0-9]+ failed$/ { print "verdict", $0 }

/^evidence test: / { print "trial", after("evidence test: ") }
/^firmware: / { print "firmware", after("firmware: ") }

/^test result: / {
    # Tests of crates have such a line too, which counts no measured ones.
    if (/; [0-9]+ measured;/) print "model", after("test result: ")
    if ($0 !~ /^test result: ok\./) print "wrong", "the model's own tests: " $0
}
/^compare: .* with .*, seed [0-9]+$/ { print "seed", after(", seed ") }
/^compare: [a-z]+: alike \(/ { kind_ends() }
/^compare: alike: / { print "alike", after("compare: ") }
/^compare-table: alike: / { print "table", after("compare-table: ") }
/^compare-desk: alike: / { print "desk", after("compare-desk: ") }
/^compare-breaks: [^ ]+: found: / { split($0, a, ": "); print "found", a[2], after(": found: ") }
/^compare-breaks: [0-9]+ broken rules, each found$/ { print "breaks", after("compare-breaks: ") }

END { print "last", last }
