# Joins the facts of the tree (first file) with those of the gate's output (second file) and prints the sheet's lines for
# text.awk and html.awk: a kind, then its cells, with tabs between. Whatever speaks against a pass is a 'why' at the top,
# so a part of the gate that is not in the output counts against it as a failed one does.
BEGIN { FS = OFS = "\t" }

function why(text) { if (!(text in said)) { said[text] = 1; reason[++reasons] = text } }
function twice(what) { if (!twice_said++) said_twice = what }
function note(text) { notes[++noted] = text }
function orelse(value, other) { return value == "" ? other : value }
# Asks for the key first: an absent element as a call's argument brought gawk 5.2.1 down.
function at(array, key, other) { return key in array ? orelse(array[key], other) : other }

# ---- the tree
FNR == NR && $1 == "crate" { crates[++crate_count] = $2; deps[$2] = $3; known[$2] = 1; next }
FNR == NR && $1 == "lines" { lines[$2, $3] += $4; lines["all", $3] += $4; next }
FNR == NR && $1 == "edit" { edits[++edit_count] = $2; tries[$2] = $3; split($2, a, "/"); edits_of[a[1]]++; next }
FNR == NR && $1 == "break" { breaks[++break_count] = $2; rule[$2] = $3; next }
FNR == NR && $1 == "declares" { declares[++declared] = $2 ": " $3; next }
FNR == NR && $1 == "code" { demand[++demand_lines] = substr($0, 6); next }
FNR == NR && $1 == "theorem" { theorem[++theorem_lines] = substr($0, 9); next }
FNR == NR { tree[$1] = $2; next }

# ---- the gate's output
# A gate says each of these once; twice means that the outputs of two runs are mixed, and the later would hide the other.
$1 == "checked" && $2 in result { twice("crate " $2) }
$1 == "tried" && $2 in outcome { twice("must-fail edit " $2) }
$1 == "found" && $2 in found { twice("broken rule " $2) }
$1 == "ran" && $2 in ran { twice("the gate's " $2) }
$1 == "alike" && $1 in gate { twice("the comparison with the model") }
$1 == "verdict" && $1 in gate { twice("'N passed, 0 failed'") }
$1 == "checked" { result[$2] = $3; functions[$2] = $4; listed[$2] = $5 + 0; rests[$2] = $6; counted[$2] = $7 + 0; counts[$2] = $7 != "" }
$1 == "function" { names[$2] = names[$2] (names[$2] == "" ? "" : ", ") $3 }
$1 == "unproved" { why($3); failed = 1 }
$1 == "axioms" { axioms[++axiom_count] = $3; axiom_in[axiom_count] = $2; has_axioms[$2]++ }
$1 == "linked" { linked[$2] = $3 }
$1 == "program" { wrote[$2] = $3 }
$1 == "tried" { outcome[$2] = $3; edit_said[$2] = $4; tried[++tried_count] = $2 }
$1 == "earlier" { earlier[$2] = $3 }
$1 == "wrong" { why($2); failed = 1 }
$1 == "compared" { compared[++compared_count] = $2 OFS $3 OFS $4 OFS $5 OFS $6 }
$1 == "found" { found[$2] = $3 }
$1 == "ran" { ran[$2] = $3 }
$1 == "firmware" { firmware[++firmware_lines] = $2 }
$1 ~ /^(seed|alike|table|desk|breaks|trial|verdict|last)$/ { gate[$1] = $2 }
$1 == "verdict" && $2 !~ /, 0 failed$/ { why("the output says: " $2); failed = 1 }
$1 == "model" { gate["model"] = (gate["model"] == "" ? "" : gate["model"] " | ") $2 }

# ---- what speaks against a pass
function look_at_crates(    i, c) {
    for (i = 1; i <= crate_count; i++) {
        c = crates[i]
        if (!(c in result)) { why("crate " c ": the output says nothing of it"); continue }
        if (result[c] != "proved") why("crate " c ": " result[c])
        else good++
        if (result[c] == "proved" && functions[c] != listed[c])
            why("crate " c ": " functions[c] " functions counted, " listed[c] " named as proved")
        if (tree["program " c] && !(c in wrote)) why("program " c ": the output does not say that it ran and wrote what it must")
    }
    for (c in result) if (!(c in known)) why("crate " c ": in the output, and not in crates.txt")
}

function look_at_edits(    i, e, unsaid) {
    for (i = 1; i <= edit_count; i++) {
        e = edits[i]
        if (!(e in outcome)) unsaid++
        else if (outcome[e] != "refused") why("must-fail edit " e ": " edit_said[e] " - it tried: " tries[e])
        else good++
    }
    if (unsaid) why("must-fail edits: the output says nothing of " unsaid " of " edit_count " (MISSING in their table)")
    for (i = 1; i <= crate_count; i++)
        if (crates[i] in earlier) why("crate " crates[i] ": " earlier[crates[i]] " of its must-fail edits NOT TRIED ANEW")
    for (i = 1; i <= tried_count; i++)
        if (!(tried[i] in tries)) why("must-fail edit " tried[i] ": in the output, and not in the tree (" edit_said[tried[i]] ")")
}

# An axiom is expected of the kit's libraries that a program reaches, and of nothing else.
function look_at_axioms(    i, c) {
    for (i = 1; i <= axiom_count; i++)
        if (origin(i) !~ /^kit/) why("axiom in crate " axiom_in[i] ": " axioms[i] " - " origin(i))
        else if (!tree["program " axiom_in[i]]) why("axiom in crate " axiom_in[i] ", which is no program: " axioms[i])
    for (i = 1; i <= declared; i++) why("the sources declare what nothing proves: " declares[i])
    for (c in counted) if (counted[c] && !has_axioms[c]) why("crate " c ": " counted[c] " axioms counted, and none named")
}

function look_at_comparisons(    i, unsaid) {
    if (gate["trial"] == "") why("the test of this sheet (tests/evidence): the output does not say that it came to its end")
    if (gate["model"] == "") why("the model's own tests: the output says nothing of them")
    else if (gate["model"] !~ /[1-9][0-9]* passed/) why("the model's own tests: none passed")
    if (!("alike" in gate)) why("the comparison with the model: the output does not say that it came to its end")
    if (!("table" in gate)) why("the comparison of the program table with the model (.ci/compare-table): the output does not say that it came to its end")
    if (!("desk" in gate)) why("the comparison of the desk program with the model (.ci/compare-desk): the output does not say that it came to its end")
    if (!("breaks" in gate)) why("the comparison's own trial (.ci/compare-breaks): the output does not say that it came to its end")
    for (i = 1; i <= break_count; i++) if (!(breaks[i] in found)) unsaid++
    if (unsaid) why("broken rules of the model: the output does not say that " unsaid " of " break_count " were found (MISSING in their table)")
    if (tree["has firmware"] && !firmware_lines) why("the firmware examples (.ci/firmware): the output says nothing of them")
    for (i = 1; i <= firmware_lines; i++) if (firmware[i] ~ /not run/) note("The firmware examples: " firmware[i])
}

function look_at_demand() {
    if (!theorem_lines) why("demand 3: no file of crates/promises/proofs has the theorem demand3")
}

function look_at_end(    a) {
    if (twice_said)
        why("the output speaks twice of " said_twice (twice_said > 1 ? " and of " twice_said - 1 " more" : "") ", so it is not of one run")
    if (gate["last"] !~ /^[0-9]+ passed, 0 failed$/) {
        failed = 1
        why("the output does not end with 'N passed, 0 failed', but with: " gate["last"])
    } else if (split(gate["last"], a, " ") && a[1] != good) why("the output ends with '" gate["last"] "', and this sheet counts " good + 0)
    if (ran["status"] != "" && ran["status"] != 0) { failed = 1; why("the gate ended with status " ran["status"]) }
}

# The output of .ci/run names the logic's sum, and no commit; what bin/evidence ran itself has its commit before it.
function look_at_identity(    i, sum) {
    for (i = 1; i <= crate_count; i++) {
        sum = rests[crates[i]]
        sub(/^sum=/, "", sum)
        sub(/ .*/, "", sum)
        if (sum != "" && index(tree["toolchain"], sum) == 0)
            why("crate " crates[i] " was proved with the logic " sum ", and this toolchain is " tree["toolchain"])
    }
    if (tree["state"] != "clean") why("the tree is not its commit: " tree["state"])
    if (!("sources" in ran)) { why("the output does not name its sources, so that it is of this tree is not shown"); return }
    if (ran["toolchain"] != tree["toolchain"]) why("the gate ran with the toolchain " ran["toolchain"] ", and this one is " tree["toolchain"])
    if (ran["sources"] != tree["sources"]) why("the gate ran on other sources, at commit " ran["commit"])
    else if (ran["commit"] != tree["commit"]) note("The gate ran at commit " ran["commit"] ", whose files that it reads are the same.")
    same = ran["sources"] == tree["sources"]
}

# ---- on what a crate rests
# The kit's libraries that a crate reaches: std, with libc and os below it, and what crates.txt lists and is no crate of the
# repository.
function kit_of(c,    a, n, i, out) {
    n = split(deps[c], a, " ")
    for (i = 1; i <= n; i++) out = out " " (known[a[i]] ? kit_of(a[i]) : a[i])
    return once(out)
}

function once(words,    a, n, i, had, out) {
    n = split(words, a, " ")
    for (i = 1; i <= n; i++) if (!(a[i] in had)) { had[a[i]] = 1; out = out (out == "" ? "" : " ") a[i] }
    return out
}

function origin(i,    from) {
    from = axioms[i]
    sub(/:.*/, "", from)
    if (known[from] || from == "its own") return "NOT OF THE KIT: declared in this repository"
    if (index(" std libc os " kit_of(axiom_in[i]) " ", " " from " ")) return "kit library " from
    return "NOT KNOWN: crates.txt names no library " from " for it"
}

# A library's check names no axioms of the kit's libraries below it: the programs above it do, and the archive.
function axioms_of(c) {
    if (result[c] != "proved") return "-"
    if (has_axioms[c]) return counted[c] ? counted[c] : "NOT COUNTED"
    return tree["program " c] || counts[c] ? "0" : "see programs"
}

function refused_of(c,    i, n) {
    for (i = 1; i <= edit_count; i++) if (index(edits[i], c "/") == 1 && outcome[edits[i]] == "refused") n++
    return !edits_of[c] ? "none" : (n < edits_of[c] ? "NOT ALL: " : "") n + 0 " of " edits_of[c]
}

# ---- the sheet
function show_top(    i) {
    if (failed) verdict = "THE GATE FAILED"
    else if (reasons) verdict = "NOT IN ORDER, although the output ends as passed"
    else verdict = "The gate passed: " gate["last"]
    print "foot", "Norakkeun, commit " at(ran, "commit", "not said") ": " verdict
    print "title", "Norakkeun: what the gate showed"
    print reasons ? "fail" : "pass", verdict
    for (i = 1; i <= reasons; i++) print "why", reason[i]
    for (i = 1; i <= noted; i++) print "note", notes[i]
}

function show_identity() {
    print "head", "Of what"
    print "cols", "What", "Is"
    print "row", "toolchain", then_and_now("toolchain")
    print "row", "commit", then_and_now("commit")
    print "row", "tree", then_and_now("state")
    print "row", "sources", then_and_now("sources")
    print "row", "output", tree["output"]
    if ("ended" in ran) print "row", "gate ended", ran["ended"]
    if (!reasons) print "sign", "Name", "Date", "Signature"
}

function then_and_now(what) {
    if (!(what in ran)) return "NOT SAID by the output; of this tree: " tree[what]
    return ran[what] == tree[what] ? tree[what] : ran[what] " when the gate ran, " tree[what] " now"
}

function show_crates(    i, c, f) {
    print "head", "What was proved, and how large it is"
    print "para", "Lines are those that are neither empty nor comment: code in src, definitions and laws with their proofs in specs, proofs of functions, and laws that rest on their definitions, in proofs."
    print "cols", "crate", "result", ">functions", ">src", ">specs", ">proofs", ">axioms", ">edits refused", "kit libraries beside std"
    for (i = 1; i <= crate_count; i++) {
        c = crates[i]
        print "row", c, at(result, c, "MISSING"), at(functions, c, "-"), lines[c, "src"] + 0, lines[c, "specs"] + 0, \
            lines[c, "proofs"] + 0, axioms_of(c), refused_of(c), orelse(kit_of(c), "none")
        f += functions[c]
    }
    print "row", "all", "", f + 0, lines["all", "src"] + 0, lines["all", "specs"] + 0, lines["all", "proofs"] + 0, "", \
        refused_count() " of " edit_count + 0, ""
}

function refused_count(    i, n) {
    for (i = 1; i <= edit_count; i++) if (outcome[edits[i]] == "refused") n++
    return n + 0
}

function show_rests(    i) {
    print "head", "On what it rests"
    print "para", "Axioms, as the checks name them: functions whose contracts are assumed."
    print "cols", "crate", "where from", "axioms"
    for (i = 1; i <= axiom_count; i++) print "row", axiom_in[i], origin(i), axioms[i]
    for (i = 1; i <= declared; i++) print "row", "sources", "NOT OF THE KIT: declared in this repository", declares[i]
    if (!axiom_count && !declared) print "row", "all", "-", "the output names none"
    show_trust()
}

function show_trust(    i) {
    print "para", "What the verdicts say they took on trust (the toolchain's own design guide says under Verdict what the words mean), and C code that programs link:"
    print "cols", "words", "crates"
    for (i = 1; i <= crate_count; i++) share(at(rests, crates[i], "NOT SAID"), crates[i])
    for (i = 1; i <= crate_count; i++) if (c_code(crates[i]) != "") share(c_code(crates[i]), crates[i])
    for (i = 1; i <= shares; i++) print "row", shared[i], substr(sharing[shared[i]], 2)
}

# Crates that have the same to say share a row.
function share(words, c) {
    if (!(words in sharing)) shared[++shares] = words
    sharing[words] = sharing[words] " " c
}

# What is linked besides the program's own object.
function c_code(c,    files) {
    files = linked[c]
    sub(/^out\/[^,]*,?/, "", files)
    return files
}

function show_edits(    i, e) {
    print "head", "Wrong versions that must be refused"
    print "para", refused_count() " of " edit_count + 0 " were refused."
    print "cols", "edit", "result", "what it tried"
    for (i = 1; i <= edit_count; i++) {
        e = edits[i]
        print "row", e, at(outcome, e, "MISSING"), tries[e]
    }
    for (i = 1; i <= tried_count; i++)
        if (!(tried[i] in tries)) print "row", tried[i], outcome[tried[i]], "NOT IN THE TREE"
}

function show_comparisons(    i) {
    print "head", "What was run and compared"
    print "cols", "What", "The output says"
    for (i = 1; i <= crate_count; i++)
        if (tree["program " crates[i]]) print "row", "program " crates[i], at(wrote, crates[i], "MISSING")
    print "row", "model's own tests", at(gate, "model", "MISSING")
    print "row", "programs and model", at(gate, "alike", "MISSING")
    print "row", "table and model", at(gate, "table", "MISSING")
    print "row", "desk and model", at(gate, "desk", "MISSING")
    print "row", "seed", at(gate, "seed", "MISSING")
    print "row", "broken rules", at(gate, "breaks", "MISSING")
    for (i = 1; i <= firmware_lines; i++) print "row", "firmware examples", firmware[i]
    if (tree["has firmware"] && !firmware_lines) print "row", "firmware examples", "MISSING"
    print "row", "test of this sheet", at(gate, "trial", "MISSING")
    if (gate["seed"] != "") print "para", "To repeat the comparison: .ci/compare " gate["seed"]
    show_kinds()
    show_breaks()
}

# Stored input is compared before the first kind, and the output counts both together.
function show_kinds(    i) {
    if (!compared_count) return
    print "cols", "input", ">recordings", ">records", ">rows", ">cases"
    for (i = 1; i <= compared_count; i++) print "row", (i == 1 ? "stored, and " : "") compared[i]
}

function show_breaks(    i) {
    print "para", "Rules of the model that were broken on purpose, for the comparison to find:"
    print "cols", "rule", "found", "what was broken"
    for (i = 1; i <= break_count; i++) print "row", breaks[i], at(found, breaks[i], "MISSING"), rule[breaks[i]]
}

# The text below is the tree's; it is what was proved only if the gate ran on these very sources.
function demand_stands() {
    if (result["promises"] != "proved") return "NOT PROVED: the output does not say that the crate promises is proved."
    if (same) return "Proved in this run, with the crate promises."
    return "The output says that the crate promises is proved; that it is of the text below is not shown."
}

function show_demand(    i) {
    print "head", "Demand 3, as the source states it"
    print "para", demand_stands() " The theorem is:"
    for (i = 1; i <= theorem_lines; i++) print "code", theorem[i]
    print "para", "The statement, " tree["statement"] ":"
    for (i = 1; i <= demand_lines; i++) print "code", demand[i]
}

function show_functions(    i) {
    print "head", "Functions proved, by name"
    print "cols", "crate", "functions"
    for (i = 1; i <= crate_count; i++) print "row", crates[i], at(names, crates[i], crates[i] in result ? "none" : "MISSING")
}

END {
    judge()
    show_top()
    show_identity()
    show_crates()
    show_rests()
    show_edits()
    show_comparisons()
    show_demand()
    show_functions()
    print "end" # bin/evidence takes a sheet without this line as cut off
    exit (reasons > 0)
}

# The end is judged by what was counted, so it comes last; the reasons then stand in the order of the gate's parts.
function judge() {
    look_at_crates()
    look_at_edits()
    look_at_axioms()
    look_at_comparisons()
    look_at_demand()
    look_at_identity()
    look_at_end()
}
