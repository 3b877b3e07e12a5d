# Prints the sheet as text. A table waits until its last row, for only then are its widths known.
BEGIN { FS = "\t" }

function line(mark, n,    s) { s = ""; while (n-- > 0) s = s mark; return s }

function cell(text, c) { return right[c] ? sprintf("%" width[c] "s", text) : sprintf("%-" width[c] "s", text) }

function table_ends(    r, c, s) {
    for (r = 1; r <= rows; r++) {
        s = ""
        for (c = 1; c < columns; c++) s = s cell(at[r, c], c) "  "
        s = "  " s (right[columns] ? cell(at[r, columns], columns) : at[r, columns])
        sub(/ +$/, "", s)
        print s
    }
    if (rows) print ""
    rows = 0
}

function add(    c) {
    rows++
    for (c = 1; c <= columns; c++) {
        at[rows, c] = $(c + 1)
        if (length($(c + 1)) > width[c]) width[c] = length($(c + 1))
    }
}

function table_begins(    c) {
    columns = NF - 1
    for (c = 1; c <= columns; c++) {
        right[c] = sub(/^>/, "", $(c + 1))
        width[c] = 0
    }
    add()
}

$1 != "row" { table_ends() }
$1 != "code" && before == "code" { print "" }
{ before = $1 }
$1 == "title" { print $2; print line("=", length($2)); print "" }
$1 == "pass" { print "    " $2; print "" }
$1 == "fail" { print line("!", 78); print "!!  " $2; print line("!", 78); print "" }
$1 == "why" { print "  !! " $2 }
$1 == "note" { print "  -- " $2 }
$1 == "head" { print ""; print $2; print line("-", length($2)); print "" }
$1 == "para" { print $2; print "" }
$1 == "sign" { for (c = 2; c <= NF; c++) { print "  " $c ": " line("_", 50); print "" } }
$1 == "cols" { table_begins() }
$1 == "row" { add() }
$1 == "code" { print "    " substr($0, 6) }
END { table_ends() }
