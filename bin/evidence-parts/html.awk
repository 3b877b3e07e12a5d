# Prints the sheet as one page. It loads nothing, and its policy lets a browser load nothing.
BEGIN {
    FS = "\t"
    print "<!DOCTYPE html>"
    print "<html lang=\"en\"><head><meta charset=\"utf-8\">"
    print "<meta http-equiv=\"Content-Security-Policy\" content=\"default-src 'none'; style-src 'unsafe-inline'\">"
    print "<meta name=\"viewport\" content=\"width=device-width, initial-scale=1\">"
    print "<style>"
    on_screen()
    print "@media print {"
    on_paper()
    print "}"
}

# A table that is wider than the window scrolls by itself, so that nothing pushes the page aside.
function on_screen() {
    print "body { font: 15px/1.45 sans-serif; margin: 2em auto; max-width: 75em; padding: 0 1em; color: #111; background: #fff }"
    print "h1 { font-size: 1.8em; margin: 0 0 .6em } h2 { font-size: 1.3em; margin: 2em 0 .5em }"
    print ".pass, .fail { padding: .6em 1em; font-size: 1.3em; font-weight: bold; color: #fff }"
    print ".pass { background: #17692f } .fail { background: #b00020 }"
    print ".why, .note { margin: .4em 0; padding: .1em 1em; border-left: 5px solid #b00020; overflow-wrap: anywhere }"
    print ".why { color: #b00020; font-weight: bold } .note { border-color: #b86e00 }"
    print ".wide { overflow-x: auto; margin: .6em 0 } table { border-collapse: collapse }"
    print "th, td { padding: .15em .7em; text-align: left; vertical-align: top; overflow-wrap: anywhere }"
    print "th, .n, .short { white-space: nowrap } .n { text-align: right } td:last-child:not(.n, .short) { min-width: 16em }"
    print "th { border-bottom: 2px solid #555 } tbody tr:nth-child(odd) td { background: #f2f2f2 }"
    print "td.bad { color: #b00020; font-weight: bold }"
    print "pre { background: #f2f2f2; padding: 1em; overflow-x: auto; font-size: 13px }"
    print ".sign { display: flex; flex-wrap: wrap; gap: 1em; margin: 2em 0 }"
    print ".sign span { flex: 1 1 11em; border-top: 1px solid #111; margin-top: 2.5em }"
}

# A browser leaves backgrounds out when it prints, so the verdict is black on white in a frame there.
function on_paper() {
    print "body { margin: 0; padding: 0; max-width: none; font-size: 9pt; line-height: 1.3 }"
    print ".pass, .fail { color: #000; background: none; border: 3px solid #000 } .fail { border: 9px double #000 }"
    print ".why, td.bad { color: #000; text-decoration: underline } .why, .note { border-color: #000 }"
    print "h2 { break-after: avoid } tr, .sign { break-inside: avoid } tbody td { border-bottom: 1px solid #ccc }"
    print ".wide { overflow: visible } th, td { padding: .1em .5em }"
    print "pre { white-space: pre-wrap; overflow-wrap: anywhere; padding: 0; font-size: 6.7pt }"
}

# Every printed page says of which commit it is and how the gate ended: a page may part from the first.
function foot(text) {
    gsub(/[^A-Za-z0-9 ,:+-]/, "", text)
    print "@page { margin: 14mm 12mm 18mm; @bottom-left { content: \"" text "\"; font: 8pt sans-serif }"
    print "@bottom-right { content: counter(page) \" of \" counter(pages); font: 8pt sans-serif } }"
}

function plain(s) { gsub(/&/, "\\&amp;", s); gsub(/</, "\\&lt;", s); gsub(/>/, "\\&gt;", s); return s }

# Leaves the table or the listing that the last line stood in, unless this one stands in it too.
function go(to) {
    if (place == to) return
    if (place == "table") print "</tbody></table></div>"
    if (place == "pre") print "</pre>"
    if (to == "pre") printf "<pre>"
    place = to
}

function class_of(c,    classes) {
    if ($c ~ /^(NOT |BAD |MISSING)/) classes = " bad"
    if (right[c]) classes = classes " n"
    else if (length($c) <= 20 || (c == 2 && $c !~ / /)) classes = classes " short"
    return classes == "" ? "" : " class=\"" substr(classes, 2) "\""
}

function cells(tag,    c) {
    printf "<tr>"
    for (c = 2; c <= NF; c++) print "<" tag class_of(c) ">" plain($c) "</" tag ">"
    print "</tr>"
}

function block(tag, class) { go(""); print "<" tag (class == "" ? "" : " class=\"" class "\"") ">" plain($2) "</" tag ">" }

$1 == "foot" { foot($2) }
$1 == "title" { print "</style>"; print "<title>" plain($2) "</title></head><body>"; block("h1") }
$1 == "pass" || $1 == "fail" { block("p", $1) }
$1 == "why" || $1 == "note" { block("p", $1) }
$1 == "head" { block("h2") }
$1 == "para" { block("p") }
$1 == "sign" {
    go("")
    print "<div class=\"sign\">"
    for (c = 2; c <= NF; c++) print "<span>" plain($c) "</span>"
    print "</div>"
}
$1 == "cols" {
    go("")
    go("table")
    print "<div class=\"wide\"><table><thead>"
    for (c = 2; c <= NF; c++) right[c] = sub(/^>/, "", $c)
    cells("th")
    print "</thead><tbody>"
}
$1 == "row" { cells("td") }
$1 == "code" { go("pre"); print plain(substr($0, 6)) }
END { go(""); print "</body></html>" }
