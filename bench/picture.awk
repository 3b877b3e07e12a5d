# Draws docs/bench.svg: the instructions of two calls by live rows, and what they were before, both axes by powers.
BEGIN {
    FS = "\t"
    left = 90; right = 610; top = 60; bottom = 430
    lowest = 2; highest = 6 # powers of ten
    split("Norakkeun|plain|plain, no test|Norakkeun before", said, "|")
    split("#1b4f9c #c8601a #4a8f3c #8a93a6", colours, " ")
}
$1 == "rising" { for (i = 1; i <= 3; i++) cost[i, $3, $2] = $(3 + i) }
$1 == "before" { cost[4, $3, $2] = $4 }

function x(size) { return left + (right - left) * log(size) / log(64) }
function y(count) { return bottom - (bottom - top) * (log(count) / log(10) - lowest) / (highest - lowest) }

function label(at, height, anchor, text) {
    printf "<text x=\"%.1f\" y=\"%.1f\" text-anchor=\"%s\">%s</text>\n", at, height, anchor, text
}

function rule(x1, y1, x2, y2) {
    printf "<line x1=\"%.1f\" y1=\"%.1f\" x2=\"%.1f\" y2=\"%.1f\" stroke=\"#ccc\"/>\n", x1, y1, x2, y2
}

function axes(size, power) {
    for (size = 1; size <= 64; size *= 2) {
        rule(x(size), top, x(size), bottom)
        label(x(size), bottom + 20, "middle", size)
    }
    split("100 1,000 10,000 100,000 1,000,000", marks, " ")
    for (power = lowest; power <= highest; power++) {
        rule(left, y(10 ^ power), right, y(10 ^ power))
        label(left - 8, y(10 ^ power) + 4, "end", marks[power - lowest + 1])
    }
    label((left + right) / 2, bottom + 42, "middle", "live rows")
    label(left, top - 14, "start", "instructions of a call (solid: ask, granted; dashed: complete)")
}

# Each program has its own shape, so that the curves can be told apart without their colours.
function mark(i, at, height) {
    if (i == 1) printf "<circle cx=\"%.1f\" cy=\"%.1f\" r=\"4\"", at, height
    else if (i == 2) printf "<rect x=\"%.1f\" y=\"%.1f\" width=\"7\" height=\"7\"", at - 3.5, height - 3.5
    else if (i == 3) printf "<path d=\"M%.1f %.1fl5 8h-10z\"", at, height - 5
    else printf "<path d=\"M%.1f %.1fl5 5l-5 5l-5 -5z\"", at, height - 5
    printf " fill=\"%s\"/>\n", colours[i]
}

function curve(i, call, dash, size, points) {
    for (size = 1; size <= 64; size *= 2)
        if (cost[i, call, size] > 0) points = points sprintf("%.1f,%.1f ", x(size), y(cost[i, call, size]))
    printf "<polyline points=\"%s\" fill=\"none\" stroke=\"%s\" stroke-width=\"2\"%s/>\n", points, colours[i], dash
    for (size = 1; size <= 64; size *= 2)
        if (cost[i, call, size] > 0) mark(i, x(size), y(cost[i, call, size]))
}

END {
    print "<svg xmlns=\"http://www.w3.org/2000/svg\" viewBox=\"0 0 640 520\" font-family=\"sans-serif\" font-size=\"13\">"
    print "<rect width=\"640\" height=\"520\" fill=\"#fff\"/>"
    axes()
    for (i = 1; i <= 4; i++) {
        curve(i, "ask", "")
        curve(i, "complete", " stroke-dasharray=\"7 4\"")
        mark(i, 50 + (i - 1) * 145 + 7, 499)
        label(50 + (i - 1) * 145 + 20, 504, "start", said[i])
    }
    print "</svg>"
}
