# The plot of bench/run, from its numbers: what, a, who, number

NR == 1 { next }
/^alternative/ {
    measured[$1, $3] = $4
    if ($1 == "alternative find") alternative[++alternatives] = $3
    next
}
{
    if (!(($1, $2) in seen)) {
        seen[$1, $2] = 1
        row_what[++rows] = $1
        row_a[rows] = $2
    }
    number[$1, $2, $3] = $4
}

# The library's time by a: one line for each call.
function growth(left, right, top, bottom, i, y, x, what, points, end) {
    title(left - 48, top - 24, "The library: time of a call by a")
    for (y = 1; y <= 1e7; y *= 10) {
        segment(left, log_place(y, 1, 1e7, bottom, top), right, log_place(y, 1, 1e7, bottom, top), "#dddddd")
        text(left - 6, log_place(y, 1, 1e7, bottom, top) + 4, "end", duration(y))
    }
    for (i = 1; i <= rows; i++) {
        x = log_place(row_a[i], 64, 2048, left + 10, right - 150)
        if (!(row_a[i] in marked)) {
            marked[row_a[i]] = 1
            text(x, bottom + 18, "middle", grouped(row_a[i]))
        }
        what = row_what[i]
        y = log_place(number[what, row_a[i], "library"], 1, 1e7, bottom, top)
        points[what] = points[what] sprintf("%.1f,%.1f ", x, y)
        dot(x, y, 2.5, "#0072b2", "#0072b2")
        if (row_a[i] == 2048) end[what] = y + 4
    }
    labels(end, x + 8)
    for (what in points) trace(points[what], "#0072b2", "stroke-width=\"1.5\"")
    text((left + right - 140) / 2, bottom + 36, "middle", "seats, a")
}

# a label at each place of y, the lowest first: one that has no room goes up
function labels(y, x, what, lowest, at) {
    at = 1e9
    for (;;) {
        lowest = ""
        for (what in y) if (lowest == "" || y[what] > y[lowest]) lowest = what
        if (lowest == "") return
        at = y[lowest] < at - 13 ? y[lowest] : at - 13
        text(x, at, "start", said(lowest))
        delete y[lowest]
    }
}

function said(what) {
    if (what ~ /^find /) return "find, " substr(what, 6) "% out"
    return what ~ /^hot find / ? "find, " substr(what, 10) "% out, hot keys" : what
}

# How many times what C and Rust take the library takes: a full and an open dot for each row.
function ratios(left, right, top, bottom, i, x, y, step) {
    title(left - 180, top - 24, "The library's time as a part of theirs")
    for (x = 0.5; x <= 3; x += 0.5) {
        segment(place(x, 0, 3, left, right), top, place(x, 0, 3, left, right), bottom, x == 1 ? "#888888" : "#dddddd")
        text(place(x, 0, 3, left, right), bottom + 18, "middle", x)
    }
    step = (bottom - top) / rows
    for (i = 1; i <= rows; i++) {
        y = top + step * (i - 0.5)
        text(left - 8, y + 4, "end", said(row_what[i]) ", a = " grouped(row_a[i]), "font-size=\"11\"")
        dot(place(ratio(i, "C"), 0, 3, left, right), y, 4, "#d55e00", "#d55e00")
        dot(place(ratio(i, "Rust"), 0, 3, left, right), y, 4, "#ffffff", "#009e73")
    }
    dot(left + 20, bottom + 32, 4, "#d55e00", "#d55e00")
    text(left + 30, bottom + 36, "start", "to C")
    dot(left + 90, bottom + 32, 4, "#ffffff", "#009e73")
    text(left + 100, bottom + 36, "start", "to safe Rust")
}

# at most 3, the end of the scale
function ratio(i, who, r) {
    r = number[row_what[i], row_a[i], "library"] / number[row_what[i], row_a[i], who]
    return r > 3 ? 3 : r
}

# find against a change, with the keys that moved needlessly
function others(left, right, top, bottom, i, x, y, name, words, moved) {
    title(left - 48, top - 24, "The alternatives, 1,000 servers")
    for (y = 1; y <= 1e5; y *= 10) {
        segment(left, log_place(y, 1, 1e5, bottom, top), right, log_place(y, 1, 1e5, bottom, top), "#dddddd")
        text(left - 6, log_place(y, 1, 1e5, bottom, top) + 4, "end", duration(y))
    }
    for (x = 10; x <= 1e8; x *= 100) {
        text(log_place(x, 10, 1e8, left, right), bottom + 18, "middle", duration(x))
        segment(log_place(x, 10, 1e8, left, right), top, log_place(x, 10, 1e8, left, right), bottom, "#dddddd")
    }
    for (i = 1; i <= alternatives; i++) {
        name = alternative[i]
        x = log_place(measured["alternative change", name], 10, 1e8, left, right)
        y = log_place(measured["alternative find", name], 1, 1e5, bottom, top)
        dot(x, y, 5, name == "AnchorHash" ? "#0072b2" : "#ffffff", "#0072b2")
        moved = measured["alternative needless", name]
        words = name (moved > 0 ? ", " grouped(moved) " keys moved needlessly" : "")
        if (x > (left + right) / 2) text(x - 10, y + 4, "end", words)
        else text(x, y - 10, "start", words)
    }
    text((left + right) / 2, bottom + 36, "middle", "a change (across), find (up)")
}

END {
    open_svg(1340, 600, "The library's times, their ratios to C and to safe Rust, and the paper's alternatives")
    growth(70, 420, 60, 540)
    ratios(660, 880, 60, 540)
    others(980, 1300, 60, 540)
    close_svg()
}
