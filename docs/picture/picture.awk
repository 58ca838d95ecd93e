# The picture of README.md, from the numbers of docs/picture/draw:
# change, what, id, then moved, wrongly, lost and home of the library and of the copy

BEGIN {
    blue = "#0072b2"
    red = "#d55e00"
    pause = 40 # a rest before each outage and each return, as wide as so many changes
}

NR == 1 { next }
{
    if ($2 != what) rests[++phases] = NR - 2
    what = $2
    changes = $1
    moved[$1] = $4; wrongly[$1] = $5; lost[$1] = $6; home[$1] = $7
    copy_moved[$1] = $8; copy_wrongly[$1] = $9; copy_lost[$1] = $10; copy_home[$1] = $11
    if (stop == 0 && $10 > 0) stop = $1
}

# where the nth of all units stands, and where a change does, the rests before it counted in
function unit(n, left, right) { return place(n, 0, changes + (phases + 1) * pause, left, right) }

function units(change, i, n) {
    n = change
    for (i = 1; i <= phases; i++) if (change > rests[i]) n += pause
    return n
}

function across(change, left, right) { return unit(units(change), left, right) }

# the points of a trace of keys at home, up to a change
function steps(homes, last, left, right, top, bottom, c, points, y) {
    y = level(100000, top, bottom)
    points = sprintf("%.1f,%.1f ", left, y)
    for (c = 1; c <= last; c++) {
        points = points sprintf("%.1f,%.1f ", unit(units(c) - 1, left, right), y)
        y = level(homes[c], top, bottom)
        points = points sprintf("%.1f,%.1f ", across(c, left, right), y)
    }
    return points (last == changes ? sprintf("%.1f,%.1f", right, y) : "")
}

function level(keys, top, bottom) { return place(keys, 75000, 102500, bottom, top) }

function frame(left, right, top, bottom, words, k, i, middle) {
    title(left, top - 14, words)
    for (k = 75000; k <= 100000; k += 5000) {
        segment(left, level(k, top, bottom), right, level(k, top, bottom), "#e4e4e4")
        if (left < 200) text(left - 8, level(k, top, bottom) + 4, "end", grouped(k))
    }
    for (i = 1; i <= phases; i++) {
        middle = (across(rests[i] + 1, left, right) + across(rests[i] + 60, left, right)) / 2
        text(middle, bottom + 18, "middle", i % 2 ? "60 fail" : "and return")
    }
}

# beneath: for each change the keys that it moved wrongly, and the lookups that do not end after it
function strip(bads, ends, last, left, right, top, bottom, c, k, x) {
    for (k = 0; k <= 80; k += 40) {
        segment(left, place(k, 0, 80, bottom, top), right, place(k, 0, 80, bottom, top), "#e4e4e4")
        if (left < 200) text(left - 8, place(k, 0, 80, bottom, top) + 4, "end", k)
    }
    for (c = 1; c <= changes; c++) {
        x = across(c, left, right)
        if (ends[c] > 0) bar(x, across(c + 1, left, right), place(ends[c], 0, 80, bottom, top), bottom, c > last)
        if (bads[c] > 0) dot(x, place(bads[c], 0, 80, bottom, top), 1.6, "#333333", "#333333")
    }
}

function bar(x, until, top, bottom, pale) {
    printf "<rect x=\"%.1f\" y=\"%.1f\" width=\"%.1f\" height=\"%.1f\"", x, top, until - x, bottom - top
    printf " fill=\"%s\" opacity=\"%s\"/>\n", red, pale ? 0.35 : 1
}

function most(numbers, c, highest) {
    for (c = 1; c <= changes; c++) if (numbers[c] > highest) highest = numbers[c]
    return highest + 0
}

function tally(bads, all, ends, of_lookups) {
    of_lookups = most(ends) ? "up to " most(ends) " lookups never end" : "every lookup ends"
    return grouped(sum(bads)) " of " grouped(sum(all)) " moves were wrong; " of_lookups
}

function sum(numbers, c, total) {
    for (c = 1; c <= changes; c++) total += numbers[c]
    return total + 0
}

END {
    open_svg(980, 490, "Keys on the server they began with, through two outages of 60 of 300 servers")
    frame(80, 500, 70, 300, "The library")
    trace(steps(home, changes, 80, 500, 70, 300), blue, "stroke-width=\"2.5\"")
    frame(530, 950, 70, 300, "A copy that forgets L[W[N]] := N")
    trace(steps(copy_home, stop, 530, 950, 70, 300), red, "stroke-width=\"2.5\"")
    x = across(stop, 530, 950)
    y = level(copy_home[stop], 70, 300)
    segment(x - 6, y - 6, x + 6, y + 6, red, "stroke-width=\"3\"")
    segment(x - 6, y + 6, x + 6, y - 6, red, "stroke-width=\"3\"")
    text(x + 12, y - 6, "start", "change " stop ": a lookup")
    text(x + 12, y + 9, "start", "goes round for good")
    words = "Of 100,000 keys, those on the server they began with. A rack of 60 of 300 servers fails and returns, twice."
    text(80, 30, "start", words)

    text(80, 362, "start", tally(wrongly, moved, lost))
    strip(wrongly, lost, changes, 80, 500, 376, 440)
    text(530, 362, "start", tally(copy_wrongly, copy_moved, copy_lost))
    strip(copy_wrongly, copy_lost, stop, 530, 950, 376, 440)
    text(530, 462, "start", "dots: keys that a change moved wrongly; bars: lookups that never end;", "font-size=\"11\"")
    text(530, 477, "start", "pale: what would follow, were the box not restarted", "font-size=\"11\"")
    close_svg()
}
