# Plain SVG from awk: awk -f docs/svg.awk -f PLOT.awk NUMBERS.csv >PLOT.svg

BEGIN { FS = "," }

function open_svg(width, height, what) {
    printf "<svg xmlns=\"http://www.w3.org/2000/svg\" viewBox=\"0 0 %d %d\"", width, height
    printf " width=\"%d\" height=\"%d\"", width, height
    printf " font-family=\"sans-serif\" font-size=\"12\" role=\"img\">\n<title>%s</title>\n", what
    printf "<rect width=\"%d\" height=\"%d\" fill=\"#ffffff\"/>\n", width, height
}

function close_svg() { print "</svg>" }

# anchor is start, middle or end; more is further attributes
function text(x, y, anchor, words, more) {
    printf "<text x=\"%.1f\" y=\"%.1f\" text-anchor=\"%s\" fill=\"#333333\" %s>%s</text>\n", x, y, anchor, more, words
}

function title(x, y, words) { text(x, y, "start", words, "font-size=\"14\" font-weight=\"bold\"") }

function segment(x1, y1, x2, y2, colour, more) {
    printf "<line x1=\"%.1f\" y1=\"%.1f\" x2=\"%.1f\" y2=\"%.1f\" stroke=\"%s\" %s/>\n", x1, y1, x2, y2, colour, more
}

# points is "x,y x,y .."
function trace(points, colour, more) {
    printf "<polyline points=\"%s\" fill=\"none\" stroke=\"%s\" stroke-linejoin=\"round\" %s/>\n", points, colour, more
}

function dot(x, y, radius, fill, stroke) {
    printf "<circle cx=\"%.1f\" cy=\"%.1f\" r=\"%.1f\" fill=\"%s\"", x, y, radius, fill
    printf " stroke=\"%s\" stroke-width=\"1.5\"/>\n", stroke
}

# where a value stands between lo and hi, drawn from `from` to `to`
function place(value, lo, hi, from, to) { return from + (value - lo) / (hi - lo) * (to - from) }

function log_place(value, lo, hi, from, to) { return place(log(value), log(lo), log(hi), from, to) }

# 1234567 as 1,234,567
function grouped(number, digits, done) {
    digits = sprintf("%d", number)
    while (length(digits) > 3) {
        done = "," substr(digits, length(digits) - 2) done
        digits = substr(digits, 1, length(digits) - 3)
    }
    return digits done
}

function duration(nanoseconds) {
    if (nanoseconds < 1e3) return nanoseconds " ns"
    if (nanoseconds < 1e6) return nanoseconds / 1e3 " µs"
    return nanoseconds / 1e6 " ms"
}
