# calls.csv as a picture: how many times as long as fast.c the library takes, a line for each case, a dot for each size, a
# panel for each unit.
BEGIN {
    FS = ";"
    NAMES = 300; WIDE = 300; GAP = 40; TOP = 84; STEP = 17; MOST = 5; LEAST = 0.5
    sizes = split("64,64 1024,1024 16384,16384 16384,1048576", size, " ")
    split("T = R = 64;T = R = 1,024;T = R = 16,384;T = 16,384, R = 1,048,576", said, ";")
    split("#c4561a #3557a5 #0b6e4f #8a3fa0", colour, " ")
}
{
    row = $1 ";" $2
    if (!(row in seen)) { seen[row]; rows[++R] = row }
    if (!($5 in units)) { units[$5]; unit[++U] = $5 }
    ratio[$5, row, $3 "," $4] = $6 / $7
}
function x(v) {
    v = v < LEAST ? LEAST : v > MOST ? MOST : v
    return NAMES + panel * (WIDE + GAP) + log(v / LEAST) / log(MOST / LEAST) * WIDE
}
function y(k) { return TOP + k * STEP }
function text(at_x, at_y, anchor, what, fill) {
    printf "<text x=\"%.1f\" y=\"%.1f\" text-anchor=\"%s\" fill=\"%s\">%s</text>\n", at_x, at_y, anchor, fill, what
}
function dot(at_x, at_y, s) {
    printf "<circle cx=\"%.1f\" cy=\"%.1f\" r=\"4\" fill=\"%s\" fill-opacity=\"0.75\"/>\n", at_x, at_y, colour[s]
}
END {
    width = NAMES + U * (WIDE + GAP); height = y(R) + 24
    printf "<svg xmlns=\"http://www.w3.org/2000/svg\" viewBox=\"0 0 %d %d\" width=\"%d\" height=\"%d\"", \
        width, height, width, height
    print " font-family=\"DejaVu Sans, Verdana, sans-serif\" font-size=\"12\">"
    print "<title>The library beside C written for speed</title>"
    printf "<rect width=\"100%%\" height=\"100%%\" fill=\"white\"/>\n"
    text(12, 22, "start", "The library beside C written for speed: library ÷ fast.c. At 1 both cost the same.", "#222")
    at = 18
    for (s = 1; s <= sizes; s++) {
        dot(at, 40, s)
        text(at + 9, 44, "start", said[s], colour[s])
        at += 30 + 7.5 * length(said[s])
    }
    for (k = 1; k <= R; k++) {
        split(rows[k], part, ";")
        text(NAMES - 12, y(k) + 4, "end", part[1] "; scans: " part[2], "#333")
        printf "<path d=\"M%.1f %.1fH%.1f\" stroke=\"#eee\"/>\n", NAMES, y(k), width - GAP
    }
    for (panel = 0; panel < U; panel++) {
        n = unit[panel + 1]
        text(x(LEAST), TOP - 16, "start", n, "#222")
        for (v = LEAST; v <= MOST; v = v < 1 ? 1 : v + 1) {
            printf "<path d=\"M%.1f %.1fV%.1f\" stroke=\"%s\"/>\n", x(v), TOP, y(R) + 8, v == 1 ? "#888" : "#ddd"
            text(x(v), y(R) + 22, "middle", v, "#555")
        }
        for (k = 1; k <= R; k++)
            for (s = sizes; s >= 1; s--)
                dot(x(ratio[n, rows[k], size[s]]), y(k), s)
    }
    print "</svg>"
}
