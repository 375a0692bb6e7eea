# peers.csv as a picture: what one modify costs as T grows, one panel for each unit, both axes by powers.
BEGIN {
    FS = ","
    WIDE = 420; HIGH = 300; LEFT = 70; TOP = 60
    colour["library"] = "#0b6e4f"; colour["second"] = "#8a8a8a"
    colour["SQLite"] = "#c4561a"; colour["LMDB"] = "#3557a5"
    shown["second"] = "second program"
    said["instructions"] = "executed x86-64 instructions, without the kernel's"
    said["nanoseconds"] = "nanoseconds on " processor
}
$1 == "modify" || $1 == "modify under a snapshot" {
    if (!($4 in least)) { unit[U++] = $4; least[$4] = most[$4] = $5 }
    if ($5 < least[$4]) least[$4] = $5
    if ($5 > most[$4]) most[$4] = $5
    line = $4 "," $3 "," ($1 == "modify" ? "" : "5 4")
    if (!(line in points)) lines[L++] = line
    points[line] = points[line] " " $2 ":" $5
}
function log10(v) { return log(v) / log(10) }
function floor(v) { return v < 0 && v != int(v) ? int(v) - 1 : int(v) }
function x(t) { return LEFT + panel * (WIDE + LEFT + 90) + (log(t) / log(2) - 5) / 10 * WIDE }
function y(v) { return TOP + HIGH - (log10(v) - low) / (high - low) * HIGH }
function text(at_x, at_y, anchor, what, fill) {
    printf "<text x=\"%.1f\" y=\"%.1f\" text-anchor=\"%s\" fill=\"%s\">%s</text>\n", at_x, at_y, anchor, fill, what
}
function thousands(v) {
    return v >= 1000000 ? v / 1000000 " M" : v >= 1000 ? v / 1000 " k" : v
}
# At the ends of the lines, from the top down, none less than a line below the one before.
function write_labels(  k, top, below) {
    for (below = 0; labels > 0; labels--) {
        top = 1
        for (k = 2; k <= labels; k++)
            if (label_at[k] < label_at[top])
                top = k
        if (label_at[top] < below)
            label_at[top] = below
        text(x(16384) + 8, label_at[top], "start", label[top] in shown ? shown[label[top]] : label[top], coloured(label[top]))
        below = label_at[top] + 15
        label[top] = label[labels]
        label_at[top] = label_at[labels]
    }
}
# A store's colour is that of the first word of its name; its version follows.
function coloured(store) {
    sub(/ .*/, "", store)
    return colour[store]
}
END {
    width = U * (WIDE + LEFT + 90) + 20; height = TOP + HIGH + 40
    printf "<svg xmlns=\"http://www.w3.org/2000/svg\" viewBox=\"0 0 %d %d\" width=\"%d\" height=\"%d\"", \
        width, height, width, height
    print " font-family=\"DejaVu Sans, Verdana, sans-serif\" font-size=\"12\">"
    print "<title>One modify as the table grows</title>"
    printf "<rect width=\"100%%\" height=\"100%%\" fill=\"white\"/>\n"
    text(LEFT, 22, "start", "One modify as the table grows. Solid: no snapshot. Dashed: one snapshot open.", "#222")
    for (panel = 0; panel < U; panel++) {
        n = unit[panel]
        low = floor(log10(least[n])); high = floor(log10(most[n])) + 1
        text(x(32), TOP - 12, "start", said[n], "#222")
        for (e = low; e <= high; e++) {
            printf "<path d=\"M%.1f %.1fH%.1f\" stroke=\"#ddd\"/>\n", x(32), y(10 ^ e), x(32768)
            text(x(32) - 8, y(10 ^ e) + 4, "end", thousands(10 ^ e), "#555")
        }
        for (t = 64; t <= 16384; t *= 16)
            text(x(t), TOP + HIGH + 20, "middle", "T = " number(t), "#555")
        for (k = 0; k < L; k++) {
            split(lines[k], part, ",")
            if (part[1] != n)
                continue
            count = split(points[lines[k]], point, " ")
            path = ""
            for (i = 1; i <= count; i++) {
                split(point[i], at, ":")
                printf "<circle cx=\"%.1f\" cy=\"%.1f\" r=\"3\" fill=\"%s\"/>\n", x(at[1]), y(at[2]), coloured(part[2])
                path = path sprintf("%s%.1f %.1f", i == 1 ? "M" : "L", x(at[1]), y(at[2]))
            }
            printf "<path d=\"%s\" fill=\"none\" stroke=\"%s\" stroke-width=\"2\" stroke-dasharray=\"%s\"/>\n", \
                path, coloured(part[2]), part[3]
            if (part[3] == "") {
                label[++labels] = part[2]
                label_at[labels] = y(at[2]) + 4
            }
        }
        write_labels()
    }
    print "</svg>"
}
