# A number as the page writes it: one digit after the point where it is small, thousands apart.
function number(v, at) {
    v = sprintf(v < 100 && v != int(v) ? "%.1f" : "%.0f", v)
    for (at = length(v) - 3; at > 0 && v !~ /\./; at -= 3)
        v = substr(v, 1, at) "," substr(v, at + 1)
    return v
}
