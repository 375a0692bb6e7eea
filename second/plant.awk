# plant.awk SOURCE LIST: writes a copy of SOURCE for each plant of LIST, with its one line changed, to INTO/001ENDING and on;
# in front of it the plant's name, and the demand that it names. A line that does not stand once in SOURCE is an error.
function trimmed(line) { sub(/^[ \t]+/, "", line); return line }
function rest(line) { sub(/^[a-z]+:[ \t]*/, "", line); return line }
function plant(  file, found, k) {
    file = sprintf("%s/%03d%s", into, ++planted, ending)
    print "/* name: " name " */" > file
    print "/* by: " by " */" > file
    for (k = 1; k <= lines; k++)
        if (text[k] == old && (within == "" || index(of[k], within))) { found++; print new > file } else print line[k] > file
    close(file)
    if (found != 1) { print "plant: " name ": the old line stands " found + 0 " times" > "/dev/stderr"; bad = 1 }
    name = within = by = old = new = ""
}
FNR == NR {
    if ($0 ~ /^[a-z].*\)$/) here = $0
    line[++lines] = $0; text[lines] = trimmed($0); of[lines] = here
    next
}
/^name:/ { name = rest($0) }
/^in:/ { within = rest($0) }
/^by:/ { by = rest($0) }
/^old:/ { old = rest($0) }
/^new:/ { new = rest($0) }
old != "" && new != "" && /^$/ { plant() }
END { if (new != "") plant(); exit bad }
