# A page with its parts as they were written last: what stands between <!-- bench: NAME --> and <!-- end --> is replaced by
# the file OUT/NAME.md (-v out=OUT).
/^<!-- bench: .* -->$/ {
    print
    file = out "/" $3 ".md"
    lines = 0
    while ((got = (getline line < file)) > 0) { print line; lines++ }
    if (got < 0 || lines == 0) { print "show: no part " file > "/dev/stderr"; exit 1 }
    inside = 1
    next
}
/^<!-- end -->$/ { inside = 0 }
!inside
