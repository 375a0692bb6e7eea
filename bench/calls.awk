# calls.csv as one part of the page, by the name in -v part: how the library stands to fast.c (summary), each case in one
# unit (nanoseconds, instructions), what grows (growth), and what a scan adds to a modify (scans).
BEGIN {
    FS = ";"
    sizes = split("64,64 1024,1024 16384,16384 16384,1048576", size, " ")
}
{
    row = $1 ";" $2
    if (!(row in seen)) { seen[row]; rows[++R] = row }
    if (!($5 in units)) { units[$5]; unit[++U] = $5 }
    library[$5, row, $3 "," $4] = $6
    fast[$5, row, $3 "," $4] = $7
    group($5, $2 >= 63 ? "63 or 64 scans run" : $2 == 0 ? "no scan runs" : $2 == 1 ? "1 scan runs" : $2 " scans run", $6 / $7)
    group($5, "all", $6 / $7)
    if ($5 == "nanoseconds" && $6 > 5000)
        group("reads", "all", $6 / $8)
}
function group(what, name, ratio) {
    sum[what, name] += log(ratio); count[what, name]++
    if (!((what, name) in least) || ratio < least[what, name]) least[what, name] = ratio
    if (ratio > most[what, name]) most[what, name] = ratio
}
function mean(what, name) {
    return exp(sum[what, name] / count[what, name])
}
function of(who, row, at) {
    return who == "library" ? library["instructions", row, at] : fast["instructions", row, at]
}
function summary(  u, k, name) {
    printf "| library ÷ fast.c | cases |"
    for (u = 1; u <= U; u++)
        printf " %s: geometric mean | least | most |", unit[u]
    printf "\n|---|---:|"
    for (u = 1; u <= U; u++)
        printf "---:|---:|---:|"
    print ""
    split("no scan runs;1 scan runs;8 scans run;63 or 64 scans run;all", name, ";")
    for (k = 1; k <= 5; k++) {
        printf "| %s | %d |", name[k], count[unit[1], name[k]]
        for (u = 1; u <= U; u++)
            printf " **%.2f** | %.2f | %.2f |", mean(unit[u], name[k]), least[unit[u], name[k]], most[unit[u], name[k]]
        print ""
    }
    if (count["reads", "all"])
        printf "\n%d of the cases take the library more than 5 µs: they look through many slots or entries. They take %.2f " \
            "times as long (geometric mean; at most %.2f times) as a loop that reads one word of each of these slots and " \
            "entries and does nothing else.\n", count["reads", "all"], mean("reads", "all"), most["reads", "all"]
}
function cases(n,  k, s, part_of, at, cell) {
    if (!(n in units)) {
        printf "No %s: the library cannot run on this processor itself.\n", n
        return
    }
    printf "| %s: library / fast.c = ratio | scans |", n
    for (s = 1; s <= sizes; s++) {
        split(size[s], at, ",")
        printf at[1] == at[2] ? " T = R = %s |" : " T = %s, R = %s |", number(at[1]), number(at[2])
    }
    print "\n|---|---:|---:|---:|---:|---:|"
    for (k = 1; k <= R; k++) {
        split(rows[k], part_of, ";")
        printf "| %s | %s |", part_of[1], part_of[2]
        for (s = 1; s <= sizes; s++) {
            cell = n SUBSEP rows[k] SUBSEP size[s]
            printf " %s / %s = **%.2f** |", number(library[cell]), number(fast[cell]), library[cell] / fast[cell]
        }
        print ""
    }
}
function line(what, with, from_library, from_fast) {
    printf "| %s | %s | %s | %s |\n", what, with, from_library, from_fast
}
# Instructions for each slot or entry more, between two sizes.
function slope(who, row, from, to, more) {
    return sprintf("%.2f", (of(who, row, size[to]) - of(who, row, size[from])) / more)
}
function each(what, with, row, from, to, more) {
    line(what ": for each", with, slope("library", row, from, to, more), slope("fast", row, from, to, more))
}
function by_scans(row, who,  k, part_of, text) {
    for (k = 1; k <= R; k++) {
        split(rows[k], part_of, ";")
        if (part_of[1] == row)
            text = text (text == "" ? "" : ", ") number(of(who, rows[k], size[2]))
    }
    return text
}
function at_once(what, with, row) {
    line(what, "scans that run: " with, by_scans(row, "library"), by_scans(row, "fast"))
}
function growth(  slots, entries) {
    slots = 16384 - 1024
    entries = 1048576 - 16384
    print "| instructions | grow with | library | fast.c |"
    print "|---|---|---:|---:|"
    at_once("desk check, and a ticket on no card", "0, 1, 8, 64", "next, refused: no such ticket")
    at_once("begin", "0, 1, 8, 63", "begin")
    at_once("next, a record in hand", "1, 8, 64", "next, a record")
    at_once("modify, first slot, a version kept unless no scan runs", "0, 1, 64", "modify, first slot")
    each("modify, delete", "slot before the record", "modify, last slot;0", 2, 3, slots)
    each("the same, a version kept", "entry in use before the first empty one", "modify, first slot, last entry;1", 3, 4, entries)
    each("insert", "slot of the table", "insert, last slot;0", 2, 3, slots)
    each("next", "empty slot or entry passed", "next, an empty store to its end;1", 3, 4, entries)
    each("tally", "slot or entry", "tally, a full table;0", 3, 4, entries)
    each("owed", "empty entry", "owed, a full table;1", 3, 4, entries)
    each("owed", "slot in use and an empty entry", "owed, a full table;1", 2, 3, slots)
}
function added(n, row, at,  alone, under) {
    alone = library[n, row ";0", at]; under = library[n, row ";1", at]
    return sprintf(" %s | %s | %.1f %% |", number(alone), number(under), 100 * (under - alone) / alone)
}
function scans(  u, s, k, at, where) {
    printf "| one modify | T |"
    for (u = 1; u <= U; u++)
        printf " %s, no scan | one waits | more |", unit[u]
    printf "\n|---|---:|"
    for (u = 1; u <= U; u++)
        printf "---:|---:|---:|"
    print ""
    split("first middle last", where, " ")
    for (s = 2; s <= 3; s++)
        for (k = 1; k <= 3; k++) {
            split(size[s], at, ",")
            printf "| %s slot | %s |", where[k], number(at[1])
            for (u = 1; u <= U; u++)
                printf "%s", added(unit[u], "modify, " where[k] " slot", size[s])
            print ""
        }
}
END {
    if (part == "summary") summary()
    else if (part == "growth") growth()
    else if (part == "scans") scans()
    else cases(part)
}
