# peers.csv as tables, one for each unit: works down, stores across. With -v part=bytes those of bytes, else the others.
BEGIN {
    FS = ","
    said["instructions"] = "Executed x86-64 instructions of one call, counted by the emulator, without the kernel's"
    said["nanoseconds"] = "Nanoseconds of one call, the least of all turns"
    said["bytes"] = "Bytes kept for old versions after changes, each of another record, under scans begun before them"
    shown["second"] = "second program"
}
($4 == "bytes") == (part == "bytes") {
    if (!($4 in units)) { units[$4]; unit[++U] = $4 }
    if (!(($4, $1, $2) in row)) { row[$4, $1, $2]; rows[$4, ++R[$4]] = $1 "," $2 }
    if (!(($4, $3) in column)) { column[$4, $3]; columns[$4, ++C[$4]] = $3 }
    value[$4, $1 "," $2, $3] = $5
}
END {
    for (u = 1; u <= U; u++) {
        n = unit[u]
        printf "%s%s.\n\n| %s | T |", (u > 1 ? "\n" : ""), said[n], n
        for (c = 1; c <= C[n]; c++)
            printf " %s |", columns[n, c] in shown ? shown[columns[n, c]] : columns[n, c]
        printf "\n|---|---:|"
        for (c = 1; c <= C[n]; c++)
            printf "---:|"
        print ""
        for (r = 1; r <= R[n]; r++) {
            split(rows[n, r], part_of, ",")
            printf "| %s | %s |", part_of[1], number(part_of[2])
            for (c = 1; c <= C[n]; c++)
                printf " %s |", number(value[n, rows[n, r], columns[n, c]])
            print ""
        }
    }
}
