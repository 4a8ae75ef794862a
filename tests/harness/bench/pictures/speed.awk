# Of the tables that bench prints: the lines of speed.gnuplot, for each call its name and the nanoseconds of the library and of plain Rust at 8, 19
# and 64 boards. A row of the picture: its name, the title of a table, the cell behind n if there is one, and the calls in a unit of the speeds.
BEGIN {
    FS = " *[|] *"
    rows = split("an entry of a run/Many rounds/0/1000;a run of no entry/An empty schedule/0/1000;a drive of a round/Drives/0/1;" \
        "the doubt lamp, no pair/Doubt lamps/0/1000;mending a good table/Mendings/good/1000;mending random bytes/Mendings/random bytes/1000;" \
        "a save/Saves//1000;a load/Loads//1000;the slot of a board/Slots/0/1000", row, ";")
    for (k = 1; k <= rows; k++) {
        split(row[k], part, "/")
        name[k] = part[1]
        unit[k] = part[4]
        row_of[part[2] "/" part[3]] = k
    }
}
NF == 1 && !/[.:;,]/ { title = $0 }
/^[|] *[0-9]/ {
    k = row_of[title "/" (NF > 6 ? $3 : "")]
    if (k) for (side = 0; side < 2; side++) taken[k, $2, side] = 1e9 / (unit[k] * $(NF - 3 + side))
}
END {
    split("8 19 64", sizes, " ")
    for (k = 1; k <= rows; k++) {
        printf "\"%s\"", name[k]
        for (s = 1; s <= 3; s++) for (side = 0; side < 2; side++) printf " %.0f", taken[k, sizes[s], side]
        print ""
    }
}
