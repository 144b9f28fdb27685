# Reads callgrind's dumps, named TABLE|ROW|COLUMN, each with the instructions of one call; makes tables of them, and compares with targets.
function thousands(n) { return n < 1000 ? n : thousands(int(n / 1000)) sprintf(",%03d", n % 1000) }
# the most that a call of the table takes, of those rows whose name fits, and where
function most(table, fits,   i, n) {
    n = 0
    for (i = 1; i <= calls; i++) if (of[i] == table && row[i] ~ fits && taken[i] > n) { n = taken[i]; where = row[i] ", " column[i] }
    return n
}
function targets(of_what) { printf "\n| %s | due | reached, at the row with the most | |\n|---|---|---|---|\n", of_what }
function target(what, due, n, shown) {
    printf "| instructions of %s | at most %s | %s (%s) | %s |\n", what, thousands(due), shown, where, n <= due ? "met" : "missed"
}
function table(name, head,   i, k, line, rows, columns, names, heads, cell) {
    for (i = 1; i <= calls; i++) if (of[i] == name) {
        if (!((row[i], "") in cell)) names[++rows] = row[i]
        if (!(("", column[i]) in cell)) heads[++columns] = column[i]
        cell[row[i], ""] = cell["", column[i]] = 1
        cell[row[i], column[i]] = thousands(taken[i])
    }
    line = "|---|"
    printf "\n| %s |", head
    for (k = 1; k <= columns; k++) { printf " %s |", heads[k]; line = line "---:|" }
    print "\n" line
    for (i = 1; i <= rows; i++) {
        printf "| %s |", names[i]
        for (k = 1; k <= columns; k++) printf " %s |", cell[names[i], heads[k]]
        print ""
    }
}
/^desc: Trigger: Client Request: / {
    sub(/.*Request: /, "")
    split($0, part, "|")
    of[++calls] = part[1]; row[calls] = part[2]; column[calls] = part[3]
}
/^totals: / { taken[calls] = $2 }
