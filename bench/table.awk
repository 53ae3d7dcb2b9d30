# Prints lines 'operation | packet | column | value' as a table. columns has the names, with ; between them. A name with
# no compiler before it has the better of both compilers. kind is plain (the values, and ours over the best) or same
# (also ours over the best C whose work stands once, and over the best C without assembly). Rows in which no column but
# ours and before has a value are left out, and equal rows of an operation are joined. gathered is as same, for C that
# copies fragments together or sums them in place, and built for C that builds packets and sums in a loop or wider.
BEGIN {
    heads["same"] = " ours / once | ours / C |"
    heads["gathered"] = " ours / copied | ours / C |"
    heads["built"] = " ours / loop | ours / C |"
    first["same"] = "once$"
    first["gathered"] = "copied$"
    first["built"] = "loop$"
    c_alone["same"] = "(once|copies)$"
    c_alone["gathered"] = "(copied|in place)$"
    c_alone["built"] = "(loop|64-bit)$"
    n = split(columns, column, ";")
    for (c = 1; c <= n; c++)
        is_column[column[c]] = 1
}
{
    row = $1 " | " $2
    if (!(row in known)) {
        known[row] = 1
        rows[++count] = row
    }
    name = $3
    if (!(name in is_column))
        sub(/^[^:]*: /, "", name)
    if (!((row, name) in value) || $4 + 0 < value[row, name] + 0)
        value[row, name] = $4
}
END {
    head = "| operation | packet |"
    rule = "|---|---|"
    for (c = 1; c <= n; c++) {
        head = head " " column[c] " |"
        rule = rule "---|"
    }
    print head heads[kind] " ours / best |"
    print rule (kind in first ? "---|---|" : "") "---|"
    for (r = 1; r <= count; r++)
        print_row(rows[r])
    print_joined()
}

# The best value of a row in the others' columns, or in those whose names match.
function least(row, names,    c, v, best) {
    for (c = 1; c <= n; c++) {
        v = value[row, column[c]]
        if (column[c] !~ /^(ours|before)$/ && column[c] ~ names && v != "" && (best == "" || v + 0 < best))
            best = v + 0
    }
    return best
}

# A row is held back until the next one is known to differ. A packet is a kind and a length.
function print_row(row,    text, c, v) {
    if (least(row, "") == "")
        return
    for (c = 1; c <= n; c++)
        text = text " " value[row, column[c]] " |"
    v = value[row, "ours"]
    if (kind in first)
        text = text sprintf(" %.2f | %.2f |", v / least(row, first[kind]), v / least(row, c_alone[kind]))
    text = text sprintf(" %.2f |", v / least(row, ""))
    match(row, / [0-9]+$/)
    if (substr(row, 1, RSTART - 1) != joined || text != held) {
        print_joined()
        joined = substr(row, 1, RSTART - 1)
        held = text
        from = substr(row, RSTART + 1)
    }
    to = substr(row, RSTART + 1)
}
function print_joined() {
    if (joined != "")
        print "| " joined " " (from == to ? from : from " to " to) " |" held
}
