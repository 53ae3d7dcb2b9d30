# Prints what nothing cites: see unused.sh. The first file is docs/PROMISES.md, the others are .antt and .rt files
# below the folder `root`. It goes by bytes (LC_ALL=C), so that every awk reads the same names.

# ---- where names stand: seen[file, kind, name] is a list of line numbers.
# The kinds: "term" in antt, "code" in Rattle, "within" for x.f of a module x.

function note(kind, name) {
    if (last[file, kind, name] == FNR) return
    last[file, kind, name] = FNR
    seen[file, kind, name] = seen[file, kind, name] " " FNR
}

# Notes the names in a line of antt. 'x.f' is a field of x or f of a module x, whichever x is, '(x).f' is a field, and in
# '{ f = ..; g = .. }' f and g are fields.
function read_terms(text, n, i, t, before, word) {
    gsub(/[(){};,]/, " & ", text)
    n = split(text, word, " ")
    before = ";"
    for (i = 1; i <= n; before = word[i++]) {
        t = word[i]
        if (t ~ /^\../ || (i < n && word[i + 1] == "=" && before ~ /^[{;]$/)) continue
        sub(/\.$/, "", t)
        if (t ~ /.\../) {
            match(t, /^[^.]+\.[^.]+/)
            note("within", substr(t, 1, RLENGTH))
            sub(/\..*/, "", t)
        }
        note("term", t)
    }
}

function read_code(text, n, i, word) {
    gsub(/[^A-Za-z0-9_]/, " ", text)
    n = split(text, word, " ")
    for (i = 1; i <= n; i++) note("code", word[i])
}

# A contract's facts stand in the braces of 'requires { .. }', 'ensures name { .. }' or 'ghost name: { .. } by { .. }', perhaps
# over several lines, or behind 'ghost name =', on one line.
function read_facts(text, fact) {
    if (!braces && match(text, /^[ \t]*ghost +[A-Za-z0-9_]+ *= *[^{ ]/)) read_terms(substr(text, RLENGTH))
    while (text != "") {
        if (!braces) {
            if (!match(text, /(^|[^A-Za-z0-9_])((requires|ensures)[*]?( +[A-Za-z0-9_]+)?|ghost +[A-Za-z0-9_]+ *[:=]|by) *\{/)) return
            text = substr(text, RSTART + RLENGTH)
            braces = 1
        }
        for (fact = ""; braces && match(text, /[{}]/); text = substr(text, RSTART + 1)) {
            fact = fact substr(text, 1, RSTART)
            braces += substr(text, RSTART, 1) == "{" ? 1 : -1
        }
        read_terms(braces ? fact text : fact)
        if (braces) return
    }
}

# ---- imports

# The file of a path such as Rattle.mend.proofs.Numbers; nothing for one outside a crate. One of the kit's has no such file.
function home(path) {
    if (path !~ /^Rattle\.[^.]+\.(specs|proofs)\../) return ""
    sub(/^Rattle\./, "", path)
    gsub(/\./, "/", path)
    return root "/crates/" path ".antt"
}

# 'a', or 'a as b', which binds b. The law is nothing where a whole module is bound.
function import(entry, path, law, kind) {
    i_file[++imports] = file; i_line[imports] = FNR; i_kind[imports] = kind
    i_home[imports] = home(path)
    if (law) sub(/ as .*/, "", law)
    i_law[imports] = law
    sub(/^.* as /, "", entry)
    i_name[imports] = entry
    if (path ~ /\.(Goals|Given)$/) goals[file, entry] = 1
}

function read_use(text, kind, path, n, i, entry) {
    sub(/^[ \t]*(ghost )?use /, "", text)
    sub(/;$/, "", text)
    path = text
    if (text ~ /\{/) {
        sub(/(\.|::)\{.*/, "", path)
        sub(/^[^{]*\{/, "", text); sub(/\}.*/, "", text)
        n = split(text, entry, ",")
        for (i = 1; i <= n; i++) {
            gsub(/^[ \t]+|[ \t]+$/, "", entry[i])
            if (entry[i] != "") import(entry[i], path, entry[i], kind)
        }
    } else {
        sub(/ as .*/, "", path)
        if (kind == "code") sub(/^.*::/, "", text)
        else if (text !~ / as /) sub(/^.*\./, "", text)
        import(text, path, "", kind)
    }
}

# An attribute names lemmas and definitions by their paths, as 'using(crate::proofs::Places::first)'.
function read_attribute(text, crate, path, name) {
    crate = substr(file, length(root) + 2)
    sub(/^crates\//, "", crate); sub(/\/.*/, "", crate)
    while (match(text, /crate(::[A-Za-z0-9_]+)+/)) {
        path = name = substr(text, RSTART, RLENGTH)
        text = substr(text, RSTART + RLENGTH)
        sub(/^.*::/, "", name); sub(/::[A-Za-z0-9_]+$/, "", path)
        gsub(/::/, ".", path); sub(/^crate/, "Rattle." crate, path)
        import(name, path, name, "term")
        note("term", name)
    }
}

# ---- definitions, each from the line of its type to the line before the next one

function define(name, depth) {
    d_file[++definitions] = file; d_line[definitions] = FNR; d_name[definitions] = name; d_depth[definitions] = depth
    made[file, name] = definitions
    open[++opens] = definitions
}

function close_from(depth, end) {
    while (opens > 0 && d_depth[open[opens]] >= depth) d_end[open[opens--]] = end
}

# Sees whether a line of antt begins a definition. The fields of a record are none, and a constructor stands for its type.
function read_head(text, depth, n, k, i, word, public) {
    depth = match(text, /[^ ]/) - 1
    gsub(/[(){};,]/, " & ", text)
    n = split(text, word, " ")
    for (k = 1; k < n && word[k] ~ /^(pub|abbrev|unfoldable|private)$/; k++) public = public || word[k] == "pub"
    if (shape != "" && depth > shape_depth) {
        if (shape == "data" && word[k + 1] == ":") {
            made[file, word[k]] = definitions
            also[definitions] = also[definitions] " " word[k]
        }
        return
    }
    if (word[k] ~ /^(record|data)$/ && k < n && word[k + 1] != "{") {
        close_from(depth, FNR - 1)
        define(word[k + 1], depth)
        shape = word[k]; shape_depth = depth
    } else if (word[k] ~ /^(mod|module|infix[lr]?)$/) {
        close_from(depth, FNR - 1)
        shape = ""
    } else {
        for (i = k; i < n && word[i] !~ /^([(){};,:=]|let|in|where|λ|unfolding)$/; i++) ;
        if (word[i] != ":" || i == k) return
        close_from(depth, FNR - 1)
        while (k < i) {
            define(word[k++], depth)
            if (public) d_type[definitions] = word[i + 1]
        }
        shape = ""
    }
}

# ---- reading

FNR == 1 {
    close_from(0, here)
    file = FILENAME
    files++
    code = file ~ /\.rt$/
    shape = ""; pending = ""; braces = 0
}
{ here = FNR }

# What stands between backquotes in docs/PROMISES.md is promised.
file ~ /\.md$/ {
    n = split($0, quoted, "`")
    for (i = 2; i <= n; i += 2) {
        gsub(/[,:()]/, " ", quoted[i])
        m = split(quoted[i], names, " ")
        for (j = 1; j <= m; j++) promised[names[j]] = 1
    }
    next
}

{
    line = $0
    gsub(/"[^"]*"/, " ", line)
    if (code) sub(/\/\/.*/, "", line)
    else if (match(line, /(^|[ \t])--/)) line = substr(line, 1, RSTART - 1)
    sub(/[ \t\r]+$/, "", line)
    if (line == "") next
}
pending != "" || line ~ /^[ \t]*(ghost )?use / {
    pending = pending line
    if (pending ~ /\{[^}]*$/) next
    read_use(pending, !code || pending ~ /^[ \t]*ghost / ? "term" : "code")
    pending = ""
    next
}
code && line !~ /^[ \t]*pub use / {
    if (line ~ /#!?\[tactic\(/) read_attribute(line)
    read_code(line)
    read_facts(line)
}
!code {
    read_head(line)
    if (line !~ /^[ \t]*infix[lr]? /) read_terms(line)
}

# ---- answering

# Whether a line that isn't gone has the name, outside the lines from a to b.
function stands(file, kind, name, a, b, n, i, list) {
    if (!((file, kind, name) in seen)) return 0
    n = split(seen[file, kind, name], list, " ")
    for (i = 1; i <= n; i++)
        if (!((file, list[i]) in gone) && (list[i] + 0 < a || list[i] + 0 > b)) return 1
    return 0
}

# The same, where an operator such as if◌then◌else◌ stands if all its parts do.
function used(file, kind, name, a, b, n, i, part) {
    if (stands(file, kind, name, a, b)) return 1
    if (kind == "code" || name !~ /◌/) return 0
    n = split(name, part, "◌")
    for (i = 1; i <= n; i++)
        if (part[i] != "" && !stands(file, kind, part[i], a, b)) return 0
    return 1
}

# Whether the kit reads it: in proofs/F/Answers.antt and proofs/F/Invariants.antt what is public, has the name of a goal
# and its type, goal.NAME of the kit's Goals or Given; in proofs/F/Proof.antt the law F_spec.
function asked(d, path, n, part) {
    n = split(d_file[d], path, "/")
    if (path[n - 1] == "proofs") return 0
    if (path[n] == "Proof.antt") return d_name[d] == path[n - 1] "_spec"
    return path[n] ~ /^(Answers|Invariants)\.antt$/ && split(d_type[d], part, ".") == 2 &&
        (d_file[d], part[1]) in goals && part[2] == d_name[d]
}

function cited(d, n, k, i, list) {
    if (asked(d) || d_name[d] in promised) return 1
    n = split(d_name[d] also[d], list, " ")
    for (k = 1; k <= n; k++)
        if (used(d_file[d], "term", list[k], d_line[d], d_end[d])) return 1
    n = split(brought[d] brought[d_file[d]], list, " ")
    for (k = 1; k <= n; k++) {
        i = list[k]
        if (i_law[i] != "" ? used(i_file[i], i_kind[i], i_name[i], 0, 0) : stands(i_file[i], "within", i_name[i] "." d_name[d], 0, 0))
            return 1
    }
    return 0
}

function tell(file, line, what) {
    print substr(file, length(root) + 2) ":" line ": " what
    found++
}

END {
    close_from(0, here)
    # what each definition, and each whole file, is imported by
    for (i = 1; i <= imports; i++)
        if (i_law[i] == "") brought[i_home[i]] = brought[i_home[i]] " " i
        else if ((i_home[i], i_law[i]) in made) brought[made[i_home[i], i_law[i]]] = brought[made[i_home[i], i_law[i]]] " " i
    # first what nothing cites, then in turns what only the lines of such a law cite
    for (round = 1; more || round == 1; round++) {
        more = 0
        by = round == 1 ? "nothing" : "nothing but what is listed"
        for (d = 1; d <= definitions; d++)
            if (!(d in dead) && !cited(d)) {
                dead[d] = round
                tell(d_file[d], d_line[d], d_name[d] " is cited by " by)
                more++
            }
        for (i = 1; i <= imports; i++)
            if (!(i in idle) && !used(i_file[i], i_kind[i], i_name[i], 0, 0)) {
                idle[i] = round
                tell(i_file[i], i_line[i], "the import " i_name[i] " is used by " by)
            }
        for (d in dead)
            if (dead[d] == round)
                for (l = d_line[d]; l <= d_end[d]; l++) gone[d_file[d], l] = 1
    }
    if (!found) print "unused: nothing, of " definitions + 0 " definitions and " imports + 0 " imports in " files - 1 " files"
    exit found > 0
}
