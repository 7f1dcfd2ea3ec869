# What the documents name in backticks, looked up in the list of docs/names.awk (the first file). How a name is looked up:
#   after "edit" or "edits"        a must-fail edit of the crate whose name stands before that word, else of crate model
#   after "program" or "programs"  a file of cases with that name
#   after a file of definitions    a definition there: "Waits `attempt`" (of model's specs), "proofs/X", "refine/X", "cells/X"
#   after a crate                  a function, constant or type there: "kinds `held_by`" (not after the words "cells", "calls")
#   else                           any definition, function, type, crate, edit, program or file; CRATE::NAME in that crate
# Such a word counts for all names that follow it with commas. Of several words in backticks the first is looked up. Outside
# tables a paragraph is one text. Paths without backticks, FILE, "WORDS", which stand in that file, and numbers of decisions are
# looked up too; in files that follow only=paths nothing else is.
BEGIN {
    # not names of ours: placeholders, variables, words of the languages, of the tools and of the driver
    split("Record.field key=value requires ensures self extern u32 cs memcpy memset rt nm make Fits libntsync.a" \
        " NTSYNC_ABI=FILE NTSYNC_MAX_WAIT_COUNT NTSYNC_WAIT_REALTIME U64_MAX", word, " ")
    for (i in word) known[word[i]] = 1
}

function foreign(n) { return n !~ /^[A-Za-z_.]/ || n ~ /^.$/ || n ~ /\.\./ || n ~ /^NTSYNC_IOC_/ }

FILENAME == ARGV[1] {
    if ($1 == "file") { # known by its path, its name, and its name without extension
        file[$3] = 1
        n = split($3, part, "/")
        known[part[n]] = 1
        sub(/\..*/, "", part[n])
        known[part[n]] = 1
        next
    }
    there[$1, $2, $3] = 1
    known[$3] = 1
    if ($1 == "crate") every[$3] = 1
    if ($1 == "crate" && $3 !~ /^(cells|calls)$/) crate[$3] = 1
    if ($1 == "name") { places[$2] = 1; if ($3 ~ /\./) { n = $3; sub(/.*\./, ".", n); known[n] = 1 } }
    next
}

function missing(what) { print document ":" from ": no " what; bad = 1 }

function place(w) { # the place that a word names, or ""
    if (("model/specs/" w) in places) return "model/specs/" w
    if (w ~ /^proofs\// && ("model/" w) in places) return "model/" w
    if (w !~ /\//) return ""
    split(w, part, "/")
    if ((part[1] "/specs/" part[2]) in places) return part[1] "/specs/" part[2]
    if ((part[1] "/proofs/" part[2]) in places) return part[1] "/proofs/" part[2]
    return ""
}

function look(n,    first) {
    if (foreign(n)) return
    first = n
    sub(/[ (].*/, "", first)
    sub(/'$/, "", first)
    if (mode == "edit") { if (!(("edit", where, n) in there)) missing("edit " n " of crate " where) }
    else if (mode == "program") { if (!(("program", "crates", n) in there || n in crate)) missing("cases " n) }
    else if (where != "") { if (!(("name", where, first) in there)) missing(n " in " where) }
    else if (n ~ /^[a-z_]+::/) {
        split(n, part, "::")
        if (!(("name", part[1], part[2]) in there || part[1] == "ntsync" && part[2] in known)) missing(n)
    }
    else if (!(first in known) && !(n in known) && !(n in file)) missing(n)
}

function text(s,    n, part, i, before, count, w, last, previous) {
    where = mode = ""
    paths(s)
    if (mostly == "paths") return
    n = split(s, part, "`")
    for (i = 1; i <= n; i++) {
        if (i % 2 == 0) { look(part[i]); continue }
        before = part[i]
        if (i > 1) gsub(/ \([^()]*\)/, "", before)
        if (i > 1 && before ~ /^(,| and|, and) $/) continue
        where = mode = ""
        count = split(before, w, /[ ]+/)
        last = tolower(w[count] == "" ? w[count - 1] : w[count])
        if (before !~ / $/) continue
        previous = w[count - 2]
        if (last ~ /^edits?$/) { mode = "edit"; where = (previous in every) ? previous : "model" }
        else if (last ~ /^programs?$/) mode = "program"
        else if (w[count - 1] in crate && !(w[count - 2] ~ /^(crate|crates)$/)) where = w[count - 1]
        else where = place(w[count - 1])
    }
}

function paths(s,    n, w, i, p, f, rest) {
    rest = s
    while (match(rest, /[A-Za-z]+\/[A-Za-z0-9_.\/-]+, "[^"]*"/)) {
        p = substr(rest, RSTART, RLENGTH)
        rest = substr(rest, RSTART + RLENGTH)
        f = p
        sub(/,.*/, "", f)
        sub(/^[^"]*"/, "", p)
        sub(/"$/, "", p)
        if (f in file && !within(f, p)) missing("\"" p "\" in " f)
    }
    rest = s
    while (match(rest, /DECISIONS\.md, [0-9]+/)) {
        p = substr(rest, RSTART + 14, RLENGTH - 14)
        rest = substr(rest, RSTART + RLENGTH)
        if (!within("docs/DECISIONS.md", " " p ". **") && !within("docs/DECISIONS.md", " **" p ". ")) missing("decision " p)
    }
    n = split(s, w, /[^A-Za-z0-9_.\/-]+/)
    for (i = 1; i <= n; i++) {
        p = w[i]
        sub(/[.\/]+$/, "", p)
        if (p ~ /^[a-z_]+\/[A-Z][A-Za-z]+$/ && place(p) == "" && !(p in file)) missing("file " p)
        if (p ~ /^(bench|crates|docs|hosts|include|tests)\/./ && p !~ /\.\.|\/[Xx]\./ && !(p in file)) missing("file " p)
    }
}

function within(f, words,    line) {
    if (!(f in content)) {
        content[f] = ""
        while ((getline line < f) > 0) { sub(/^ *(\*|#+|--|\/\/) /, "", line); content[f] = content[f] " " line }
        close(f)
    }
    return index(content[f], words) > 0
}

function flush() { if (held != "") text(held); held = "" }

FNR == 1 { flush(); code = 0; document = FILENAME; mostly = only }
/^ *```/ { flush(); code = !code; next }
code || /^        *[^ ]/ { next }
/^\|/ {
    flush()
    from = FNR
    n = split($0, cell, / \| /)
    for (c = 1; c <= n; c++) text(cell[c])
    next
}
/^$/ || /^#/ || /^ *([-*]|[0-9]+\.) / { flush() }
/^$/ { next }
{
    if (held == "") from = FNR
    sub(/^ +/, "")
    held = held == "" ? $0 : held " " $0
}
END { flush(); exit bad }
