# What there is, a line each: the kind, the place, the name. From standard input come paths, from files definitions.
#   file PATH; edit CRATE LABEL; program crates NAME (a file of cases); crate crates NAME
#   name PLACE NAME, where the place is CRATE/specs/FILE or CRATE/proofs/FILE of a definition, CRATE of a function, else the file
function name(n) { if (n != "") print "name", place, n }

FILENAME == "" || FILENAME == "-" {
    sub(/^\.\//, "")
    print "file", "root", $0
    n = split($0, part, "/")
    if (n == 2 && part[1] == "crates") print "crate", "crates", part[2]
    if (part[3] == "must-fail" && sub(/\.edit$/, "", part[n])) print "edit", part[2], part[n]
    if (part[2] ~ /^cases_/ && sub(/\.rt$/, "", part[4])) print "program", "crates", part[4]
    next
}

FNR == 1 {
    n = split(FILENAME, part, "/")
    place = FILENAME
    if (FILENAME ~ /\.antt$/) { place = part[2] "/" part[3] "/" part[4]; sub(/\.antt$/, "", place) }
    if (FILENAME ~ /\.rt$/) place = part[2]
    type = ""
    cases = 0
}

# Definitions, and below a record or data its fields or constructors: RECORD.FIELD too.
FILENAME ~ /\.antt$/ {
    if ($0 ~ /^ *(--|use |module |unfolding |}|$)/) { if ($0 ~ /^$/) type = ""; next }
    indented = $0 ~ /^ /
    opens = 0
    while ($1 ~ /^(abbrev|unfoldable|pub|data|record)$/) { if ($1 ~ /^(data|record)$/) opens = 1; sub(/^ *[a-z]+ /, "") }
    if (!indented) type = opens ? $1 : ""
    if (!indented || !type) { name($1); next }
    for (i = 1; i <= NF && $i != ":"; i++) { name($i); name(type "." $i) }
    next
}

# Functions, constants, types, an enum's cases; inside an impl or enum TYPE::NAME too.
FILENAME ~ /\.r[ts]$/ {
    if ($0 ~ /^impl /) { type = $2; sub(/[^A-Za-z_].*/, "", type); name(type) }
    if ($0 ~ /^(pub )?enum /) { type = $0; sub(/.*enum /, "", type); sub(/[^A-Za-z_].*/, "", type); cases = 1 }
    if ($0 ~ /^}/) { type = ""; cases = 0 }
    if (cases && $0 ~ /^    [A-Z]/) { sub(/[^A-Za-z].*/, "", $1); name($1); name(type "::" $1) }
    line = $0
    sub(/^ *(pub(\([a-z]+\))? )?(const |unsafe |extern "C" )*/, "", line)
    if ($0 ~ /(^| )const [A-Z_]+:/) { line = $0; sub(/^.*const /, "const ", line) }
    if (line !~ /^(fn|const|struct|enum|type|mod) /) next
    split(line, word, /[^A-Za-z0-9_]+/)
    name(word[2])
    if (type) name(type "::" word[2])
    next
}

# Every word of a header's code.
/^( \*|\/\*)/ { next }
{
    n = split($0, word, /[^A-Za-z0-9_]+/)
    for (i = 1; i <= n; i++) if (word[i] ~ /^[A-Za-z_]/) name(word[i])
}
