# From hosts/abi/interface.txt: a C program in which each line misuses one call in one way: its result dropped, one of its
# pointers null, one of its lengths too long for the array. The line's end says by which warning gcc must report it, and
# clang.
BEGIN {
    RS = ";"
    value["tables"] = "t"; value["cells"] = "NTSYNC_CELLS"; value["wake"] = "w"; value["wake_cells"] = "NTSYNC_WAKE_CELLS"
    value["list"] = "l"; value["n"] = "1"; value["buffer"] = "b"; value["text"] = "b"
    value["bytes"] = "NTSYNC_SNAPSHOT_BYTES"
    long["cells"] = "sizeof t"; long["wake_cells"] = "sizeof w"; long["n"] = "sizeof l"; long["bytes"] = "sizeof b + 1"
    print "#include \"ntsync.h\"\nstatic uint64_t t[NTSYNC_CELLS], w[NTSYNC_WAKE_CELLS];"
    print "static uint32_t l[1];\nstatic uint8_t b[NTSYNC_SNAPSHOT_BYTES];\nint main(void)\n{"
}

# The call with its own values, but for argument `other`, which is `as`.
function call(other, as,    i, text) {
    for (i = 1; i <= count; i++)
        text = text (i > 1 ? ", " : "") (i == other ? as : (names[i] in value) ? value[names[i]] : "1")
    return name "(" text ")"
}

function kept(other, as, gcc, clang) {
    print "    { " type " r = " call(other, as) "; (void)r; } // " gcc " " clang
}

{ gsub(/\/\*([^*]|\*[^\/])*\*\//, ""); gsub(/[ \n]+/, " ") }

/ntsync_[a-z_]+ *\(/ {
    split($0, half, "(")
    split(half[1], head, " ")
    type = head[1]; name = head[2]
    sub(/\).*/, "", half[2])
    count = half[2] == "void" ? 0 : split(half[2], parameters, ",")
    for (i = 1; i <= count; i++) {
        names[i] = parameters[i]
        constant[i] = names[i] ~ /const /
        sub(/.*[ *]/, "", names[i])
    }
    print "    " call(0) "; // unused-result unused-result"
    for (i = 1; i <= count; i++)
        if (index(parameters[i], "*") > 0) {
            kept(i, "NULL", "nonnull", "nonnull")
            kept(i + 1, long[names[i + 1]], constant[i] ? "stringop-overread" : "stringop-overflow", "user-defined-warnings")
        }
}

END { print "    return 0;\n}" }
