# From objdump -dr of the archive: each call's stack by its instructions, "NAME BYTES", or "recursion NAME" and exit code 1.
# A function takes its return address, the registers that it pushes and what it subtracts from rsp, and then its deepest
# callee, or, calling nobody, the 128 bytes below rsp that the platform grants it, if it uses any of them. memset and memcpy
# count with their return address. The waits' last four arguments are the caller's 32 bytes. A frame of many pages is taken in a
# loop, page by page until rsp is r11: its one subtraction counts as all that r11 was set below rsp.
/^[0-9a-f]+ <.*>:$/ { name = $0; sub(/^[0-9a-f]+ </, "", name); sub(/>:$/, "", name); known[name] = 1; next }
/\tpush / { frame[name] += 8 }
/\tmov +%rsp,%r11/ { bound = NR + 1 }
/\tsub +\$0x[0-9a-f]+,%r11/ && NR == bound { looped = immediate($0) }
/\tsub +\$0x[0-9a-f]+,%rsp/ { frame[name] += looped ? looped : immediate($0); looped = 0 }
/\tcall +\*|\tand .*,%rsp|\tsub +%.*,%rsp/ { print "a stack that the instructions do not tell: " name; failed = 1; exit }
/-0x[0-9a-f]+\(%rsp/ { below[name] = 128 }
# A call within a section has no relocation behind it; its target stands in the instruction.
pending != "" && !/R_X86_64_/ { callees[name] = callees[name] " " pending }
{ pending = "" }
/\tcall +[0-9a-f]+ </ { pending = $0; sub(/.*</, "", pending); sub(/[+>].*/, "", pending) }
/R_X86_64_PLT32/ { to = $3; sub(/-0x4$/, "", to); sub(/^\.text\./, "", to); callees[name] = callees[name] " " to }

function immediate(line,    digits, i, n) {
    digits = line
    sub(/.*\$0x/, "", digits)
    sub(/,%r.*/, "", digits)
    for (i = 1; i <= length(digits); i++)
        n = 16 * n + index("0123456789abcdef", substr(digits, i, 1)) - 1
    return n
}

function depth(f,    list, n, i, deepest) {
    if (f == "memset" || f == "memcpy")
        return 8
    if (!(f in known) || inside[f]) {
        print (inside[f] ? "recursion " : "unknown callee ") f
        failed = 1
        return 0
    }
    inside[f] = 1
    n = split(callees[f], list, " ")
    deepest = n == 0 ? below[f] : 0
    for (i = 1; i <= n && !failed; i++)
        if (depth(list[i]) > deepest)
            deepest = depth(list[i])
    inside[f] = 0
    return 8 + frame[f] + deepest
}

END {
    if (!failed)
        for (f in known)
            if (f ~ /^ntsync_[a-z_]*$/)
                print f, depth(f) + (f ~ /^ntsync_wait/ ? 32 : 0)
    exit failed
}
