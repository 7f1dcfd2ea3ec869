# C prototypes, one a line with single spaces, to the declarations that hosts/rust/src/ffi.rs must have.
BEGIN {
    rust["uint8_t"] = "u8"; rust["uint32_t"] = "u32"; rust["uint64_t"] = "u64"; rust["size_t"] = "usize"
    rust["ntsync_created"] = "Created"; rust["ntsync_sem_state"] = "SemState"; rust["ntsync_mutex_state"] = "MutexState"
    rust["ntsync_event_state"] = "EventState"; rust["ntsync_changed"] = "Changed"; rust["ntsync_waited"] = "Waited"
    rust["ntsync_written"] = "Written"; rust["ntsync_restored"] = "Restored"
}

# "const uint64_t*tables" is "tables: *const u64".
function parameter(c,    constant, part, pointer) {
    constant = sub(/^const /, "", c)
    pointer = index(c, "*") > 0
    split(c, part, /[ *]/)
    return part[2] ": " (pointer ? (constant ? "*const " : "*mut ") : "") rust[part[1]]
}

{
    split($0, half, "(")
    split(half[1], head, " ")
    sub(/\)$/, "", half[2])
    count = half[2] == "void" ? 0 : split(half[2], given, ",")
    line = "pub fn " head[2] "("
    for (i = 1; i <= count; i++)
        line = line (i > 1 ? ", " : "") parameter(given[i])
    print line ") -> " rust[head[1]] ";"
}
