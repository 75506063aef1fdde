# crates/esa_c/src/lib.rt -> C that compiles only where include/esa.h declares every call of the library, with its own types.
BEGIN {
    type["&[u8]"] = "const uint8_t *, size_t"
    type["&mut [u8]"] = "uint8_t *, size_t"
    type["u8"] = "uint8_t"
    type["u64"] = "uint64_t"
    type["usize"] = "size_t"
    of_c["u8"] = "uint8_t"
    of_c["u16"] = "uint16_t"
    of_c["u32"] = "uint32_t"
    of_c["u64"] = "uint64_t"
    of_c["usize"] = "size_t"
    of_c["bool"] = "bool"
    print "#include \"esa.h\""
}

function c_type(of) {
    if (of in type) return type[of]
    if (of ~ /^&(mut )?\[(u8|u16|u32|u64|usize|bool); [0-9]+\]$/) return array(of)
    print "examples/prototypes.awk: no type of C for '" of "'" > "/dev/stderr"
    exit 1
}

# An array is a pointer. Its size is one that the header names, or, of the parts of a receiver or a trace, that of the header's struct.
function array(of,    size, kind) {
    size = of
    sub(/.*; /, "", size)
    sub(/\]/, "", size)
    kind = of
    sub(/.*\[/, "", kind)
    sub(/;.*/, "", kind)
    if (kind == "u8" && size != 30) return sized(of, kind, size, "NUMBERS LISTING SHEET_TEXT DIFF TRACE_TEXT SALVAGE_LINES")
    if (kind == "u64") return part(of, kind, size, "trace", "numbers")
    if (kind == "u32") return part(of, kind, size, "trace", "tallies")
    if (kind == "u16" && size == 576) return part(of, kind, size, "trace", "sensors")
    if (kind == "u16" && size != 256) return sized(of, kind, size, "SHEET")
    return part(of, kind, size, "receiving", kind == "u8" ? "element" : kind == "u16" ? "zone_places" : kind == "bool" ? "zones" : "numbers")
}

function sized(of, kind, size, names,    i, sizes, test) {
    split(names, sizes, " ")
    for (i = 1; i in sizes; i++) test = test (i == 1 ? "" : " || ") size " == ESA_" sizes[i]
    if (!named[kind, size]++) print "typedef char of_" kind "_" size "[" test " ? 1 : -1];"
    return (of ~ /mut/ ? "" : "const ") of_c[kind] " *"
}

function part(of, kind, size, of_struct, member) {
    if (!named[of_struct, member]++)
        print "typedef char " of_struct "_" member "[sizeof(((struct esa_" of_struct " *)0)->" member ") == " size " * sizeof(" of_c[kind] ") ? 1 : -1];"
    return (of ~ /mut/ ? "" : "const ") of_c[kind] " *"
}

# NAME(PARAMETER: TYPE, ..) -> TYPE
function prototype(words,    name, count, given, i, types) {
    name = substr(words, 1, index(words, "(") - 1)
    count = split(substr(words, length(name) + 2, index(words, ")") - length(name) - 2), given, /, */)
    for (i = 1; i <= count; i++) {
        if (given[i] == "") continue
        sub(/^ *[a-z_]+: */, "", given[i])
        types = types (i > 1 ? ", " : "") c_type(given[i])
    }
    sub(/.*-> */, "", words)
    sub(/ *$/, "", words)
    printf "extern %s (*const as_%s)(%s);\n%s (*const as_%s)(%s) = %s;\n", c_type(words), name, types, c_type(words), name, types, name
}

sub(/^pub extern "C" fn /, "") { inside = 1; words = "" }
inside { sub(/^ +/, ""); words = words $0 (/,$/ ? " " : "") }
inside && /->/ { prototype(words); inside = 0; calls++ }
END { if (!calls) print "#error no calls were found" }
