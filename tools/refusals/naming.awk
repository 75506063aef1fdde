# Who still names a zone or a string, for the sentence of 22: found in the bytes of the table, which is accepted. At most four are
# named; of more the first, and how many more there are.

# The byte in which the element at p names a zone or a string, as the one at place is; 0 where it names none.
function naming_byte(p,    id) {
    id = byte(p)
    if (byte(place) == 11) return id == 11 || id == 12 ? 0 : p + 7
    return id == 12 ? 0 : id == 11 ? p + 4 : p + 3
}

function add_namer(who, what, at) {
    namers++
    namer[namers] = who
    namer_thing[namers] = what
    namer_byte[namers] = at
}

function find_namers(    p, k, i) {
    namers = 0
    if (byte(place) == 12 && byte(4) == byte(place + 3)) add_namer("the description", "", 4)
    for (p = 16; p < size && word(p + 1) > 2; p += word(p + 1)) {
        i = naming_byte(p)
        if (i > 0 && byte(i) == byte(place + 3)) add_namer("the " named(p) " (element " k + 0 ")", thing(p), i)
        k++
    }
}

# A, B and C
function series(list, count,    text, i) {
    for (i = 1; i <= count; i++) text = text (i == 1 ? "" : i < count ? ", " : " and ") list[i]
    return text
}

# 22. The description cannot be taken out.
function of_naming(    one, many) {
    if (byte(place) != 11 && byte(place) != 12) return say("other")
    find_namers()
    if (namers == 0) return say("other")
    one = namers == 1
    many = namers > 4
    V["number"] = byte(place + 3)
    V["names"] = many ? namer[1] " and " namers - 1 " more" : series(namer, namers)
    V["verb"] = one ? "names" : "name"
    V["whom"] = one ? "the " namer_thing[1] : "them"
    V["it"] = one ? "it" : "them"
    V["bytes"] = many ? "the fields that name it" : (one ? "byte " : "bytes ") series(namer_byte, namers)
    if (byte(place) == 11) return say("zone")
    return say(namer_byte[1] == 4 ? "string-described" : "string")
}
