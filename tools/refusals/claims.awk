# Who claims which pin, in the order of the claims: so that a sentence for 15 names both sides of the first clash.

# Sorts of claim: alone, shared, select. Two shared claims do not clash, nor do two chip selects.
function claim(role, sort, pin, owner, p) {
    if (clash != "") return
    if (!(pin in holder)) {
        holder[pin] = owner
        held_role[pin] = role
        held_sort[pin] = sort
        return
    }
    if (sort == held_sort[pin] && sort != "alone") return
    clash = pin
    clash_place = p
    V["pin"] = pin_name(pin)
    V["claimant"] = (p == 0 ? "" : "the ") role owner
    V["holder"] = (held_role[pin] ~ /^hardware/ ? "" : "the ") held_role[pin] holder[pin]
    V["shared"] = sort == "shared" ? role : held_sort[pin] == "shared" ? held_role[pin] : ""
}

function claim_shared(p, owner,    id, bus) {
    id = byte(p)
    bus = low(p + 8)
    if (on_bus(id) && bus < 3) {
        claim("SDA pin", "shared", 3, owner, p)
        claim("SCL pin", "shared", 4, owner, p)
    }
    if (on_bus(id) && bus == 3) {
        claim("SCK pin", "shared", 0, owner, p)
        claim("MISO pin", "shared", 1, owner, p)
        claim("MOSI pin", "shared", 2, owner, p)
    }
    if (id == 2 || id == 5 || id == 7 || id == 8) claim("reference voltage pin", "shared", 7, owner, p)
}

function claim_own(p, owner,    i, b) {
    find_own(p)
    for (i = 1; i <= own_count; i++) {
        b = byte(own_at[i])
        if (b != 255) claim(own_role[i], own_use[i] == "select" ? "select" : "alone", b, owner, p)
    }
}

# The first clash: its pin in clash, its place in clash_place.
function find_clash(size,    p, i, owner) {
    split("", holder)
    clash = ""
    clash_place = -1
    claim("fault LED", "alone", 16, "", 0)
    for (i = 0; i < 3; i++)
        if (byte(9 + i) != 255) claim("hardware revision pin " i " (byte " 9 + i ")", "alone", byte(9 + i), "", 0)
    for (p = 16; p + 2 < size && clash == "" && word(p + 1) > 2; p += word(p + 1)) {
        owner = " of the " named(p)
        claim_shared(p, owner)
        claim_own(p, owner)
    }
}
