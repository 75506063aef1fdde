# awk -v chip=320|321 -f elements.awk -f claims.awk -f naming.awk -f sentences.awk texts.tsv - <LINES
# Turns the lines of the program verdicts into sentences: word, then text, parted by a tab, where the word is ok, R or X. A
# refusal's text is 'NUMBER at PLACE: SENTENCE'. The words of the sentences stand in texts.tsv.

BEGIN { FS = "\t" }

NR == FNR {
    if ($0 !~ /^#/) texts[$1 " " $2] = $3
    next
}

$2 == "ok" { print "ok\tok, " $3 ($3 == 1 ? " element" : " elements") }

$2 == "X" { print "X\t" }

$2 == "R" {
    number = $3
    place = $4 + 0
    size = $5 + 0
    T = $6
    split("", V)
    print "R\t" number " at " place ": " sentence()
}

# The text of a case, its braces filled from V. A brace without a value is a fault of ours and ends the run.
function fill(text,    out, i, j, name) {
    while ((i = index(text, "{")) > 0) {
        j = index(text, "}")
        name = substr(text, i + 1, j - i - 1)
        if (!(name in V)) {
            print "sentences.awk: no value for {" name "} of " number > "/dev/stderr"
            exit 3
        }
        out = out substr(text, 1, i - 1) V[name]
        text = substr(text, j + 1)
    }
    return out text
}

function say(which) {
    if (!((number " " which) in texts)) {
        print "sentences.awk: no text for " number " " which > "/dev/stderr"
        exit 3
    }
    return fill(texts[number " " which])
}

function at(i) {
    V["at"] = i
    V["at+1"] = i + 1
}

function sentence() {
    V["size"] = size
    if (number <= 5) return of_start()
    V["place"] = place
    V["place+1"] = place + 1
    V["place+2"] = place + 2
    V["left"] = size - place
    if (number == 6) return of_header()
    if (place >= 16) {
        V["kind"] = kind(place)
        V["thing"] = thing(place)
        V["id"] = hex(place)
        V["length"] = word(place + 1)
    }
    if (number == 7) return say("unknown")
    if (number == 8) return of_length()
    if (number == 9) return of_codes()
    if (number == 10) return place == 0 ? of_revision_pins() : of_pins()
    if (number <= 12) return of_numbers()
    if (number <= 14) return of_names()
    if (number == 22) return of_naming()
    return number == 23 ? of_retired() : of_claims()
}

# 1 to 5
function of_start() {
    if (number == 1) return say(size == 0 ? "empty" : "short")
    V["first"] = hex(0)
    V["stated"] = word(1)
    V["device"] = byte(3)
    V["units"] = byte(8) % 128
    V["milliamps"] = 4 * V["units"]
    if (number == 2) return say(hex(0) == "10" ? "revision" : hex(0) == "3A" ? "text" : "other")
    if (number == 3) return of_table_length()
    return say(number == 4 ? "device" : "power")
}

# 3. What stands behind the length that the table says can be cut off, where a table can have that length.
function of_table_length() {
    if (V["stated"] < 16 || V["stated"] > 4096 || V["stated"] >= size) return say(size > 4096 ? "long" : "differs")
    return say(size > 4096 ? "padded" : "longer")
}

# 6
function of_header() {
    if (V["left"] < 3) return say("left")
    V["kind"] = kind(place)
    V["length"] = word(place + 1)
    return say(V["length"] < 3 ? "short" : "past")
}

# 8. The blocks of a controller are many where more than six of them fill it.
function of_length(    id, p, end, n) {
    id = byte(place)
    V["wanted"] = lengths[id]
    if (V["wanted"] > 0) return say("fixed")
    if (id == 12) return say("string")
    if (id == 10 || id == 13) return say("pairs")
    if (id != 9) return say("other")
    if (V["length"] < 13) return say("blockless")
    end = place + V["length"]
    for (p = place + 11; p + 1 < end; p += 2 + 4 * byte(p + 1)) n++
    return say(p == end && n > 6 ? "many" : "blocks")
}

# 9
function of_codes(    id) {
    id = byte(place)
    at(place + 8)
    V["code"] = low(place + 8)
    if (on_bus(id) && low(place + 8) > 3) return say("bus")
    if (id == 2 && low(place + 8) != 1) return say("thermal")
    if (id == 2) return of_calibration()
    if (driven(id)) return of_pulses()
    if (id == 4) return of_lamps()
    if (id == 5) return of_levels()
    if (id == 9) return of_entries()
    if (id == 13) return of_identifier()
    if (id != 12) return say("other")
    at(place + 3)
    return byte(place + 3) == 0 ? say("string") : of_text()
}

# The first unit of a text that is not well-formed, which stands low byte first from byte 6 of the string on; or half a unit.
function of_text(    p, end) {
    end = place + V["length"]
    for (p = place + 6; p + 1 < end; p += 2) {
        at(p)
        V["unit"] = hex(p + 1) hex(p)
        if (is_low(p)) return say("low")
        if (!is_high(p)) continue
        if (p + 3 >= end || !is_low(p + 2)) return say("high")
        p += 2
    }
    at(p)
    V["bytes"] = end - place - 6
    return say(p < end ? "odd" : "other")
}

function is_high(p) { return byte(p + 1) >= 216 && byte(p + 1) < 220 }

function is_low(p) { return byte(p + 1) >= 220 && byte(p + 1) < 224 }

function of_calibration(    p) {
    for (p = place + 10; p < place + 18 && word(p) < 1024; p += 2) continue
    at(p)
    V["code"] = word(p)
    return say(V["code"] > 1023 ? "count" : "other")
}

function of_levels(    i) {
    for (i = 1; i < 3 && word(place + 7 + 2 * i) < 1024; i++) continue
    at(place + 7 + 2 * i)
    V["role"] = levels[i]
    V["code"] = word(V["at"])
    return say(V["code"] > 1023 ? "level" : "other")
}

function of_identifier() {
    at(place + 11)
    V["byte"] = hex(place + 11)
    return say("identifier")
}

function of_pulses() {
    at(place + 10)
    V["before"] = place + 9
    V["code"] = byte(place + 10)
    return say("tachometer")
}

function of_lamps(    i, p) {
    for (i = 1; i <= 3; i++) {
        p = place + 7 + 2 * i
        at(p)
        V["role"] = ordinals[i] " lamp"
        if (byte(p - 1) == 255) continue
        V["code"] = high(p)
        if (high(p) < 1 || high(p) > 5) return say("colour")
        V["code"] = low(p)
        if (low(p) > 4) return say("purpose")
    }
    return say("other")
}

function of_entries(    p, n) {
    for (p = place + 11; p < place + V["length"]; p += 2 + 4 * byte(p + 1)) {
        V["block"] = ++n
        at(p + 1)
        if (byte(p + 1) == 0) return say("entries")
    }
    return say("other")
}

# 23
function of_retired() {
    at(place + 8)
    return say("block-mode")
}

# 10
function of_revision_pins(    i) {
    for (i = 0; i < 2 && (byte(9 + i) == 255 || exists(byte(9 + i)) && !lacking(byte(9 + i))); i++) continue
    V["number"] = i
    V["byte"] = hex(9 + i)
    V["pin"] = pin_name(byte(9 + i))
    V["pins"] = all_pins
    at(9 + i)
    return say(lacking(byte(9 + i)) ? "revision-chip" : "revision")
}

function of_pins(    i, b) {
    find_own(place)
    for (i = 1; i <= own_count; i++) {
        b = byte(own_at[i])
        V["role"] = own_role[i]
        V["byte"] = hex(own_at[i])
        V["pin"] = pin_name(b)
        V["allowed"] = allowed[own_use[i]]
        V["otherwise"] = permitted(own_use[i], b) ? ", or name the C8051F320 (--chip 320) if the board carries that" : ""
        at(own_at[i])
        if (b == 255 && own_lacks[i]) continue
        if (b == 255) return say("unused")
        if (!exists(b)) return of_pin("absent", i)
        if (lacking(b)) return of_pin("chip", i)
        if (!permitted(own_use[i], b)) return of_pin("barred", i)
    }
    return of_order()
}

# A tachometer is told of the PWM pin before it and of FFh; its text is a case of its own.
function of_pin(which, i) {
    if (own_use[i] != "tachometer") return say(which)
    V["other"] = pin_name(byte(own_at[i - 1]))
    return say(which "-tachometer")
}

function of_order(    i) {
    for (i = 2; i <= own_count; i++) {
        if (!in_order(own_use[i]) || byte(own_at[i]) == 255 || rank(byte(own_at[i])) > rank(byte(own_at[i - 1]))) continue
        V["role"] = own_role[i]
        V["pin"] = pin_name(byte(own_at[i]))
        V["earlier"] = own_role[i - 1]
        V["other"] = pin_name(byte(own_at[i - 1]))
        at(own_at[i])
        return of_pin("order", i)
    }
    return of_list()
}

# The fan list through the whole table: the first pin of the element, and the last one that was used before it.
function of_list(    p, i, role, pin, owner) {
    for (p = 16; p < place; p += word(p + 1)) {
        find_own(p)
        for (i = 1; i <= own_count; i++) {
            if (!in_order(own_use[i]) || byte(own_at[i]) == 255) continue
            role = own_role[i]
            pin = byte(own_at[i])
            owner = p
        }
    }
    find_own(place)
    if (owner == "" || own_count == 0 || !in_order(own_use[1]) || rank(byte(own_at[1])) > rank(pin)) return say("other")
    V["role"] = own_role[1]
    V["pin"] = pin_name(byte(own_at[1]))
    V["earlier"] = role " of the " named(owner)
    V["other"] = pin_name(pin)
    return say("list")
}

# 11 and 12: what stands before the element.
function of_numbers(    p, n) {
    V["number"] = byte(place + 3)
    at(place + 3)
    for (p = 16; p < place; p += word(p + 1)) {
        n++
        if (number == 12 && byte(p) == byte(place) && byte(p + 3) == byte(place + 3)) break
    }
    V["earlier"] = p
    if (number == 11) return say(n == 96 ? "elements" : "zones")
    return say(byte(place) == 12 ? "string" : "zone")
}

# 13 and 14: what the description or the element names.
function of_names(    i) {
    i = place == 0 ? 4 : number == 13 ? place + 7 : byte(place) == 11 ? place + 4 : place + 3
    V["number"] = byte(i)
    at(i)
    if (number == 13) return say("zone")
    return say(place == 0 ? "table" : "string")
}

# 15. The sentence names the clash that is found only where its place is the answer's.
function of_claims() {
    find_clash(size)
    if (clash_place != place) return say(place == 0 ? "table" : "other")
    if (clash == 16) return say("fault")
    return say(V["shared"] == "" ? "claimed" : "shared")
}
