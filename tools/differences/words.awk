# awk -f ../refusals/elements.awk -f words.awk texts.tsv - <LINES
# Under each line of the program differences a sentence, two blanks before it. ONE and TWO in the environment are the tables in hex, for
# the kinds of elements and the texts of strings; where one is empty, an element is called so. What differs the lines say alone.

BEGIN {
    FS = "\t"
    split("power supply,computer case,water cooling device", devices, ",")
    split("red,green,yellow,blue,orange", lamp_colours, ",")
    split("good status,a warning,a failure,attention", purposes, ",")
    split("I2C,SMBus byte mode,SMBus block mode,SPI", buses, ",")
    split("a Maxim MAX7313,an NXP PCA9633,an NXP PCA9634", chips, ",")
    side[1] = ENVIRON["ONE"]
    side[2] = ENVIRON["TWO"]
}

NR == FNR {
    if ($0 ~ /^#/) next
    count = split($1, of, " ")
    for (i = 1; i <= count; i++) {
        form[of[i], $2] = $3
        text[of[i], $2] = $4
    }
    next
}

{ print }

$1 == "D" { print "  " sentence() }

function sentence(    which) {
    if ($4 == "kind") return of_kinds()
    T = side[1]
    which = $2 == 0 ? "00" : T == "" ? any_kind() : hex($2)
    if (!((which, $4) in text)) return "the field '" $4 "' of " element() " was " $5 " and is now " $6
    return fill(text[which, $4], form[which, $4])
}

# Where the kind is not known, one that has the field and tells it as all others do; else none.
function any_kind() { return ("03", $4) in text && ("09", $4) in text ? "03" : "" }

function fill(words, how) {
    words = put(words, "{it}", element())
    words = put(words, "{moved}", moved($5, $6))
    words = put(words, "{zone}", of_zone())
    words = put(words, "{string}", of_string())
    words = put(words, "{parts}", parts(told(how, $5), told(how, $6)))
    words = put(words, "{1}", told(how, $5, 1))
    return put(words, "{2}", told(how, $6, 2))
}

function put(words, name, what,    i) {
    i = index(words, name)
    return i == 0 ? words : substr(words, 1, i - 1) what substr(words, i + length(name))
}

# The element of the line, by its offset in the first table, and in the second where that is another.
function element() {
    T = side[1]
    return "the " (T == "" ? "element" : kind($2)) " at byte " $2 ($2 == $3 ? "" : " (byte " $3 " of the second table)")
}

# A pin that is used has a name that starts with P.
function moved(one, two) {
    if (one == "-") return "was unused and is now " two
    return two == "-" ? "was " one " and is now unused" : "moved from " one " to " two
}

function told(how, what, of) {
    if (how == "device") return devices[what]
    if (how == "name") return of_name(what, of)
    if (how == "supply") return what == 1 ? "a supply of its own" : "USB"
    if (how == "units") return what " power units (" 4 * what " mA)"
    if (how == "position") return what == 255 ? "255 cm (unknown where all three axes say so)" : what " cm"
    if (how == "bus") return buses[what + 1]
    if (how == "address") return what ~ /^P/ ? "the chip select " what : sprintf("the bus address %d (%02Xh)", what, what)
    if (how == "degrees") return what " degrees"
    if (how == "pulses") return what " pulse" (what == 1 ? "" : "s")
    if (how == "rpm") return what " RPM"
    if (how == "clocks") return what " of 255 clocks"
    if (how == "colour") return what == 0 ? "of no colour" : what in lamp_colours ? lamp_colours[what] : "of the reserved colour " what
    if (how == "purpose") return what == 0 ? "nothing" : what in purposes ? purposes[what] : "the reserved purpose " what
    if (how == "volts") return sprintf("%d.%d V", int(what / 10), what % 10)
    if (how == "amps") return sprintf("%d.%d A", int(what / 10), what % 10)
    if (how == "chip") return chips[what]
    if (how == "blocks") return blocks(what) " of " bytes(length(what) / 2)
    if (how == "pairs") return bytes(length(what) / 2)
    return what
}

function parts(one, two) { return one == two ? one ", as before" : one " before, " two " now" }

function bytes(n) { return n " byte" (n == 1 ? "" : "s") }

# How many speed blocks a part has.
function blocks(part,    n, i) {
    T = part
    for (i = 0; i < length(part) / 2; i += 2 + 4 * byte(i + 1)) n++
    return n (n == 1 ? " block" : " blocks")
}

function of_name(number, of,    p) {
    if (number == 0) return "no string"
    T = side[of]
    for (p = 16; p < length(T) / 2 && !(byte(p) == 12 && byte(p + 3) == number); p += word(p + 1)) if (word(p + 1) < 3) break
    return "string " number (p < length(T) / 2 && byte(p) == 12 ? quoted(substr(T, 2 * p + 13, 2 * word(p + 1) - 12)) : "")
}

# A text in hex as it reads, where it has nothing but plain letters, digits and signs: low byte first, high byte 0.
function quoted(part,    out, c, i) {
    T = part
    for (i = 0; i < length(part) / 2; i += 2) {
        c = byte(i)
        if (byte(i + 1) != 0 || c < 32 || c > 126) return ""
        out = out sprintf("%c", c)
    }
    return " '" out "'"
}

# The number, string, byte 5 and curve of a zone descriptor.
function of_zone(    list, i) {
    if (substr($5, 1, 2) != substr($6, 1, 2)) list = add(list, "declared zone " number_of($5) " and now declares zone " number_of($6))
    if (substr($5, 3, 2) != substr($6, 3, 2)) {
        list = add(list, "had " of_name(string_of($5), 1) " for its name and now has " of_name(string_of($6), 2))
    }
    if (substr($5, 5, 2) != substr($6, 5, 2)) {
        list = add(list, "had " substr($5, 5, 2) "h in byte 5 (SAVE, ATHERM) and now has " substr($6, 5, 2) "h")
    }
    for (i = 0; i < 6; i++) {
        if (substr($5, 7 + 8 * i, 8) == substr($6, 7 + 8 * i, 8)) continue
        list = add(list, "had " step($5, i) " in step " i " of its curve and now has " step($6, i))
    }
    return list
}

# TEMPERATURE and FAN SPEED of a step of the curve.
function step(part, i) {
    T = part
    return "speed " word(5 + 4 * i) " from temperature " word(3 + 4 * i)
}

# The number, language and text of a string.
function of_string(    list) {
    if (substr($5, 1, 2) != substr($6, 1, 2)) list = add(list, "had number " number_of($5) " and now has number " number_of($6))
    if (substr($5, 3, 4) != substr($6, 3, 4)) list = add(list, "is in another language")
    if (substr($5, 7) != substr($6, 7)) list = add(list, "has another text: it was" text_of($5) " and is now" text_of($6))
    return list
}

function number_of(part) { T = part; return byte(0) }

function string_of(part) { T = part; return byte(1) }

function text_of(part,    read) {
    read = quoted(substr(part, 7))
    return read != "" ? read : " " bytes(length(part) / 2 - 3) " of UTF-16"
}

function add(list, more) { return list (list == "" ? "" : "; it ") more }

# Two kinds, or one without a partner.
function of_kinds(    where) {
    if ($2 == "-") return "the second table has one more element, " named_kind($6) " at byte " $3
    if ($3 == "-") return "the first table has one more element, " named_kind($5) " at byte " $2
    where = $2 == $3 ? "" : ", at byte " $3 " of the second table"
    return "where " named_kind($5) " was, at byte " $2 ", " named_kind($6) " is now" where
}

function named_kind(id,    name) {
    T = id
    name = kind(0)
    return (name ~ /^[aeR]/ ? "an " : "a ") name
}
