# A pin sheet as a picture (SVG) to take to the bench: the chip with its pins in groups by port, and beside each pin who claims it.
# Read with tools/refusals/elements.awk before it, which has the kinds' names, in the C locale: a character is a byte.
# Input, fields parted by tabs: the lines of the sheet (pin, place) and of the listing (T, E), a line N, place, name for each
# element that has a name, and one F, name of the file. Where a pin stands on the package is not in the specification.

BEGIN {
    FS = "\t"
    split("SCK,MISO,MOSI,SDA,SCL", bus_pins, ",")
    for (i = 1; i <= 5; i++) shared["P0." i - 1] = bus_pins[i] " of the bus"
    shared["P0.7"] = "reference voltage"
    # Of each use: its letter in the picture, its colour, its words.
    uses = split("free,fan,sensor,bus,led,revision,fault", use_names, ",")
    split(",F,S,B,D,H,L", letters, ",")
    split("#ffffff,#9cc9f0,#a8dba8,#d9c2ec,#ffe28a,#d0d0d0,#f4a3a3", colour_of, ",")
    split("free,fan or pump,sensor,bus,LED,hardware revision,fault LED", words, ",")
    for (i = 1; i <= uses; i++) number_of[use_names[i]] = i
    split("bus,sensor,fan,led,sensor,fan,sensor,sensor,bus,bus,free,free,bus,led", use_of_kind, ",")
    # The bytes that go on with a character of UTF-8, and the two characters of three bytes that XML does not have.
    for (i = 128; i < 192; i++) going_on = going_on sprintf("%c", i)
    no_character = sprintf("%c%c[%c%c]", 239, 191, 190, 191)
    replacement = sprintf("%c%c%c", 239, 191, 189)
    ellipsis = sprintf("%c%c%c", 226, 128, 166)
    row_height = 36
    top = 104
    gap = 24
    most = 340
}

$1 ~ /^P[0-3]\.[0-7]$/ { pins++; pin[pins] = $1; place[$1] = $2; if ($2 == "-") free++ }
$1 == "T" { bytes = $3; serial = $6; for (i = 0; i < 3; i++) if ($(8 + i) != "-") revision[$(8 + i)] = i }
$1 == "E" { elements++; kind_at[$2] = index("123456789ABCDEF", substr($3, 2)); own_at_place[$2] = $5 }
$1 == "N" { name_at[$2] = clean(substr($0, length($2) + 4)) }
$1 == "F" { file = clean(substr($0, 3)) }
END { if (pins && bytes) picture(); else exit 1 }

# Without blanks at its ends, and with no character that XML does not have.
function clean(text) {
    gsub(no_character, replacement, text)
    sub(/^ +/, "", text)
    sub(/ +$/, "", text)
    return text
}

function xml(text) {
    gsub(/&/, "\\&amp;", text)
    gsub(/</, "\\&lt;", text)
    gsub(/>/, "\\&gt;", text)
    return text
}

# Does byte i of a text go on with the character before it?
function goes_on(text, i) { return i <= length(text) && index(going_on, substr(text, i, 1)) > 0 }

# How wide the character at i is drawn, about, in the size and weight of the names. One of three bytes or four may be wide.
function width(text, i,    c) {
    c = substr(text, i, 1)
    if (goes_on(text, i)) return 0
    if (goes_on(text, i + 1) && goes_on(text, i + 2)) return 17
    if (index(" ijltfrI.,:;'!|()[]-", c)) return 7
    return index("WMmw@%&", c) ? 16 : index("ABCDEFGHJKLNOPQRSTUVXYZ<>=+~#", c) ? 13 : 11
}

# As much of a text as there is room for.
function fitted(text, room,    i, used, cut) {
    for (i = 1; i <= length(text); i++) {
        if (!goes_on(text, i) && used <= room - 16) cut = i
        used += width(text, i)
        if (used > room) return substr(text, 1, cut - 1) ellipsis
    }
    return text
}

function use(p) {
    if (p == "-") return "free"
    if (p == "L") return "fault"
    return p == "0" ? "revision" : use_of_kind[kind_at[p]]
}

# What the pin is to the element at p.
function role(name, p,    id, count, list, i) {
    id = kind_at[p]
    count = split(own_at_place[p], list, ",")
    for (i = 1; i <= count; i++) if (list[i] == name) break
    if (i > count) return shared[name]
    if (driven(id)) return i == 1 ? "PWM" : "tachometer"
    if (id == 14) return colours[i]
    return on_bus(id) ? "chip select" : id == 4 ? "lamp" : "input"
}

# What a free pin may be used for, besides a hardware revision pin.
function open_to(name) {
    if (name == "P0.7") return "for a reference voltage"
    if (name < "P0.5") return "for a bus or a status LED"
    if (name < "P1.4") return "for a fan, a pump, an RGB LED or a chip select"
    return "for an analogue sensor, a status LED or a chip select"
}

# The two lines beside a pin: first and second.
function say(name, p,    called) {
    if (p == "-") { first = "free"; second = open_to(name) }
    else if (p == "L") { first = "fault LED"; second = "on every board" }
    else if (p == "0") { first = "hardware revision " revision[name]; second = "description, byte 0" }
    else {
        called = kind_names[kind_at[p]]
        first = name_at[p] == "" ? called : name_at[p]
        second = (name_at[p] == "" ? "" : called ": ") role(name, p) ", byte " p
    }
}

function write(x, y, size, more, text) {
    printf "<text x=\"%d\" y=\"%d\" font-size=\"%d\"%s>%s</text>\n", x, y, size, more, xml(text)
}

# The field with the letter of a use.
function field(x, y, which,    i) {
    i = number_of[which]
    printf "<rect x=\"%d\" y=\"%d\" width=\"46\" height=\"26\" rx=\"3\" fill=\"%s\" stroke=\"#000000\"%s/>\n", x, y, colour_of[i], \
        (which == "free" ? " stroke-dasharray=\"4 3\"" : " stroke-width=\"1.5\"")
    if (letters[i] != "") write(x + 23, y + 19, 16, " font-weight=\"bold\" text-anchor=\"middle\"", letters[i])
}

# P0 and P1 stand on the left of the chip, P2 and P3 on the right.
function draw(name,    port, y, left, side, dim) {
    port = substr(name, 2, 1)
    y = top + row_height * (substr(name, 4) + 8 * (port % 2)) + gap * (port % 2)
    left = port < 2
    side = left ? " text-anchor=\"end\"" : ""
    say(name, place[name])
    printf "<g id=\"%s\" class=\"%s\" data-place=\"%s\">\n", name, use(place[name]), place[name]
    printf "<title>%s</title>\n", xml(name ": " first ", " second)
    field(left ? 374 : 620, y, use(place[name]))
    write(left ? 430 : 610, y + 18, 14, " font-weight=\"bold\"" (left ? "" : " text-anchor=\"end\""), name)
    dim = place[name] == "-" ? " fill=\"#444444\"" : " font-weight=\"bold\""
    write(left ? 364 : 676, y + 11, 15, side dim, fitted(first, most))
    write(left ? 364 : 676, y + 25, 11, side " fill=\"#444444\"", second)
    print "</g>"
}

function legend(x, y,    i) {
    write(x, y, 13, " font-weight=\"bold\"", "What is on a pin")
    for (i = 2; i <= uses + 1; i++) {
        field(x, y + 10 + 29 * (i - 2), use_names[i > uses ? 1 : i])
        write(x + 58, y + 28 + 29 * (i - 2), 13, "", words[i > uses ? 1 : i])
    }
}

function picture(    i, bottom, chip_name) {
    chip_name = "C8051F" chip
    bottom = top + 16 * row_height + gap
    print "<?xml version=\"1.0\" encoding=\"UTF-8\"?>"
    print "<svg xmlns=\"http://www.w3.org/2000/svg\" viewBox=\"0 0 1040 800\" width=\"247mm\" height=\"190mm\"" \
        " font-family=\"DejaVu Sans, Verdana, Arial, sans-serif\">"
    printf "<title>%s</title>\n", xml("Pins of " file " on the " chip_name)
    print "<rect width=\"1040\" height=\"800\" fill=\"#ffffff\"/>"
    write(30, 44, 22, " font-weight=\"bold\"", "Pins of " fitted(file, 380) " on the " chip_name)
    write(30, 70, 13, "", free + 0 " of " pins " pins are free. The table: " bytes " bytes, " elements + 0 \
        (elements == 1 ? " element" : " elements") ", serial number " serial ".")
    printf "<rect x=\"420\" y=\"%d\" width=\"200\" height=\"%d\" rx=\"10\" fill=\"#f2f2f2\" stroke=\"#000000\" stroke-width=\"2\"/>\n", \
        top - 14, bottom - top + 20
    printf "<text transform=\"translate(529 %d) rotate(-90)\" font-size=\"26\" text-anchor=\"middle\">%s</text>\n", \
        (top + bottom) / 2, chip_name
    for (i = 1; i <= pins; i++) draw(pin[i])
    if (pins == 21) write(676, top + 6 * row_height, 11, " fill=\"#444444\"", "P2.4 to P2.7 are not on this chip")
    legend(676, top + 10 * row_height + gap)
    write(30, 756, 11, "", "Beside each pin stands the first that claims it: a bus, a reference voltage or a chip select" \
        " may have more users. The pins are drawn port by port;")
    write(30, 772, 11, "", "where each stands on the package is in the chip's data sheet. This sheet speaks only for the" \
        " table that it was made from.")
    print "</svg>"
}
