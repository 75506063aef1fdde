# What stands in a table's bytes, read from T, the table in hex: for the sentences of the refusals only. The answers are the
# proved reader's. The variable chip is 320 or 321.

BEGIN {
    names = "digital thermal sensor,analogue thermal sensor,PWM fan,status LED,water level sensor,PWM pump,voltage sensor," \
        "current sensor,external PWM controller,external tachometer,zone descriptor,string,external RGB LED," \
        "RGB LED on the controller"
    split(names, kind_names, ",")
    split("sensor,sensor,fan,LED,sensor,pump,sensor,sensor,controller,tachometer,zone descriptor,string,LED,LED", things, ",")
    split("21,20,16,14,15,16,11,14,0,0,30,0,0,11", lengths, ",")
    split("first,second,third", ordinals, ",")
    split("red,green,blue", colours, ",")
    split("FULL,EMPTY,WARNING", levels, ",")
    upper = chip == 321 ? "P1.4 to P2.3, or P3.0" : "P1.4 to P3.0"
    all_pins = chip == 321 ? "P0.0 to P2.3 and P3.0" : "P0.0 to P2.7 and P3.0"
    allowed["fan"] = "P0.5, P0.6, P1.1, P1.2 or P1.3"
    allowed["analogue"] = "a pin from " upper
    allowed["select"] = "a pin from " upper ", or P0.5, P0.6, P1.1, P1.2 or P1.3"
    allowed["lamp"] = "a pin from P0.0 to P0.4 or " upper
}

function digit(i) { return index("123456789ABCDEF", substr(T, i, 1)) }

function byte(i) { return 16 * digit(2 * i + 1) + digit(2 * i + 2) }

function word(i) { return byte(i) + 256 * byte(i + 1) }

function hex(i) { return substr(T, 2 * i + 1, 2) }

function low(i) { return byte(i) % 16 }

function high(i) { return int(byte(i) / 16) }

function kind(p) { return byte(p) in kind_names ? kind_names[byte(p)] : "element with identifier " hex(p) "h" }

function thing(p) { return byte(p) in things ? things[byte(p)] : "element" }

function named(p) { return kind(p) " at byte " p }

# Pins are numbers here: 16 x port + pin.
function pin_name(b) { return "P" int(b / 16) "." b % 16 }

function exists(b) { return b < 40 && b % 16 < 8 || b == 48 }

# P2.4 to P2.7 are on the C8051F320 alone.
function lacking(b) { return chip == 321 && b >= 36 && b <= 39 }

function rank(b) { return b == 5 ? 1 : b == 6 ? 2 : b >= 17 && b <= 19 ? b - 14 : 0 }

# Those that stand in the order of the fan list.
function in_order(use) { return use == "fan" || use == "tachometer" }

function permitted(use, b) {
    if (in_order(use)) return rank(b) > 0
    if (exists(b) && b >= 20) return 1
    return use == "select" ? rank(b) > 0 : use == "lamp" ? b < 5 : 0
}

function own(role, use, at, may_lack) {
    own_count++
    own_role[own_count] = role
    own_use[own_count] = use
    own_at[own_count] = at
    own_lacks[own_count] = may_lack
}

function on_bus(id) { return id == 1 || id == 9 || id == 10 || id == 13 }

function driven(id) { return id == 3 || id == 6 }

# The own pins of the element at p, in field order.
function find_own(p,    id, i) {
    id = byte(p)
    own_count = 0
    if (driven(id)) {
        own("PWM pin", "fan", p + 8, 0)
        own("tachometer pin", "tachometer", p + 9, 1)
    }
    if (id == 2) own("pin", "analogue", p + 9, 0)
    if (id == 5 || id == 7 || id == 8) own("pin", "analogue", p + 8, 0)
    if (on_bus(id) && low(p + 8) == 3) own("chip select", "select", p + 9, 0)
    for (i = 1; i <= 3; i++) {
        if (id == 4) own("pin of the " ordinals[i] " lamp", "lamp", p + 6 + 2 * i, 1)
        if (id == 14) own(colours[i] " pin", "fan", p + 7 + i, 0)
    }
}
