# Part of tests/esa: ./esa fan, and the words of its program.
# shellcheck shell=sh disable=SC2015,SC2154

# What the listing of a table says of a zone: the first line of an 03 or 06 in it, counted from the line behind the table's own.
by_listing() { # ZONE
    awk -F '\t' -v zone="$1" '
        $1 == "E" { visited++ }
        $1 == "E" && ($3 == "03" || $3 == "06") && $4 == zone "" { met = 1; exit }
        END { print (met ? "yes" : "no") "\t" visited + 0 }' listed
}

of_sample_zones() {
    for sample in quiet-box every-kind larger-chip water-kit; do
        "$esa" list "$tables/$sample.esa" >listed
        for zone in 0 1 2 3 255; do
            try "zone $zone of $sample, as its listing has it" gives 0 "$(by_listing $zone)" fan "$tables/$sample.esa" $zone
        done
    done
    try "the first fan of the quiet box" gives 0 "yes	1" fan good 1
    try "its second" gives 0 "yes	2" fan good 2
    try "a zone that nobody declares" gives 0 "no	15" fan good 3
    try "the pump before the fan" gives 0 "yes	1" fan "$tables/water-kit.esa" 1
    try "a fan on the 321" gives 0 "yes	2" fan --chip 321 good 2
    try "a zone with zeros before its number" gives 0 "yes	1" fan -- good 0001
    try "a zone of many zeros" gives 0 "no	15" fan --chip 320 -- good 00000000000
}

# Table A with these elements, its length in two hex digits.
a_with() { # LENGTH ELEMENT...
    length=$1
    shift
    "$root/tools/bytes" "01${length}00020007000080FFFFFF00000000$(printf '%s' "$@")"
}

# A, zone 1, 94 lamps that are not there, and a fan.
full_table() {
    # shellcheck disable=SC2046
    lamps=$(printf '040E0000FFFFFF01FF00FF00FF00%.0s' $(seq 94))
    "$root/tools/bytes" "016205020007000080FFFFFF00000000$declared$lamps$one_fan"
}

# Byte 7 of the string is 1, and that of the zone descriptor 5.
of_other_zones() {
    declared=0B1E00010000000000000000000000000000000000000000000000000000
    one_fan=03100000FFFFFF0105FF002C01DC0540
    one_pump=06100000FFFFFF0105FF002C01DC0540
    a_with 10 >bare
    a_with 46 0C08000109044101 0B1E000100000005 00000000000000000000000000000000000000000000 $one_pump >traps
    a_with 3F 09110000FFFFFF010040000501 07000C00 $declared >controlled
    full_table >ninety-six
    for zone in 0 1 255; do
        try "zone $zone of a table without elements" gives 0 "no	0" fan bare $zone
    done
    try "a pump behind a string and a zone descriptor" gives 0 "yes	3" fan traps 1
    for zone in 0 5 9 65; do
        try "zone $zone, which stands in their content" gives 0 "no	3" fan traps $zone
    done
    try "an external controller is no fan" gives 0 "no	2" fan controlled 1
    try "the last of 96" gives 0 "yes	96" fan ninety-six 1
    try "none of 96" gives 0 "no	96" fan ninety-six 2
}

refused_fans() {
    try "a refused table" refuses fan "R	13	16" "bad: $zone_missing" bad 1
    try "the same of another zone" refuses fan "R	13	16" "bad: $zone_missing" bad 2
    try "a lamp that is not on the chip" refuses fan "R	10	88" "lamp: $lamp_lacks" --chip 321 lamp 1
    retired=$(sed -n 's/^tables.old-box.esa: \(23 at .*\)/\1/p' "$tables/old-box.txt" | head -n 1)
    try "a table of the archive" refuses fan "R	23	32" "old: $retired" old 1
    try "an empty file" refuses fan "R	1	0" "empty: $empty" empty 0
    try "10 MB that start like a table" refuses fan "R	3	0" "large: $too_long" large 1
    dd if=bad 2>/dev/null | "$esa" fan /dev/stdin 1 >piped.out 2>piped.err
    try "a refused table through a pipe" [ "$(cat piped.out)" = "R	13	16" ]
    dd if=good 2>/dev/null | "$esa" fan /dev/stdin 2 >piped.out 2>piped.err
    try "a good table through a pipe" [ "$(cat piped.out)" = "yes	2" ]
}

misused_fans() {
    try "fan of nothing" complains 2 "esa: fan needs the name of a table and the number of a zone" fan
    try "fan of one name" complains 2 "esa: fan needs the name of a table and the number of a zone" fan good
    try "fan of three words" complains 2 "esa: fan takes a table and the number of a zone, and 3 words were given" fan good 1 2
    try "fan of an empty name" complains 2 "esa: fan needs the name of a table, and the name given is empty" fan '' 1
    try "fan of a file that is not there" complains 2 "esa: missing $no_file" fan missing 1
    try "fan of a folder" complains 2 "esa: box is a folder; fan takes one table, so name a file in it" fan box 1
    for zone in '' x 1x +1 1.5 0x1 ' 1' 256 260 300 999 1000 18446744073709551617 "1${newline}2"; do
        try "fan in zone '$zone'" complains 2 "esa: fan needs the number of a zone, 0 to 255, and '$zone' is none" fan good "$zone"
    done
    try "fan in zone -1" complains 2 "esa: fan needs the number of a zone, 0 to 255, and '-1' is none" fan good -1
    try "fan --archive" complains 2 "esa: fan takes no --archive (check and list do): it reads by the ordinary rules" fan --archive good 1
    try "fan --help" helps fan --help
}

# A misuse of the program by itself: nothing on standard output, and one sentence on standard error.
program_complains() { # WORD...
    path=$("$root/tools/program" fan)
    "$path" "$@" <good >seen.out 2>seen.err || :
    [ ! -s seen.out ] && [ "$(wc -l <seen.err)" -eq 1 ] || show
}

fans_program() {
    for zone in '' x 1x 256 1000 99999999999999999999 /0 : ' 1'; do
        try "the program fan '$zone'" program_complains "$zone"
    done
    try "the program fan without a word" program_complains
    try "the program fan with options alone" program_complains --chip 321
    try "the program fan with two words" program_complains 0 1
    try "the program fan --archive" program_says "The option --archive is not taken here: this program has one set of rules." fan --archive 1
}

fans() {
    cp "$tables/larger-chip.esa" lamp
    cp "$tables/old-box.esa" old
    of_sample_zones
    of_other_zones
    refused_fans
    misused_fans
    fans_program
}
