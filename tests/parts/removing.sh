# Part of tests/esa: ./esa remove, and the words of its program.
# shellcheck shell=sh disable=SC2015,SC2154

# A file without its bytes from one place up to another, and with the length that it has then.
without() { # FILE FROM TO
    length=$(($(wc -c <"$1") - $3 + $2))
    { head -c 1 "$1" && "$root/tools/bytes" "$(printf '%02X%02X' $((length % 256)) $((length / 256)))"; } &&
        head -c "$2" "$1" | tail -c +4 && tail -c "+$(($3 + 1))" "$1"
}

# Element k goes out of the file, and out.esa is what is left.
takes_out() { # FILE K FROM TO
    without "$1" "$3" "$4" >wanted
    silent remove "$1" "$2" out.esa && same out.esa wanted
}

# The refusal as list tells it, and OUT as it was.
keeps() { # OUT LINE SENTENCE WORD...
    printf 'as it was\n' >"$1"
    refuses remove "$2" "$3" "$4" "$5" "$1" && [ "$(cat "$1")" = 'as it was' ]
}

# Every element of the quiet box that is no zone and no string; and a zone and a string when what names them has gone.
taken_out() {
    k=0
    for ends in '16 32' '32 48' '48 68' '68 88' '88 102'; do
        # shellcheck disable=SC2086
        try "element $k of the quiet box" takes_out good $k $ends
        try "it is a table" gives 0 "out.esa: ok, 14 elements" check out.esa
        k=$((k + 1))
    done
    try "a zone that the first of three names" silent remove good 0 fewer
    try "into the same file, the second" silent remove fewer 1 fewer
    try "the third, on the 321" silent remove --chip 321 -- fewer 2 fewer
    try "the zone goes then" takes_out fewer 2 52 82
    try "and its string" takes_out out.esa 9 216 232
    try "what is left" gives 0 "out.esa: ok, 10 elements" check out.esa
    try "a number with zeros before it" takes_out good 0004 88 102
    try "a pin that the 320 alone has" takes_out "$tables/larger-chip.esa" 4 88 102
    cp "$tables/every-kind.esa" every
    for k in 0 1 2 3 4 5 6 7 8 9 10 11; do
        try "element $k of every kind" silent remove every $k out.esa
        try "13 are left" gives 0 "out.esa: ok, 13 elements" check out.esa
    done
}

# Table A, its string index 1, with a fan, a lamp, zone 1 and string 1, all called so; and the same with two lamps more.
all_named() { # LENGTH LAMPS
    lamps=
    for lamp in $2; do lamps=${lamps}040E0001FFFFFF01FF00FF00FF$lamp; done
    "$root/tools/bytes" "01${1}00020107000080FFFFFF0000000003100001FFFFFF0105FF002C01DC0540$lamps" &&
        "$root/tools/bytes" 0B1E00010100000000000000000000000000000000000000000000000000 && "$root/tools/bytes" 0C0600010904
}

still_named() {
    put="put 0 for 'no string' or another string's number into"
    is_zone="22 at 102: the zone descriptor at byte 102 declares zone 1, and the PWM fan at byte 16 (element 0), the analogue thermal sensor at byte 48 (element 2) and the status LED at byte 88 (element 4) still name it; move them to another zone or take them out first"
    try "a zone that three name" keeps out.esa "R	22	102" "good: $is_zone" good 5
    try "a string that the description names" keeps out.esa "R	22	162" "good: 22 at 162: the string at byte 162 has number 1, and the description still names it; $put byte 4 first" good 7
    try "a string that a fan names" keeps out.esa "R	22	186" "good: 22 at 186: the string at byte 186 has number 2, and the PWM fan at byte 16 (element 0) still names it; $put byte 19, or take the fan out, first" good 8
    try "a string that a zone names" keeps out.esa "R	22	296" "good: 22 at 296: the string at byte 296 has number 7, and the zone descriptor at byte 102 (element 5) still names it; $put byte 106, or take the zone descriptor out, first" good 13
    all_named 52 00 >four
    try "a string that four name" keeps out.esa "R	22	76" "four: 22 at 76: the string at byte 76 has number 1, and the description, the PWM fan at byte 16 (element 0), the status LED at byte 32 (element 1) and the zone descriptor at byte 46 (element 2) still name it; $put bytes 4, 19, 35 and 50 first" four 3
    all_named 6E '00 00 00' >six
    try "a string that six name" keeps out.esa "R	22	104" "six: 22 at 104: the string at byte 104 has number 1, and the description and 5 more still name it; $put the fields that name it first" six 5
    try "a zone that four name" keeps out.esa "R	22	74" "six: 22 at 74: the zone descriptor at byte 74 declares zone 1, and the PWM fan at byte 16 (element 0), the status LED at byte 32 (element 1), the status LED at byte 46 (element 2) and the status LED at byte 60 (element 3) still name it; move them to another zone or take them out first" six 4
    try "a table that is its own OUT" refuses remove "R	22	102" "same: $is_zone" same 5 same
    try "it is as it was" same same good
    dd if=good 2>/dev/null | "$esa" remove /dev/stdin 5 out.esa >piped.out 2>piped.err
    try "a pipe cannot be read a second time" [ "$(cat piped.out piped.err)" = "R	22	102${newline}/dev/stdin: 22 at 102: './esa why 22' tells what that means" ]
}

refused_removals() {
    past="they are counted from 0, and the table has 15 elements"
    try "an element past the last" keeps out.esa "R	17	0" "good: 17 at 0: there is no element 15: $past" good 15
    try "far past the last" keeps out.esa "R	17	0" "good: 17 at 0: there is no element 18446744073709551616: $past" good 18446744073709551616
    try "a refused table" keeps out.esa "R	13	16" "bad: $zone_missing" bad 0
    try "a refused table and no such element" keeps out.esa "R	13	16" "bad: $zone_missing" bad 99
    try "an empty file" keeps out.esa "R	1	0" "empty: $empty" empty 0
    try "10 MB that start like a table" keeps out.esa "R	3	0" "large: $too_long" large 0
    try "a table of the archive" keeps out.esa "R	23	32" "old: $retired" old 0
    try "a lamp that is not on the chip" refuses remove "R	10	88" "lamp: $lamp_lacks" --chip 321 lamp 4 out.esa
    try "a refusal and a new name" refuses remove "R	13	16" "bad: $zone_missing" bad 0 never
    try "no file of that name is made" [ ! -e never ]
}

# OUT is written as rewrite writes it; here what a word more or another word might break.
removals_out() {
    cp bad over
    chmod 640 over
    try "over an old file" silent remove good 4 over
    try "it keeps its permissions" [ "$(mode_of over)" = -rw-r----- ]
    rm -f to-removed removed
    cp bad removed
    ln -s removed to-removed
    try "to a link" silent remove good 4 to-removed
    try "the link stays, and its file is written" eval '[ -L to-removed ] && same removed over'
    try "with odd names" silent remove -- '-n' 4 '-o ut*'
    try "the odd name is written" same over '-o ut*'
    try "OUT that is a folder" complains 2 "esa: box is a folder; name the file to write to" remove good 0 box
    try "OUT that is a device" complains 2 "esa: /dev/null is no ordinary file; name another file to write to" remove good 0 /dev/null
    try "OUT in a folder that is not there" complains 2 "esa: nowhere/out cannot be written: there is no folder ./nowhere; make it first" remove good 0 nowhere/out
    try "OUT that is a dash" complains 2 "esa: remove does not write to standard output; name a file to write to" remove good 0 -
    try "an empty OUT" complains 2 "esa: remove needs a name to write to, and the name given is empty" remove good 0 ''
    try "no file is left behind by remove" [ -z "$(find . -name '.esa*')" ]
}

misused_removals() {
    needs="esa: remove needs the name of a table, the number of an element and a name to write to"
    try "remove of nothing" complains 2 "$needs" remove
    try "remove of one name" complains 2 "$needs" remove good
    try "remove of two words" complains 2 "$needs" remove good 0
    try "remove of four words" complains 2 "esa: remove takes a table, the number of an element and a name to write to, and 4 words were given" remove good 0 never x
    try "remove from an empty name" complains 2 "esa: remove needs the name of a table, and the name given is empty" remove '' 0 never
    try "remove from a file that is not there" complains 2 "esa: missing $no_file" remove missing 0 never
    try "remove from a folder" complains 2 "esa: box is a folder; remove takes one table, so name a file in it" remove box 0 never
    for k in '' x 1x +1 1.5 0x1 ' 1' "1${newline}2"; do
        try "remove element '$k'" complains 2 "esa: remove needs the number of an element, counted from 0, and '$k' is none" remove good "$k" never
    done
    try "remove element -1" complains 2 "esa: remove needs the number of an element, counted from 0, and '-1' is none" remove good -1 never
    try "remove --archive" complains 2 "esa: remove takes no --archive (check and list do): what it writes keeps the ordinary rules, and those have no SMBus block mode" remove --archive good 0 never
    try "nothing is written by a misuse of remove" [ ! -e never ]
    try "remove --help" helps remove --help
}

removals_program() {
    words="Behind the options stands the number of an element, counted from 0, and nothing else."
    for k in '' x 1x /0 : ' 1'; do
        try "the program remove '$k'" program_says "$words" remove "$k"
    done
    try "the program remove without a word" program_says "$words" remove
    try "the program remove with options alone" program_says "$words" remove --chip 321 --
    try "the program remove with two words" program_says "$words" remove 0 1
    try "the program remove --archive" program_says "The option --archive is not taken here: this program has one set of rules." remove --archive 0
}

# Every command of a text, one after the other, prints on either output what stands under it.
as_told() { # TEXT
    grep '^\$ \./esa ' "$1" | sed 's/^\$ \.\/esa //' >told
    while IFS= read -r command <&3; do
        under "./esa $command" "$1" >wanted
        # shellcheck disable=SC2086
        "$esa" $command >seen.out 2>&1 </dev/null || :
        cmp -s seen.out wanted || { printf '  %s\n' "$command" && return 1; }
    done 3<told
    [ -s told ]
}

removing() {
    cp good same
    cp "$tables/larger-chip.esa" lamp
    cp "$tables/old-box.esa" old
    retired=$(sed -n 's/^tables.old-box.esa: \(23 at .*\)/\1/p' "$tables/old-box.txt" | head -n 1)
    ln -s "$tables" tables
    taken_out
    still_named
    refused_removals
    removals_out
    misused_removals
    removals_program
    try "the story of the zone that is no leftover" as_told "$tables/leftover.txt"
    rm -f tables
}
