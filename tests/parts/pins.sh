# Part of tests/esa: ./esa pins and its picture. The words of its program stand in options.sh.
# shellcheck shell=sh disable=SC2015,SC2016,SC2086,SC2154

# The sheet with these places beside these pins, L beside P1.0, and all other pins of the chip free.
sheet_with() { # CHIP [PIN PLACE]...
    awk -v words="$*" 'BEGIN {
        n = split(words, word, " ")
        beside["P1.0"] = "L"
        for (i = 2; i < n; i += 2) beside[word[i]] = word[i + 1]
        for (i = 0; i < 25; i++) {
            if (word[1] == 321 && i >= 20 && i < 24) continue
            pin = "P" int(i / 8) "." i % 8
            print pin "\t" (pin in beside ? beside[pin] : "-")
        }
    }'
}

of_sample_pins() {
    try "./esa pins of quiet-box is as its text says" as_the_text_says pins quiet-box 0
    quiet='P0.5 16 P0.6 16 P0.7 48 P1.1 32 P1.2 32 P1.4 48 P1.5 68 P1.7 88 P3.0 0'
    every='P0.0 170 P0.1 170 P0.2 170 P0.3 16 P0.4 16 P0.5 57 P0.6 102 P0.7 37 P1.1 219 P1.2 219 P1.3 219 P1.4 37'
    every="$every P1.5 87 P1.6 73 P1.7 118 P2.0 129 P2.1 170 P2.2 192"
    for chip in 320 321; do
        try "the quiet box on the $chip" gives 0 "$(sheet_with $chip $quiet P1.6 88)" pins --chip $chip good
        try "every kind on the $chip" gives 0 "$(sheet_with $chip $every)" pins --chip $chip "$tables/every-kind.esa"
    done
    try "a lamp on P2.7" gives 0 "$(sheet_with 320 $quiet P2.7 88)" pins -- lamp
}

# Two devices with one chip select, on P1.4, and lamps on the bus that is free; without elements; and the longest place.
of_other_pins() {
    "$root/tools/bytes" 011000020007000080FFFFFF00000000 >bare
    for chip in 320 321; do
        try "a table without elements on the $chip" gives 0 "$(sheet_with $chip)" pins --chip $chip -- bare
    done
    device=09110000FFFFFF01031400050107000C00
    declared=0B1E00010000000000000000000000000000000000000000000000000000
    "$root/tools/bytes" "015E00020007000080FFFF3000000000$device${device}040E0000FFFFFF01FF0004110321$declared" >shared
    try "a chip select of two devices" gives 0 "$(sheet_with 320 P0.0 16 P0.1 16 P0.2 16 P0.3 50 P0.4 50 P1.4 16 P3.0 0)" pins shared
    { "$root/tools/bytes" "010010020007000080FFFFFF00000000${declared}0CC40F010904" && head -c 4030 /dev/zero; } >far
    "$root/tools/bytes" 080E0000FFFFFF012700000001000000 | head -c 14 >>far
    try "an element at byte 4082" gives 0 "$(sheet_with 320 P0.7 4082 P2.7 4082)" pins far
}

refused_pins() {
    try "a refused table" refuses pins "R	13	16" "bad: $zone_missing" bad
    try "a lamp that is not on the chip" refuses pins "R	10	88" "lamp: $lamp_lacks" --chip 321 lamp
    retired=$(sed -n 's/^tables.old-box.esa: \(23 at .*\)/\1/p' "$tables/old-box.txt" | head -n 1)
    try "a table of the archive" refuses pins "R	23	32" "old: $retired" old
    try "an empty file" refuses pins "R	1	0" "empty: $empty" empty
    try "10 MB that start like a table" refuses pins "R	3	0" "large: $too_long" large
    dd if=bad 2>/dev/null | "$esa" pins /dev/stdin >piped.out 2>piped.err
    try "a refused table through a pipe" [ "$(cat piped.out)" = "R	13	16" ]
    dd if=good 2>/dev/null | "$esa" pins /dev/stdin >piped.out 2>piped.err
    try "a good table through a pipe" [ "$(cat piped.out)" = "$(sheet_with 320 $quiet P1.6 88)" ]
}

misused_pins() {
    try "pins of nothing" complains 2 "esa: pins needs the name of a table" pins
    try "pins of two names" complains 2 "esa: pins takes one table, and 2 names were given" pins good good
    try "pins of an empty name" complains 2 "esa: pins needs the name of a table, and the name given is empty" pins ''
    try "pins of a file that is not there" complains 2 "esa: missing $no_file" pins missing
    try "pins of a folder" complains 2 "esa: box is a folder; pins takes one table, so name a file in it" pins box
    try "pins of a dash for standard input" complains 2 "esa: - $no_input" pins -
    try "pins --archive" complains 2 "esa: pins takes no --archive (check and list do): it reads by the ordinary rules" pins --archive good
    try "pins --help" helps pins --help
    try "--picture of nothing" complains 2 "esa: --picture needs the name of the picture behind it" pins --picture
    try "--picture of an empty name" complains 2 "esa: --picture needs the name of the picture behind it" pins --picture '' good
    try "--picture and no table" complains 2 "esa: pins needs the name of a table" pins --picture never
    try "--picture of a dash" complains 2 "esa: --picture does not write to standard output; name a file to write to" pins --picture - good
    try "--picture of an option" complains 2 "esa: --picture needs the name of the picture behind it; if it is '--chip', put ./ before it" pins --picture --chip 321 good
    try "--picture twice" complains 2 "esa: the option --picture is given twice" pins --picture never --picture never good
    try "--picture behind the table" complains 2 "esa: options stand right behind the command's name, and --picture comes later" pins good --picture never
    try "--picture of another command" complains 2 "esa: list takes no --picture; pins does" list --picture never good
    try "nothing is drawn by a misuse" [ ! -e never ]
}

# Every line is one tag, or one with text in it: no other tag is open but groups and the picture, and no & stands alone.
well_formed() { # FILE
    awk '
        NR == 1 { if ($0 != "<?xml version=\"1.0\" encoding=\"UTF-8\"?>") bad = NR; next }
        { rest = $0; gsub(/&(amp|lt|gt);/, "", rest); if (rest ~ /&/) bad = NR }
        /^<(svg|g)( [a-zA-Z:-]+="[^"<]*")*>$/ { depth++; next }
        /^<\/(svg|g)>$/ { depth--; next }
        /^<[a-z]+( [a-zA-Z-]+="[^"<]*")*\/>$/ { next }
        /^<text( [a-zA-Z-]+="[^"<]*")*>[^<>]*<\/text>$/ { next }
        /^<title>[^<>]*<\/title>$/ { next }
        { bad = NR }
        END { if (bad || depth || NR < 50) { print "  line " bad ", depth " depth; exit 1 } }' "$1" || return
    ! command -v xmllint >/dev/null || xmllint --noout "$1"
}

# The pins and places of a picture are those of the sheet.
draws_the_sheet() { # PICTURE [OPTION..] FILE
    picture=$1
    shift
    sed -n 's/^<g id="\(.*\)" class=".*" data-place="\(.*\)">$/\1	\2/p' "$picture" >drawn
    "$esa" pins "$@" | cmp -s - drawn
}

has_text() { # PICTURE TEXT
    grep -qF ">$2</text>" "$1"
}

drawn_pins() {
    for chip in 320 321; do
        for sample in quiet-box every-kind water-kit; do
            try "a picture of $sample on the $chip" silent pins --picture picture.svg --chip $chip "$tables/$sample.esa"
            try "it is well-formed" well_formed picture.svg
            try "it has the sheet's pins" draws_the_sheet picture.svg --chip $chip "$tables/$sample.esa"
            rm picture.svg
        done
    done
    try "a picture over an old one" silent pins --chip 320 --picture picture.svg -- "$tables/quiet-box.esa"
    try "the picture that is stored" same picture.svg "$root/docs/quiet-box-pins.svg"
    for text in 'Front fan' 'PWM fan: tachometer, byte 16' 'hardware revision 0' 'fault LED' free 'status LED: lamp, byte 88'; do
        try "the picture says '$text'" has_text picture.svg "$text"
    done
    dd if=good 2>/dev/null | "$esa" pins --picture piped.svg /dev/stdin >piped.out 2>piped.err
    try "a picture of a table through a pipe" eval '[ ! -s piped.out ] && [ ! -s piped.err ] && draws_the_sheet piped.svg good'
}

# Strings with all that XML does not take as it is, without text, and far too long; and a file's name of the first sort.
odd_pictures() {
    fans=03100001FFFFFF0105FF00000000000003100002FFFFFF0106FF00000000000003100003FFFFFF0111FF000000000000
    strings=0C18000109043C0062003E0026000100FEFFFFFF22000A000C06000209040C9601030904$(printf '6100%.0s' $(seq 200))
    odd=$(printf 'a&<b>\377\001é')
    "$root/tools/bytes" "011202020007000080FFFFFF00000000$fans$declared$strings" >"$odd"
    try "a picture of odd names" silent pins --picture odd.svg "$odd"
    try "it is well-formed" well_formed odd.svg
    try "it has the pins of the sheet" draws_the_sheet odd.svg "$odd"
    try "it has the name of the file" has_text odd.svg 'Pins of a&amp;&lt;b&gt; é on the C8051F320'
    try "it has the name of the first fan" has_text odd.svg '&lt;b&gt;&amp; ��"'
    try "a string without text gives place to the kind's name" has_text odd.svg 'PWM fan'
    try "a name that is too long is cut" has_text odd.svg 'aaaaaaaaaaaaaaaaaaaaaaaaaaaaa…'
}

# The picture is written whole or not at all.
unwritten_pictures() {
    cp good out
    table="a picture of a refused table"
    try "$table" refuses pins "R	13	16" "bad: $zone_missing" --picture out bad
    try "its OUT is as it was" same out good
    try "$table and a new name" refuses pins "R	1	0" "empty: $empty" --picture never empty
    try "a picture over the table" complains 2 "esa: out is the table itself; name another file for the picture" pins --picture out out
    ln -s out to-out
    try "a picture over it by a link" complains 2 "esa: to-out is the table itself; name another file for the picture" pins --picture to-out out
    try "OUT that is a folder" complains 2 "esa: box is a folder; name the file to write to" pins --picture box good
    try "OUT that is a device" complains 2 "esa: /dev/null is no ordinary file; name another file to write to" pins --picture /dev/null good
    try "OUT that is a link to nowhere at all" complains 2 "esa: lost is a link to nowhere; name the file to write to" pins --picture lost good
    try "OUT in a folder that is not there" complains 2 "esa: nowhere/out cannot be written: there is no folder ./nowhere; make it first" pins --picture nowhere/out good
    try "a table that is not there" complains 2 "esa: missing $no_file" pins --picture never missing
    [ ! -r /proc/self/mem ] ||
        try "a file whose reading fails" complains 2 "esa: /proc/self/mem $failed" pins --picture never /proc/self/mem
    try "no file of that name is made" [ ! -e never ]
    try "OUT is as it was after all that" same out good
    chmod 640 out
    try "a picture by a link" silent pins --picture to-out good
    try "the link stays, its file is the picture and keeps its permissions" eval '[ -L to-out ] && draws_the_sheet out good && [ "$(mode_of out)" = -rw-r----- ]'
    rm -f out to-out
}

pins() {
    cp "$tables/larger-chip.esa" lamp
    cp "$tables/old-box.esa" old
    mkdir temporary
    TMPDIR=$work/temporary
    export TMPDIR
    of_sample_pins
    of_other_pins
    refused_pins
    misused_pins
    drawn_pins
    odd_pictures
    unwritten_pictures
    try "no file is left behind" [ -z "$(find . -name '.esa*')$(ls temporary)" ]
    unset TMPDIR
}
