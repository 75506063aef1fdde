# Part of tests/esa: ./esa salvage, its lines and sentences, and the words of its program.
# shellcheck shell=sh disable=SC2002,SC2015,SC2154

# The bytes of a hex text, as a file.
bytes_to() { # HEX FILE
    "$root/tools/bytes" "$1" >"$2"
}

# The lines, and OUT accepted.
saves() { # LINES ELEMENTS WORD... FILE OUT
    wanted_lines=$1 elements=$2
    shift 2
    gives 0 "$wanted_lines" salvage "$@" && gives 0 "out.esa: ok, $elements" check out.esa
}

# No lines, and OUT accepted.
saves_whole() { # FILE ELEMENTS
    silent salvage "$1" out.esa && gives 0 "out.esa: ok, $2" check out.esa
}

# The refusal as list tells it, and OUT as it was.
saves_nothing() { # SENTENCE FILE
    printf 'as it was\n' >out.esa
    refuses salvage "R	24	0" "$2: 24 at 0: $1" "$2" out.esa && [ "$(cat out.esa)" = 'as it was' ]
}

damaged_table() {
    lines=$(under "./esa salvage tables/damaged.esa out.esa" "$tables/damaged.txt")
    try "the damaged sample" saves "$lines" "9 elements" "$tables/damaged.esa" out.esa
    try "what is left" gives 0 "T	0.90	204	2	1	41	100	P3.0	-	-
E	16	03	2	P1.1,P1.2
E	32	0B	2	-
E	62	0C	-	-
E	86	0C	-	-
E	110	0C	-	-
E	132	0C	-	-
E	156	0C	-	-
E	174	0C	-	-
E	190	0C	-	-" list out.esa
    try "the same with words" gives 0 "102	7	left out
  the element with identifier 4Bh at byte 102 is left out: its identifier is none of the fourteen
256	9	left out
  the string at byte 256 is left out: a code in it is reserved, a number may not stand there, or its text is not well-formed UTF-16
16	13	left out
  the PWM fan at byte 16 is left out: no zone descriptor that is kept declares its zone
48	13	left out
  the analogue thermal sensor at byte 48 is left out: no zone descriptor that is kept declares its zone
88	13	left out
  the status LED at byte 88 is left out: no zone descriptor that is kept declares its zone
68	14	cleared
  the string index of the analogue thermal sensor at byte 68 is set to 0: no string that is kept has that number
68	15	left out
  the analogue thermal sensor at byte 68 is left out: a pin of it is used already: by the fault LED, a hardware revision pin, an element before it that is still kept, or by itself" salvage --words "$tables/damaged.esa" out.esa
    try "with the other chip" saves "$lines" "9 elements" --chip 321 "$tables/damaged.esa" out.esa
}

# Table A with string index 9, which no string has; and with 21 more bytes, of which none starts an element.
description=011000020907000080FFFFFF00000000
few_bytes() {
    bytes_to "$description" nine
    try "the description's own index" saves "0	14	cleared" "0 elements" nine out.esa
    try "with words" gives 0 "0	14	cleared
  the string index of the description is set to 0: no string that is kept has that number" salvage --words nine out.esa
    bytes_to "${description}0F0300000000FF0200" behind
    try "an element that is none, then the stop" saves "16	7	left out
0	14	cleared" "0 elements" behind out.esa
    bytes_to "01FFFF020007000080FFFFFF00000000" length
    try "a length that is wrong is mended" saves_whole length "0 elements"
    for sample in quiet-box every-kind water-kit; do
        cp "$tables/$sample.esa" whole
        "$esa" rewrite whole wanted
        try "$sample comes out as rewrite writes it, without a line" silent salvage whole out.esa
        try "its bytes" same out.esa wanted
    done
    try "a table of the archive" gives 0 "32	23	left out" salvage "$tables/old-box.esa" out.esa
}

# Where salvage stopped before the end of the file: standard error has that sentence and no other, and standard output the lines.
stops() { # LINES SENTENCE FILE
    ran salvage "$3" out.esa
    [ "$status" = 0 ] && [ "$(cat seen.out)" = "$1" ] && [ "$(cat seen.err)" = "$3: $2" ] || show
}

# Strings of six bytes behind a description of no string: numbers 1 to LAST.
strings_to() { # LAST
    "$root/tools/bytes" 011000020007000080FFFFFF00000000
    number=0
    while [ $number -lt "$1" ]; do
        number=$((number + 1))
        "$root/tools/bytes" "0C0600$(printf '%02X' $number)0904"
    done
}

behind_the_stop() {
    again="; if more stands there, mend the length of the element there or of the one before it, and try again"
    { cat "$tables/quiet-box.esa" && head -c 10000000 /dev/zero; } >behind
    ends="from byte 326 on, where bytes 1-2 say that the table ends, nothing was saved; the new table has 15 elements"
    try "10 MB behind a table: zeros are no element" stops '' "$ends" behind
    try "the new table" gives 0 "out.esa: ok, 15 elements" check out.esa
    cat behind 2>/dev/null | "$esa" salvage /dev/stdin out.esa 2>seen.err
    try "through a pipe" [ "$(cat seen.err)" = "/dev/stdin: $ends" ]
    cut="on no element can be told apart (6), and nothing from there on was saved; the new table has"
    bytes_to 013000020007000080FFFFFF000000000C06000109040C0200020904 short
    try "a length under 3" stops '' "from byte 22 $cut 1 element$again" short
    bytes_to 013000020007000080FFFFFF000000000C06000109040C0700020904 past
    try "a length past the end" stops '' "from byte 22 $cut 1 element$again" past
    bytes_to "011000020007000080FFFFFF000000000F0300FFFF" left
    try "two bytes of a header" stops "16	7	left out" "from byte 19 $cut 0 elements$again" left
    strings_to 96 >most
    try "96 elements and no more" saves_whole most "96 elements"
    strings_to 97 >overfull
    full="and no table has more (11), so nothing from there on was saved; the new table has 96 elements; if something there is wanted, leave others out and try again"
    try "a 97th element" stops '' "96 elements were kept before byte 592, $full" overfull
    { head -c 16 overfull && "$root/tools/bytes" 0F0300 && tail -c +17 overfull; } >other
    try "a 97th of those that are kept" stops "16	7	left out" "96 elements were kept before byte 595, $full" other
    { "$root/tools/bytes" 010010020007000080FFFFFF000000000CF00F010904 && head -c 4074 /dev/zero; } >longest
    try "4,096 bytes and no more" saves_whole longest "1 element"
    printf 'x' >>longest
    try "a byte more" stops '' "only the first 4,096 bytes count, as no table has more, and nothing behind them was saved; the new table has 1 element" longest
    head -c 326 "$tables/this-month.esa" >cut_off
    try "cut off between two elements" stops '' "bytes 1-2 say that the table has 337 bytes, and the file ends at byte 326; if it was cut off there, what stood behind is not saved; the new table has 15 elements" cut_off
    bytes_to 010110020007000080FFFFFF00000000 untold
    try "a length that no table has" saves_whole untold "0 elements"
}

nothing_to_save() {
    try "an empty file" saves_nothing "${empty#1 at 0: }" empty
    bytes_to 01100002 short
    try "a file that is too short" saves_nothing "the file's length is 4, and a table has at least 16 bytes; it was cut short, so copy it again from where it came" short
    bytes_to 101000020007000080FFFFFF00000000 other
    try "another revision" saves_nothing "byte 0 is 10h, which stands for revision 1.00, and only tables of revision 0.90 (01h) are read; look for the table of revision 0.90" other
    try "10 MB that start like a table" saves_nothing "byte 3, the device type, is 0, and only 1 (power supply), 2 (computer case) and 3 (water cooling device) exist; put one of them there" large
    bytes_to 01FFFF090907000080FFFFFF00000000 device
    try "a device type" saves_nothing "byte 3, the device type, is 9, and only 1 (power supply), 2 (computer case) and 3 (water cooling device) exist; put one of them there" device
    bytes_to 01100002090700008010FFFF00000000 clash
    try "the fault LED's pin" saves_nothing "hardware revision pin 0 (byte 9) is P1.0, which every box has for its fault LED; move it to another pin" clash
    bytes_to 01100002000700008027FFFF00000000 chip
    try "a pin that the 320 has" saves_whole chip "0 elements"
    try "and the 321 has not" refuses salvage "R	24	0" "chip: 24 at 0: hardware revision pin 0 (byte 9) is P2.7, which is not on this chip, the C8051F321; move it to one of P0.0 to P2.3 and P3.0, or put FFh there for 'unused', or name the C8051F320 (--chip 320) if the board carries that" --chip 321 chip never
    try "no file is made" [ ! -e never ]
    try "why 24" eval '"$esa" why 24 | grep -q "^Only the library and ./esa salvage answer this"'
}

# OUT is written whole or not at all.
salvages_out() {
    cp "$tables/damaged.esa" mine
    chmod 640 mine
    ran salvage mine mine
    try "into the same file" gives 0 "mine: ok, 9 elements" check mine
    try "it keeps its permissions" [ "$(mode_of mine)" = -rw-r----- ]
    cp mine wanted
    try "once more, without a line" silent salvage mine mine
    try "and the same bytes" same mine wanted
    try "OUT that is a folder" complains 2 "esa: box is a folder; name the file to write to" salvage mine box
    try "OUT that is a device" complains 2 "esa: /dev/null is no ordinary file; name another file to write to" salvage mine /dev/null
    try "OUT in a folder that is not there" complains 2 "esa: nowhere/out cannot be written: there is no folder ./nowhere; make it first" salvage mine nowhere/out
    try "OUT that is a dash" complains 2 "esa: salvage does not write to standard output; name a file to write to" salvage mine -
    try "no file is left behind by salvage" [ -z "$(find . -name '.esa*')" ]
}

misused_salvages() {
    needs="esa: salvage needs the name of a file and a name to write to"
    try "salvage of nothing" complains 2 "$needs" salvage
    try "salvage of one name" complains 2 "$needs" salvage good
    try "salvage of three names" complains 2 "esa: salvage takes a file and a name to write to, and 3 names were given" salvage good never x
    try "salvage of a file that is not there" complains 2 "esa: missing $no_file" salvage missing never
    try "salvage of a folder" complains 2 "esa: box is a folder; salvage takes one table, so name a file in it" salvage box never
    try "salvage with --archive" complains 2 "esa: salvage takes no --archive (check and list do): what it writes keeps the ordinary rules, and those have no SMBus block mode" salvage --archive good never
    try "salvage with --words twice" complains 2 "esa: the option --words is given twice" salvage --words --words good never
}

salvaging() {
    damaged_table
    few_bytes
    behind_the_stop
    nothing_to_save
    salvages_out
    misused_salvages
}
