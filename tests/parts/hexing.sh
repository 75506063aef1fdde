# Part of tests/esa: ./esa hex and unhex, what is said of a bad line, and the words of their programs.
# shellcheck shell=sh disable=SC2015,SC2016,SC2154

line_of_a=:10000000011000020007000080FFFFFF0000000059
end_line=:00000001FF

# The text of a file, put together here: records of 16 bytes, and the end.
text_of() { # FILE
    od -An -v -tu1 "$1" | awk '
        {
            sum = NF + int(at / 256) + at % 256
            printf ":%02X%04X00", NF, at
            for (i = 1; i <= NF; i++) { printf "%02X", $i; sum += $i }
            printf "%02X\n", (256 - sum % 256) % 256
            at += NF
        }
        END { print ":00000001FF" }'
}

there_and_back() { # NAME OPTION...
    cp "$tables/$1.esa" moved
    text_of moved >wanted.hex
    name=$1
    shift
    try "hex $* of $name" silent hex "$@" moved moved.hex
    try "the text of $name" same moved.hex wanted.hex
    try "unhex $* of it" silent unhex "$@" moved.hex moved.back
    try "the table of that text" same moved.back moved
}

samples_in_hex() {
    there_and_back quiet-box
    try "the text of the quiet box is the sample quiet-box.hex" same moved.hex "$tables/quiet-box.hex"
    there_and_back every-kind --
    there_and_back water-kit --chip 321
    there_and_back larger-chip --chip 320 --
    there_and_back old-box --chip 321 --
    a_with 10 >moved
    try "hex of table A" silent hex moved moved.hex
    try "table A's two lines" [ "$(cat moved.hex)" = "$line_of_a$newline$end_line" ]
    soiled >reserved
    try "hex of a table with a reserved place in use" silent hex reserved moved.hex
    try "unhex of its text" silent unhex moved.hex moved.back
    try "its bytes come back as they were" same moved.back reserved
}

# OUT is written whole or not at all.
hex_out() {
    cp good both
    chmod 640 both
    try "FILE may be OUT of hex" silent hex both both
    try "and holds the text then" same both "$tables/quiet-box.hex"
    try "with its permissions" [ "$(mode_of both)" = -rw-r----- ]
    try "FILE may be OUT of unhex" silent unhex both both
    try "and holds the table again" same both good
    ln -sf both to-both
    try "hex to a link" silent hex good to-both
    try "the link stays, and the text is behind it" eval '[ -L to-both ] && same both "$tables/quiet-box.hex"'
    try "hex and unhex with odd names" eval 'silent hex -- -n "-o ut*" && silent unhex -- "-o ut*" a=b && silent hex a=b a=c'
    try "the odd names are written" eval 'same good a=b && same a=c "$tables/quiet-box.hex"'
    try "unhex of a name that looks like an assignment" refuses unhex "R	21	1" "a=b: 21 at 1: $raw" a=b never
    for command in hex unhex; do
        cp good out
        try "$command to a folder" complains 2 "esa: box is a folder; name the file to write to" $command both box
        try "$command to a device" complains 2 "esa: /dev/null is no ordinary file; name another file to write to" $command both /dev/null
        try "$command to a folder that is not there" complains 2 "esa: nowhere/out cannot be written: there is no folder ./nowhere; make it first" $command both nowhere/out
        try "$command to a dash" complains 2 "esa: $command does not write to standard output; name a file to write to" $command both -
    done
    try "no file is left behind" [ -z "$(find . -name '.esa*')" ]
}

refused_hex() {
    cp good out
    try "hex of a refused table" refuses hex "R	13	16" "bad: $zone_missing" bad out
    try "hex of a lamp that is not on the chip" refuses hex "R	10	88" "lamp: $lamp_lacks" --chip 321 lamp out
    try "hex of an empty file" refuses hex "R	1	0" "empty: $empty" empty out
    try "hex of 10 MB that start like a table" refuses hex "R	3	0" "large: $too_long" large out
    is_hex="2 at 0: byte 0 is 3Ah, a colon, and a table of revision 0.90 starts with 01h; is it Intel HEX? './esa unhex' makes a table of it"
    try "hex of what is Intel HEX already" refuses hex "R	2	0" "$tables/quiet-box.hex: $is_hex" "$tables/quiet-box.hex" out
    printf '%s\n' :10000000011000020007000080FFFFFF0000000059 :0100100000EF :00000001FF >behind.hex
    try "unhex of a byte too many: salvage takes no text" refuses unhex "R	3	0" "behind.hex, the table in it: 3 at 0: bytes 1-2 say that the table has 16 bytes, and the file has 17; cut it to 16 bytes" behind.hex out
    text_of bad >bad.hex
    try "unhex of the text of a refused table" refuses unhex "R	13	16" "bad.hex, the table in it: $zone_missing" bad.hex out
    text_of lamp >lamp.hex
    try "unhex of a lamp that is not on the chip" refuses unhex "R	10	88" "lamp.hex, the table in it: $lamp_lacks" --chip 321 lamp.hex out
    echo $end_line >end.hex
    try "unhex of the end record alone" refuses unhex "R	1	0" "end.hex, the table in it: $empty" end.hex out
    { printf '\001' && head -c 4096 zeros; } >over
    text_of over >over.hex
    try "unhex of 4,097 bytes" refuses unhex "R	3	0" "over.hex, the table in it: $too_long" over.hex out
    try "OUT is as it was after all that" same out good
    dd if=bad.hex 2>/dev/null | "$esa" unhex /dev/stdin out >piped.out 2>piped.err
    try "unhex of a refused text through a pipe" [ "$(cat piped.out piped.err)" = "R	13	16${newline}/dev/stdin: 13 at 16: './esa why 13' tells what that means" ]
    dd if="$tables/quiet-box.hex" 2>/dev/null | "$esa" unhex /dev/stdin piped >piped.out 2>&1
    try "unhex of a good text through a pipe" same piped good
}

# What is said of a text whose line is bad, and OUT is left as it was.
bad_line() { # LINE SENTENCE TEXT
    # shellcheck disable=SC2059
    printf "$3" >text.hex
    try "21 at $1: $2" refuses unhex "R	21	$1" "text.hex: 21 at $1: $2" text.hex out
}

bad_lines() {
    copy_again="so copy it again from where it came"
    bad_line 1 "the text is empty, and Intel HEX ends with the line :00000001FF; copy it again from where it came" ''
    bad_line 2 "line 2 is missing: the text ends without the line :00000001FF; it was cut off, $copy_again" "$line_of_a\n"
    bad_line 3 "line 3 stands behind the end record, line 2, and nothing may; take away all that is behind line 2, an empty line too" "$line_of_a\n$end_line\n\n"
    bad_line 3 "line 3 stands behind the end record, line 2, and nothing may; take away all that is behind line 2, an empty line too" "$line_of_a\n$end_line\n\0"
    bad_line 2 "line 2 is empty; take it away" "$line_of_a\n\n$end_line\n"
    bad_line 1 "line 1 ends in a carriage return, and each line is closed by a line feed alone; take the carriage returns out of the text (tr -d '\\r')" "$line_of_a\r\n$end_line\r\n"
    bad_line 1 "line 1 does not start with a colon, as every line of Intel HEX does; this is another kind of file, or the line was altered" "10000000011000020007000080FFFFFF0000000059\n$end_line\n"
    bad_line 1 "character 27 of line 1 is 'f', and only the digits 0 to 9 and the capitals A to F are taken; put capitals in the place of small letters" ":1000000001100002000700008ffFFFFF0000000059\n$end_line\n"
    strange="and behind the colon only the digits 0 to 9 and the capitals A to F are taken; the line was altered, so copy the text again"
    bad_line 2 "character 3 of line 2 is 'O', $strange" "$line_of_a\n:0O000001FF\n"
    bad_line 2 "character 3 of line 2 is the byte 26h, $strange" "$line_of_a\n:0&000001FF\n"
    bad_line 1 "character 44 of line 1 is the byte 20h, $strange" "$line_of_a \n$end_line\n"
    bad_line 2 "character 2 of line 2 is the byte C3h, $strange" "$line_of_a\n:\303\2440000001FF\n"
    bad_line 2 "line 2 is not closed by a line feed; the text was cut off there, so copy it again, or put a line feed behind it if that alone is missing" "$line_of_a\n$end_line"
    bad_line 1 "line 1 has 41 characters, and as its first two digits say that it has 16 data bytes, it must have 43; characters were lost or added, so copy the text again" "${line_of_a%??}\n$end_line\n"
    bad_line 1 "line 1 has 54 characters, and as its first two digits say that it has 16 data bytes, it must have 43; characters were lost or added, so copy the text again" "$line_of_a${end_line#:}1\n"
    bad_line 2 "line 2 has 7 characters, and the shortest record, :00000001FF, has 11; characters were lost, so copy the text again" "$line_of_a\n:000000\n"
    bad_line 1 "line 1 ends with the sum 5Ah, and its bytes want 59h; one of them was altered, so copy the text again" "${line_of_a%9}A\n$end_line\n"
    bad_line 2 "line 2 ends with the sum FEh, and its bytes want FFh; one of them was altered, so copy the text again" "$line_of_a\n:00000001FE\n"
    bad_line 2 "line 2 is an end record with an address or data, and the only one that is taken is :00000001FF; put that in its place" "$line_of_a\n:00001001EF\n"
    bad_line 1 "line 1 is of type 04h, and only 00 (data) and 01 (the end) are taken; a table needs no address over 16 bits and no start, so have the other program leave out records of types 02 to 05" ":020000040000FA\n$line_of_a\n$end_line\n"
    bad_line 2 "line 2 holds no data byte, and a data record has 1 to 255; take it away" "$line_of_a\n:0000000000\n$end_line\n"
    order="lines are missing, come twice or stand in another order, and data must start at 0 and have no gap"
    bad_line 2 "line 2 says address 0000h, and with the bytes before it must say 0010h; $order" "$line_of_a\n$line_of_a\n$end_line\n"
    bad_line 1 "line 1 says address 0010h, and with the bytes before it must say 0000h; $order" ":10001000011000020007000080FFFFFF0000000049\n$end_line\n"
}

large_texts() {
    # 65,537 records of one byte, the last at address 0 again.
    awk 'BEGIN { for (i = 0; i < 65536; i++) printf ":01%04X0000%02X\n", i, (255 - int(i / 256) - i % 256 + 512) % 256; print ":0100000000FF"; print ":00000001FF" }' >long.hex
    try "65,537 bytes in records of one" refuses unhex "R	21	65537" "long.hex: 21 at 65537: line 65537 comes behind 65,536 bytes, for which there is no address left, and no table has more than 4,096; this is no text of a table" long.hex out
    sed 65537d long.hex >long-enough.hex
    try "65,536 bytes in records of one" refuses unhex "R	2	0" "long-enough.hex, the table in it: $other_start" long-enough.hex out
    try "10 MB of zeros" refuses unhex "R	21	1" "zeros: 21 at 1: line 1 does not start with a colon, as every line of Intel HEX does; this is another kind of file, or the line was altered" zeros out
    try "10 MB that start like a table" refuses unhex "R	21	1" "large: 21 at 1: $raw" large out
    { cat "$tables/quiet-box.hex" zeros; } >tail.hex
    try "10 MB behind a good text" refuses unhex "R	21	23" "tail.hex: 21 at 23: line 23 stands behind the end record, line 22, and nothing may; take away all that is behind line 22, an empty line too" tail.hex out
    try "OUT is as it was after all those" same out good
}

misused_hex() {
    try "hex of nothing" complains 2 "esa: hex needs the name of a table and a name to write to" hex
    try "hex of one name" complains 2 "esa: hex needs the name of a table and a name to write to" hex good
    try "hex of three names" complains 2 "esa: hex takes a table and a name to write to, and 3 names were given" hex good out out
    try "unhex of nothing" complains 2 "esa: unhex needs the name of a text in Intel HEX and a name to write to" unhex
    try "unhex of three names" complains 2 "esa: unhex takes a text in Intel HEX and a name to write to, and 3 names were given" unhex good out out
    try "hex of an empty name" complains 2 "esa: hex needs the name of a table, and the name given is empty" hex '' out
    try "unhex of an empty name" complains 2 "esa: unhex needs the name of a text, and the name given is empty" unhex '' out
    try "hex of a folder" complains 2 "esa: box is a folder; hex takes one table, so name a file in it" hex box out
    try "unhex of a folder" complains 2 "esa: box is a folder; unhex takes one text, so name a file in it" unhex box out
    for command in hex unhex; do
        try "$command of a file that is not there" complains 2 "esa: missing $no_file" $command missing out
        try "$command to an empty name" complains 2 "esa: $command needs a name to write to, and the name given is empty" $command good ''
        try "$command --archive" complains 2 "esa: $command takes no --archive: it moves every table by the archive's rules" $command --archive good out
        try "$command --help" helps $command --help
        if [ -r /proc/self/mem ]; then
            try "$command of a file whose reading fails" complains 2 "esa: /proc/self/mem $failed" $command /proc/self/mem never
        fi
    done
    try "unhex of a dash for standard input" complains 2 "esa: - cannot be read: there is no such file, and standard input is not read; name a text" unhex - out
    try "nothing is written by a misuse" [ ! -e never ]
}

# A misuse of a program by itself: nothing on standard output, and one sentence on standard error.
one_sentence() { # PROGRAM WORD...
    path=$("$root/tools/program" "$1")
    shift
    "$path" "$@" <good >seen.out 2>seen.err || :
    [ ! -s seen.out ] && [ "$(wc -l <seen.err)" -eq 1 ] || show
}

# A program by itself makes the one file of the other, and says nothing.
makes() { # FILE FILE PROGRAM WORD...
    from=$1 wanted=$2
    path=$("$root/tools/program" "$3")
    shift 3
    status=0
    "$path" "$@" <"$from" >seen.out 2>seen.err || status=$?
    [ "$status" = 0 ] && same seen.out "$wanted" && [ ! -s seen.err ] || show
}

hex_programs() {
    for words in '' -- '--chip 320' '--chip 321 --'; do
        # shellcheck disable=SC2086
        try "the program ihex $words" makes good "$tables/quiet-box.hex" ihex $words
        # shellcheck disable=SC2086
        try "the program unhex $words" makes "$tables/quiet-box.hex" good unhex $words
    done
    printf 'R\t21\t1\n' >wanted.line
    try "the program unhex of a raw table" makes good wanted.line unhex
    for program in ihex unhex; do
        for word in --all --chip=321 -x - good ''; do
            try "the program $program '$word'" one_sentence $program "$word"
        done
        try "the program $program --chip 322" one_sentence $program --chip 322
        try "the program $program --chip" one_sentence $program --chip
        try "the program $program --chip twice" one_sentence $program --chip 320 --chip 320
        try "the program $program --archive" one_sentence $program --archive
        try "the program $program with a word behind its options" one_sentence $program --chip 321 -- good
    done
}

hexing() {
    cp "$tables/larger-chip.esa" lamp
    rm -f ./-
    raw="line 1 starts with byte 01h and not with a colon, as a raw table does; if this is one, './esa hex' makes Intel HEX of it"
    samples_in_hex
    hex_out
    refused_hex
    bad_lines
    large_texts
    misused_hex
    hex_programs
}
