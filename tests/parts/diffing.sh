# Part of tests/esa: ./esa diff, its sentences, and the words of its program.
# shellcheck shell=sh disable=SC2015,SC2154

# Lines on standard output, nothing on standard error, and status 1.
differ() { # LINES WORD...
    lines=$1
    shift
    ran diff "$@"
    [ "$status" = 1 ] && [ "$(cat seen.out)" = "$lines" ] && [ ! -s seen.err ] || show
}

# Table A with these elements, its length in two hex digits.
table_of() { # LENGTH ELEMENT...
    length=$1
    shift
    "$root/tools/bytes" "01${length}00020007000080FFFFFF00000000$(printf '%s' "$@")"
}

two_tables() {
    zone=0B1E00010000000000000000000000000000000000000000000000000000
    zone_2=0B1E00020000000000000000000000000000000000000000000000000000
    fan=03100000FFFFFF0105FF002C01DC0540
    moved=03100000FFFFFF0205FF002C01DC0540
    pump=06100000FFFFFF0105FF002C01DC0540
    table_of 10 >bare
    table_of 5C "$zone" "$zone_2" "$fan" >one
    table_of 5C "$zone" "$zone_2" "$moved" >two
    table_of 5C "$zone" "$zone_2" "$pump" >three
    table_of 3E "$fan" "$zone" >before
    table_of 3E "$zone" "$fan" >behind
    moves="D	76	76	zone identifier	1	2"
    try "a table beside itself" silent diff good good
    try "a copy of it" silent diff --chip 321 -- good same
    try "reserved places alone" silent diff "$tables/last-month.esa" good
    try "and on the other side" silent diff good "$tables/last-month.esa"
    try "one field" differ "$moves" one two
    try "the tables exchanged" differ "D	76	76	zone identifier	2	1" two one
    try "another kind" differ "D	76	76	kind	03	06" one three
    try "kinds exchanged" differ "D	16	16	kind	03	0B${newline}D	32	46	kind	0B	03" before behind
    try "elements without a partner" differ "D	-	16	kind	-	0B${newline}D	-	46	kind	-	03" bare behind
    try "on the other side" differ "D	16	-	kind	0B	-${newline}D	46	-	kind	03	-" behind bare
    try "block mode beside itself" silent diff old old
    "$root/tools/bytes" "$(hex_of old | sed 's/^\(.\{80\}\)02/\101/')" >mended
    try "block mode and byte mode" differ "D	32	32	bus type	2	1" old mended
    try "a pin that the 320 alone has" differ "D	88	88	pin1	P2.7	P1.6" lamp good
    try "with odd names" silent diff -- '-n' 'with  blanks '
    dd if=two 2>/dev/null | "$esa" diff --words one /dev/stdin >piped.out 2>piped.err
    try "a pipe" [ "$(cat piped.out piped.err)" = "$moves$newline  the PWM fan at byte 76 moved from zone 1 to zone 2" ]
    dd if=one 2>/dev/null | "$esa" diff --words /dev/stdin two >piped.out 2>piped.err
    try "a pipe in front" [ "$(cat piped.out piped.err)" = "$moves$newline  the element at byte 76 moved from zone 1 to zone 2" ]
}

# The number of the table before its refusal, and its sentence alone.
refused_tables() {
    try "the first table" refuses diff "R	1	13	16" "bad: $zone_missing" bad good
    try "the second table" refuses diff "R	2	13	16" "bad: $zone_missing" good bad
    try "both" refuses diff "R	1	1	0" "empty: $empty" empty bad
    try "both, exchanged" refuses diff "R	1	13	16" "bad: $zone_missing" bad empty
    try "10 MB that start like a table" refuses diff "R	2	3	0" "large: $too_long" --words good large
    try "a lamp that is not on the chip" refuses diff "R	2	10	88" "lamp: $lamp_lacks" --chip 321 good lamp
    try "a table of the archive that another rule refuses" archived_refusal
    dd if=bad 2>/dev/null | "$esa" diff good /dev/stdin >piped.out 2>piped.err
    look_up="/dev/stdin: 13 at 16: './esa why 13' tells what that means"
    try "a refused table through a pipe" [ "$(cat piped.out piped.err)" = "R	2	13	16$newline$look_up" ]
}

# Block mode, and a zone that nobody declares: by the archive's rules the first is no fault.
archived_refusal() {
    table_of 25 01150000FFFFFF0702900000000000000000000000 >undeclared
    ran diff undeclared good
    starts='^undeclared: 13 at 16: the digital thermal sensor at byte 16 names zone 7'
    [ "$status" = 1 ] && [ "$(cat seen.out)" = "R	1	13	16" ] && grep -q "$starts" seen.err || show
}

misused_diffs() {
    needs="esa: diff needs the names of two tables"
    try "diff of nothing" complains 2 "$needs" diff
    try "diff of one name" complains 2 "$needs" diff good
    try "diff of three names" complains 2 "esa: diff takes two tables, and 3 names were given" diff good good good
    try "diff of an empty name" complains 2 "esa: diff needs the name of a table, and the name given is empty" diff '' good
    try "diff and an empty name" complains 2 "esa: diff needs the name of a table, and the name given is empty" diff good ''
    try "diff of a file that is not there" complains 2 "esa: missing $no_file" diff missing good
    try "diff and a file that is not there" complains 2 "esa: missing $no_file" diff bad missing
    try "diff of a folder" complains 2 "esa: box is a folder; diff takes two tables, so name a file in it" diff good box
    try "diff of a link to nowhere" complains 2 "esa: dangling cannot be read: it is a link to a file that is not there" diff dangling good
    if [ -r /proc/self/mem ]; then
        try "diff of a file whose reading fails" complains 2 "esa: /proc/self/mem $failed" diff good /proc/self/mem
        try "diff of two such" complains 2 "esa: /proc/self/mem $failed" diff /proc/self/mem /proc/self/mem
    fi
    try "diff --archive" complains 2 "esa: diff takes no --archive: it always reads by the archive's rules" diff --archive good good
    try "diff --words twice" complains 2 "esa: the option --words is given twice" diff --words --chip 320 --words good good
    later="esa: options stand right behind the command's name, and --words comes later"
    try "diff good good --words" complains 2 "$later" diff good good --words
    try "list --words" complains 2 "esa: list takes no --words; diff and salvage do" list --words good
    try "diff --help" helps diff --help
    no_option_of diff good
}

# Under the line of a field of a kind its sentence: kind, field, contents, sentence by tabs.
sentences_of_lines() {
    while IFS=$tab read -r id field first second sentence <&3; do
        place=16
        [ "$id" != 00 ] || place=0
        line="D	$place	$place	$field	$first	$second"
        said=$(printf '%s\n' "$line" | ONE="011300020007000080FFFFFF00000000${id}0300" TWO='' awk -f "$root/tools/refusals/elements.awk" \
            -f "$root/tools/differences/words.awk" "$root/tools/differences/texts.tsv" -)
        try "the sentence of $id, $field: $said" [ "$said" = "$line$newline  $sentence" ]
    done 3<"$parts/differences.tsv"
}

# Of kinds: two, the second elsewhere, and one without a partner.
kinds_told() {
    told="D	16	16	kind	03	0B
  where a PWM fan was, at byte 16, a zone descriptor is now
D	32	46	kind	0B	03
  where a zone descriptor was, at byte 32, a PWM fan is now, at byte 46 of the second table"
    try "the sentences of kinds exchanged" differ "$told" --words before behind
    told="D	16	-	kind	0B	-
  the first table has one more element, a zone descriptor at byte 16
D	46	-	kind	03	-
  the first table has one more element, a PWM fan at byte 46"
    try "the sentences of elements without a partner" differ "$told" --chip 321 --words -- behind bare
    told="D	0	0	string index	1	0
  the device had string 1 'Quiet box' for its name and now has no string"
    "$root/tools/bytes" "$(hex_of good | sed 's/^\(.\{8\}\)01/\100/')" >nameless
    try "a name that is read" differ "$told" --words good nameless
}

# Each field of each kind that document 02 and its rulings name has one.
every_field_told() {
    common="string index,x pos,y pos,z pos,zone identifier"
    fields="00,esa device type,string index,serial number,spwr,power units,hardware revision 0,hardware revision 1,hardware revision 2
01,$common,bus type,device address,temperature lsb read register,temperature msb read register
01,minimum value,minimum temp,maximum value,maximum temp
02,$common,thermal analog type,pin,value0,value25,value50,value75,value100
03,$common,pwm,tach,ppr,minimum rpm,maximum rpm,minimum duty cycle
04,$common,pin1,color1,purpose1,pin2,color2,purpose2,pin3,color3,purpose3
05,$common,pin,full,empty,warning
06,$common,pwm,tach,ppr,minimum rpm,maximum rpm,minimum duty cycle
07,$common,pin,vmax,vmin
08,$common,pin,imin,imax
09,$common,bus type,device address,variable part
0A,$common,bus type,device address,variable part
0B,variable part
0C,variable part
0D,$common,bus type,device address,chip identifier,variable part
0E,$common,red,green,blue"
    printf '%s\n' "$fields" | awk -F , '{ for (i = 2; i <= NF; i++) print $1 "\t" $i }' | sort >wanted
    cut -f 1,2 "$parts/differences.tsv" | sort -u >seen.out
    cmp -s wanted seen.out || { diff wanted seen.out && return 1; }
}

# A misuse of the program by itself: nothing on standard output, and one sentence on standard error.
differences_complains() { # WORD...
    path=$("$root/tools/program" differences)
    "$path" "$@" >seen.out 2>seen.err </dev/null || :
    [ ! -s seen.out ] && [ "$(wc -l <seen.err)" -eq 1 ] || show
}

# What it prints, whatever its status.
differences_prints() { # TEXT WORD...
    printf '%s' "$1" >wanted
    shift
    path=$("$root/tools/program" differences)
    "$path" "$@" >seen.out 2>seen.err </dev/null || :
    cmp -s wanted seen.out && [ ! -s seen.err ] || show
}

differences_program() {
    for word in --all --chip=321 --chi -x --words --archive; do
        try "the program differences $word" differences_complains "$word" good good
    done
    for number in 322 32 '' -- good; do
        try "the program differences --chip '$number'" differences_complains --chip "$number" good good
    done
    try "the program differences --chip twice" differences_complains --chip 320 --chip 320 good good
    try "the program differences without a word" differences_complains
    try "the program differences with options alone" differences_complains --chip 321 --
    try "the program differences with one file" differences_complains good
    try "the program differences with three files" differences_complains good good good
    try "the program differences of a table and itself" differences_prints '' good good
    try "of a file that is not there" differences_prints "X	1$newline" missing good
    try "of another" differences_prints "X	2$newline" --chip 321 good missing
    try "of two" differences_prints "X	1$newline" -- missing missing
    try "a refused table and none" differences_prints "X	2$newline" bad missing
    try "a folder" differences_prints "X	2$newline" good box
    try "a refused table" differences_prints "R	1	13	16$newline" bad bad
    try "10 MB that start like a table" differences_prints "R	2	3	0$newline" good large
}

diffing() {
    cp good same
    cp "$tables/larger-chip.esa" lamp
    cp "$tables/old-box.esa" old
    tab='	'
    two_tables
    refused_tables
    misused_diffs
    try "each field of each kind has a sentence that is tried" every_field_told
    sentences_of_lines
    kinds_told
    differences_program
    ln -s "$tables" tables
    try "the story of the quiet box that hums" as_told "$tables/this-month.txt"
    try "last month's table" as_told "$tables/last-month.txt"
    rm -f tables
}
