# Part of tests/esa: ./esa receive says what check says, whatever the size of the reports; standard input, pipes, and the words of
# its program.
# shellcheck shell=sh disable=SC2015,SC2154

# The line and the status of check.
receives_as_check() { # FILE OPTION...
    file=$1
    shift
    ran check "$@" -- "$file"
    cp "$work/seen.out" "$work/wanted"
    checked=$status
    for size in '' 1 7 64 65 4096; do
        # shellcheck disable=SC2086
        ran receive "$@" ${size:+--report $size} -- "$file"
        [ "$status" = "$checked" ] && cmp -s "$work/seen.out" "$work/wanted" && [ ! -s "$work/seen.err" ] || { show; return 1; }
    done
}

# The status, and all of standard output, with standard input as it is.
takes() { # STATUS TEXT WORD...
    wanted=$1 line=$2
    shift 2
    status=0
    "$esa" receive "$@" >"$work/seen.out" 2>"$work/seen.err" || status=$?
    [ "$status" = "$wanted" ] && [ "$(cat "$work/seen.out")" = "$line" ] && [ ! -s "$work/seen.err" ] || show
}

of_files() {
    for file in "$tables"/*.esa; do
        try "receive of ${file##*/} is as check has it" receives_as_check "$file"
        try "receive --chip 321 of ${file##*/} is as check has it" receives_as_check "$file" --chip 321
    done
    cp "$tables/reports.esa" ./-r
    for file in good bad empty longer missing '' box dangling 'with  blanks ' -r; do
        try "receive of '$file' is as check has it" receives_as_check "$file"
    done
    try "receive of 10 MB that start like a table" gives 1 "large: $too_long" receive large
    try "a name with a dash needs no --" gives 0 "-r: ok, 6 elements" receive -r
    # Its zone is one element.
    "$root/tools/bytes" 012E00020007000080FFFFFF000000000B1E00010000000000000000000000000000000000000000000000000000 >one
    try "one element" gives 0 "one: ok, 1 element" receive one
    if [ -r /proc/self/mem ]; then
        try "receive of a file whose reading fails" gives 2 "/proc/self/mem: $failed" receive /proc/self/mem
    fi
}

# Nothing was wrong where a pipe led to it.
all_right() { # FILE
    [ ! -s "$1" ] || { cat "$1"; return 1; }
}

# What is said of a refusal needs the table's bytes, of which a file is left only for so long.
of_standard_input() {
    mkdir held
    export TMPDIR="$work/held"
    try "a dash is standard input" takes 0 "-: ok, 15 elements" - <good
    cp bad ./-
    try "also where a file is called so, and behind --" takes 0 "-: ok, 15 elements" -- - <good
    try "that file" gives 1 "./-: $zone_missing" receive ./-
    rm -f ./-
    try "a refused table on standard input" takes 1 "-: $zone_missing" - <bad
    try "nothing on standard input" takes 1 "-: $empty" - </dev/null
    dd if=large bs=65536 2>/dev/null | takes 1 "-: $too_long" --report 4096 - >told
    try "10 MB through a pipe" all_right told
    for size in 1 64 4096; do
        dd if=bad bs=1 2>/dev/null | takes 1 "-: $zone_missing" --report $size - >told
        try "a pipe that is filled byte by byte, in reports of $size" all_right told
    done
    dd if=bad 2>/dev/null | takes 1 "/dev/stdin: $zone_missing" /dev/stdin >told
    try "a pipe by its name" all_right told
    dd if=lamp 2>/dev/null | takes 1 "-: $lamp_lacks" --chip 321 - >told
    try "a pin that is not on the chip, through a pipe" all_right told
    unset TMPDIR
    try "nothing is left behind of what came on standard input" [ -z "$(find held -type f)" ]
}

misused_receiving() {
    try "receive of nothing" complains 2 "esa: receive needs the name of a table, or - for standard input" receive
    try "receive of two" complains 2 "esa: receive takes one table, and 2 names were given" receive good good
    for size in 0 00 064 4097 10000 -1 +1 1.5 0x40 x '' ' 64' -- good; do
        try "receive --report '$size'" complains 2 "esa: a report has no '$size' bytes; --report takes 1 to 4096" receive --report "$size" good
    done
    try "receive --report" complains 2 "esa: --report needs the bytes of a report behind it: 1 to 4096" receive --report
    try "receive --report twice" complains 2 "esa: the option --report is given twice" receive --report 64 --chip 321 --report 64 good
    later="esa: options stand right behind the command's name, and --report comes later"
    try "receive good --report 64" complains 2 "$later" receive good --report 64
    for command in check list; do
        try "$command --report 64" complains 2 "esa: $command takes no --report; receive does" $command --report 64 good
    done
    try "receive --archive" complains 2 "esa: receive takes no --archive (check and list do): it reads by the ordinary rules" receive --archive good
    try "receive --help" helps receive --report 7 --help
}

receives_program() {
    words="Behind the options stands the number of bytes in a report, from 1 to 4,096, or nothing, which means 64."
    for size in 0 4097 12345 x 1x '' :; do
        try "the program receive '$size'" program_says "$words" receive "$size"
    done
    try "the program receive with two words" program_says "$words" receive 64 64
    try "the program receive with two words behind its options" program_says "$words" receive --chip 321 -- 64 64
    try "the program receive --archive" program_says "The option --archive is not taken here: this program has one set of rules." receive --archive
}

receiving() {
    cp "$tables/larger-chip.esa" lamp
    of_files
    of_standard_input
    misused_receiving
    receives_program
}
