# Part of tests/esa: help, why, and words that make no command.
# shellcheck shell=sh disable=SC2015,SC2154

numbers="the numbers are 0, 1, 2, 3, 4, 5, 6, 7, 8, 9, 10, 11, 12, 13, 14, 15, 16, 17, 18, 19, 20, 21, 22, 23, 24, 25"

helps() { # WORD...
    ran "$@"
    [ "$status" = 0 ] && [ ! -s seen.err ] && grep -q '^use: ./esa check FILE' seen.out || show
}

# The paragraph that the texts have, in lines of at most 78.
tells_why() { # NUMBER
    ran why "$1"
    NUMBER=$1 awk -F '\t' '$1 == ENVIRON["NUMBER"] && $2 == "why" { print $3 }' "$root/tools/refusals/texts.tsv" >wanted
    [ "$status" = 0 ] && [ -s wanted ] && [ "$(tr '\n' ' ' <seen.out)" = "$(cat wanted) " ] &&
        [ "$(awk 'length($0) > 78' seen.out)" = '' ] || show
}

how="'./esa help' tells how"

# A misuse, and all of standard error.
says_all() { # TEXT WORD...
    text=$1
    shift
    ran "$@"
    [ "$status" = 2 ] && [ ! -s seen.out ] && [ "$(cat seen.err)" = "$text" ] || show
}

misused() {
    try "no word at all" complains 2 "esa: say what to do"
    try "no word at all: how to use it" complains 2 "     ./esa help                this text"
    try "a command that there is not: two lines" says_all "esa: there is no command 'ls'${newline}$how" ls good
    try "a letter left out: the nearest command" says_all "esa: there is no command 'chek'; the nearest is check${newline}$how" chek good
    try "a letter too many" complains 2 "esa: there is no command 'diffs'; the nearest is diff" diffs good
    try "two letters exchanged" complains 2 "esa: there is no command 'lable'; the nearest is label" lable good 0
    try "a misuse of a command: its own line and no other" says_all "esa: label needs the name of a table and the number of an element${newline}use: ./esa label FILE K [NAME]${newline}$how" label
    try "that of another" says_all "esa: trace takes a table and a trace, and 3 names were given${newline}use: ./esa trace FILE [TRACE]${newline}$how" trace a b c
    try "an unknown word, like none" says_all "esa: there is no command 'verify'${newline}$how" verify good
    try "an option for a command" complains 2 "esa: there is no command '--all'" --all good
    try "an empty word" complains 2 "esa: there is no command ''" ''
    try "check of nothing" complains 2 "esa: check needs the name of a file, or several" check
    try "list of nothing" complains 2 "esa: list needs the name of a table" list
    try "list of an empty name" complains 2 "esa: list needs the name of a table, and the name given is empty" list ''
    try "list of two" complains 2 "esa: list takes one table, and 2 names were given" list good good
    try "rewrite of one name" complains 2 "esa: rewrite needs the name of a table and a name to write to" rewrite good
    try "rewrite of an empty name" complains 2 "esa: rewrite needs the name of a table, and the name given is empty" rewrite '' out
    try "rewrite to an empty name" complains 2 "esa: rewrite needs a name to write to, and the name given is empty" rewrite good ''
    try "rewrite of three names" complains 2 "esa: rewrite takes a table and a name to write to, and 3 names were given" rewrite good out out
    try "why of nothing" complains 2 "esa: why needs a number; $numbers" why
    try "why of an empty word" complains 2 "esa: why needs a number; $numbers" why ''
    try "why of two" complains 2 "esa: why takes one number, and 2 words were given" why 1 2
}

words() {
    try "help" helps help
    try "--help" helps --help
    try "check --help" helps check --help
    misused
    for number in 0 1 2 3 4 5 6 7 8 9 10 11 12 13 14 15 16 17 18 19 20 21 22 23 24 25; do
        try "why $number" tells_why $number
    done
    for number in 26 013 1.5 -1 x; do
        try "why '$number'" complains 2 "esa: there is no answer $number; $numbers" why "$number"
    done
}
