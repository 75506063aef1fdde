# Part of tests/esa: the options of check, list, rewrite and others, and the words that are none; and those of the programs themselves.
# shellcheck shell=sh disable=SC2015,SC2154

lamp_lacks="10 at 88: the pin of the first lamp of the status LED at byte 88 is P2.7, which is not on this chip, the C8051F321; move it to a pin from P0.0 to P0.4 or P1.4 to P2.3, or P3.0, or name the C8051F320 (--chip 320) if the board carries that"
lamp_lines="T	0.90	326	2	1	41	100	P3.0	-	-"

# Standard output, standard error and the status of a refusal.
refuses_listing() { # WORD...
    ran "$@"
    [ "$status" = 1 ] && [ "$(cat seen.out)" = "R	10	88" ] && [ "$(cat seen.err)" = "lamp: $lamp_lacks" ] || show
}

lists() { # WORD...
    ran "$@"
    [ "$status" = 0 ] && [ "$(head -n 1 seen.out)" = "$lamp_lines" ] && [ ! -s seen.err ] || show
}

both_chips() {
    cp "$tables/larger-chip.esa" lamp
    for chip in '' '--chip 320' '--chip 320 --' '--'; do
        # shellcheck disable=SC2086
        try "check $chip of a pin that the 320 alone has" gives 0 "lamp: ok, 15 elements" check $chip lamp
        # shellcheck disable=SC2086
        try "list $chip of it" lists list $chip lamp
        rm -f chosen
        # shellcheck disable=SC2086
        try "rewrite $chip of it" silent rewrite $chip lamp chosen
        try "what rewrite $chip wrote" same chosen lamp
    done
    for chip in '--chip 321' '--chip 321 --'; do
        # shellcheck disable=SC2086
        try "check $chip of it" gives 1 "lamp: $lamp_lacks${newline}good: ok, 15 elements" check $chip lamp good
        # shellcheck disable=SC2086
        try "list $chip of it" refuses_listing list $chip lamp
        # shellcheck disable=SC2086
        try "rewrite $chip of it" complains 1 "lamp: $lamp_lacks" rewrite $chip lamp chosen
        try "OUT is as it was after rewrite $chip" same chosen lamp
    done
    try "rewrite --chip 321 of what is on both chips" silent rewrite --chip 321 good chosen
    try "what it wrote" same chosen good
    try "a refusal of both chips" gives 1 "bad: $zone_missing" check --chip 321 bad
}

# The archive's rules and the ordinary ones, on either chip; the options stand in any order.
both_rules() {
    cp "$tables/old-box.esa" old
    retired=$(sed -n 's/^tables.old-box.esa: \(23 at .*\)/\1/p' "$tables/old-box.txt" | head -n 1)
    try "the sentence of a bus type that is retired" [ -n "$retired" ]
    for words in '' '--chip 320' '--chip 321'; do
        # shellcheck disable=SC2086
        try "check $words of block mode" gives 1 "old: $retired" check $words old
        # shellcheck disable=SC2086
        try "list $words of it" gives 1 "R	23	32" list $words old
        # shellcheck disable=SC2086
        try "rewrite $words of it" complains 1 "old: $retired" rewrite $words old never
        # shellcheck disable=SC2086
        try "check --archive $words of it" gives 0 "old: ok, 5 elements${newline}good: ok, 15 elements" check --archive $words old good
        # shellcheck disable=SC2086
        try "check $words --archive of it" gives 0 "old: ok, 5 elements" check $words --archive -- old
        # shellcheck disable=SC2086
        try "list $words --archive of it" gives 0 "$(under './esa list --archive tables/old-box.esa' "$tables/old-box.txt")" list $words --archive old
    done
    try "a refusal of both rules" gives 1 "bad: $zone_missing" check --archive bad
    try "a refusal of the chip by the archive's rules" refuses_listing list --archive --chip 321 lamp
    try "the listing without block mode is the same" gives 0 "$("$esa" list good)" list --archive good
}

# What is no option is a misuse: status 2, and nothing on standard output.
no_option_of() { # COMMAND OUT...
    command=$1
    shift
    for word in --all --archives --archive=yes -x --chips --reports; do
        none="esa: there is no option '$word'; if it is a file, put ./ before it"
        try "$command $word" complains 2 "$none" "$command" "$word" good "$@"
        try "$command --chip 321 $word" complains 2 "$none" "$command" --chip 321 "$word" good "$@"
        try "$command good $word" complains 2 "$none" "$command" good "$word" "$@"
    done
    for number in 322 32 3210 '' C8051F321 -- good; do
        try "$command --chip '$number'" complains 2 "esa: there is no chip '$number'; --chip takes 320 or 321" "$command" --chip "$number" good "$@"
    done
    later="esa: options stand right behind the command's name, and"
    try "$command --chip=321" complains 2 "esa: there is no option '--chip=321'; write --chip 321" "$command" --chip=321 good "$@"
    try "$command --chip" complains 2 "esa: --chip needs the chip behind it: 320 or 321" "$command" --chip
    try "$command --chip twice" complains 2 "esa: the option --chip is given twice" "$command" --chip 320 --chip 321 good "$@"
    try "$command good --chip 321" complains 2 "$later --chip comes later" "$command" good "$@" --chip 321
    try "$command good --archive" complains 2 "$later --archive comes later" "$command" good "$@" --archive
}

no_options() {
    no_option_of check
    no_option_of list
    no_option_of rewrite never
    no_option_of fan 1
    no_option_of remove 0 never
    no_option_of pins
    no_option_of hex never
    no_option_of unhex never
    no_option_of receive
    for command in check list; do
        try "$command --archive twice" complains 2 "esa: the option --archive is given twice" $command --archive --chip 321 --archive good
    done
    ordinary="esa: rewrite takes no --archive (check and list do): what it writes keeps the ordinary rules, and those have no SMBus block mode"
    try "rewrite --archive" complains 2 "$ordinary" rewrite --archive good never
    try "rewrite --chip 321 --archive" complains 2 "$ordinary" rewrite --chip 321 --archive good never
    try "nothing is written by a misuse" [ ! -e never ]
    try "check --chip 321 of nothing" complains 2 "esa: check needs the name of a file, or several" check --chip 321
    try "list --chip 321 of nothing" complains 2 "esa: list needs the name of a table" list --chip 321
    try "rewrite --chip 321 of one name" complains 2 "esa: rewrite needs the name of a table and a name to write to" rewrite --chip 321 good
    try "why takes no option" complains 2 "esa: why takes one number, and 3 words were given" why --chip 321 10
    for word in --chip --chip=321 --archive --picture --report --words; do
        try "$word before the command" complains 2 "esa: options stand behind the command's name, and $word stands before it" $word check good
    done
    try "check --words" complains 2 "esa: check takes no --words; diff and salvage do" check --words good
    try "check good --words" complains 2 "esa: check takes no --words; diff and salvage do" check good --words
    try "diff --picture" complains 2 "esa: diff takes no --picture; pins does" diff --picture x.svg good good
    try "check --report=64" complains 2 "esa: check takes no --report; receive does" check --report=64 good
    try "receive --report=64" complains 2 "esa: there is no option '--report=64'; write --report 64" receive --report=64 good
    try "pins --picture=x.svg" complains 2 "esa: there is no option '--picture=x.svg'; write --picture x.svg" pins --picture=x.svg good
    try "check --chip 321 --help" helps check --chip 321 --help
}

# A file whose name is an option's: behind '--' it is a file.
named_so() {
    cp good ./--chip
    cp lamp ./321
    cp old ./--archive
    try "files named like an option" gives 0 "--chip: ok, 15 elements${newline}321: ok, 15 elements" check -- --chip 321
    try "and with the option" gives 1 "--chip: ok, 15 elements${newline}321: $lamp_lacks" check --chip 321 -- --chip 321
    try "a file named --archive" gives 1 "--archive: $retired" check -- --archive
    try "and with the option" gives 0 "--archive: ok, 5 elements" check --archive -- --archive
    rm -f ./--chip ./321 ./--archive
}

# A program by itself: a misuse prints nothing on standard output and one sentence on standard error.
program_says() { # LINE PROGRAM WORD...
    line=$1 path=$("$root/tools/program" "$2")
    shift 2
    "$path" "$@" <good >seen.out 2>seen.err || :
    [ ! -s seen.out ] && [ "$(cat seen.err)" = "$line" ] || show
}

programs_words() {
    unknown="A word is no option: there are --chip 320, --chip 321 and --archive, and -- ends the options."
    no_chip="Behind --chip stands 320 or 321."
    twice="The option --chip stands more than once."
    archive_twice="The option --archive stands more than once."
    extra="A word stands behind the options, and none is taken: the table comes on standard input."
    for program in list rewrite verdicts pins receive; do
        for word in --all --chip=321 --chi --chipp -x - --archiv --archives; do
            try "the program $program $word" program_says "$unknown" "$program" "$word"
        done
        for number in 322 32 3210 '' 329 -- good; do
            try "the program $program --chip '$number'" program_says "$no_chip" "$program" --chip "$number"
        done
        try "the program $program --chip" program_says "$no_chip" "$program" --chip
        try "the program $program --chip twice" program_says "$twice" "$program" --chip 320 --chip 320
        try "the program $program --chip 321 --all" program_says "$unknown" "$program" --chip 321 --all
        try "the program $program --archive twice" program_says "$archive_twice" "$program" --archive --chip 320 --archive
    done
    for program in list rewrite pins; do
        try "the program $program with a file" program_says "$extra" "$program" good
        try "the program $program with a file behind its options" program_says "$extra" "$program" --chip 321 -- good
        try "the program $program with an empty word" program_says "$extra" "$program" ''
    done
    no_archive="The option --archive is not taken here: this program has one set of rules."
    try "the program rewrite --archive" program_says "$no_archive" rewrite --archive
    try "the program rewrite --archive --chip 321" program_says "$no_archive" rewrite --archive --chip 321
    try "the program pins --archive" program_says "$no_archive" pins --archive
    try "the program verdicts without a file" program_says '' verdicts
    try "the program verdicts with options alone" program_says '' verdicts --chip 321 --archive --
}

options() {
    both_chips
    both_rules
    no_options
    named_so
    programs_words
}
