# Part of tests/esa: ./esa rewrite writes OUT whole or not at all, and leaves nothing else behind.
# shellcheck shell=sh disable=SC2015,SC2154

silent() { # WORD...
    ran "$@"
    [ "$status" = 0 ] && [ ! -s seen.out ] && [ ! -s seen.err ] || show
}

same() { # FILE FILE
    cmp -s -- "$1" "$2"
}

mode_of() { # FILE
    # shellcheck disable=SC2012
    ls -ld "$1" | cut -c 1-10
}

# The quiet box with a 1 in a reserved place.
soiled() {
    { dd if=good bs=1 count=12 && printf '\001' && dd if=good bs=1 skip=13; } 2>/dev/null
}

written() {
    soiled >reserved
    try "a table with a reserved place that is not zero is another" eval '! same reserved good'
    try "rewrite to a new file" silent rewrite reserved new
    try "reserved places are zero in it" same new good
    try "the table itself is as it was" eval 'soiled | cmp -s - reserved'
    cp bad over
    chmod 640 over
    try "rewrite over an old file" silent rewrite reserved over
    try "the old file is the new table" same over good
    try "it keeps its permissions" [ "$(mode_of over)" = -rw-r----- ]
    cp reserved both
    try "FILE may be OUT" silent rewrite both both
    try "FILE that is OUT is rewritten" same both good
    ln -s over to-over
    cp bad over
    try "rewrite to a link" silent rewrite good to-over
    try "the link stays, and its file is written" eval '[ -L to-over ] && same over good'
    try "rewrite with odd names" silent rewrite -- '-n' '-o ut*'
    try "the odd name is written" same good '-o ut*'
    try "rewrite into another folder" silent rewrite good box/new
    try "the file in the other folder" same box/new good
}

refused() {
    cp good out
    try "a refused table" complains 1 "bad: $zone_missing" rewrite bad out
    try "its OUT is as it was" same out good
    try "a refused table and a new name" complains 1 "empty: $empty" rewrite empty never
    try "no file of that name is made" [ ! -e never ]
    cp bad both
    try "a refused table that is its own OUT" complains 1 "both: $zone_missing" rewrite both both
    try "it is as it was" same both bad
    try "10 MB" complains 1 "large: $too_long" rewrite large out
    try "its OUT is as it was, again" same out good
}

unwritable() {
    try "a table that is not there" complains 2 "esa: missing $no_file" rewrite missing out
    try "a table that is a folder" complains 2 "esa: box is a folder; rewrite takes one table, so name a file in it" rewrite box out
    try "a table that is a dash" complains 2 "esa: - $no_input" rewrite - out
    try "OUT that is a folder" complains 2 "esa: box is a folder; name the file to write to" rewrite good box
    try "OUT that is a device" complains 2 "esa: /dev/null is no ordinary file; name another file to write to" rewrite good /dev/null
    try "OUT that is a link to nowhere at all" complains 2 "esa: lost is a link to nowhere; name the file to write to" rewrite good lost
    try "OUT in a folder that is not there" complains 2 "esa: nowhere/out cannot be written: there is no folder ./nowhere; make it first" rewrite good nowhere/out
    try "OUT in a folder where no file can be made" complains 2 "esa: /proc/out cannot be written: no file can be made in /proc; look at its permissions" rewrite good /proc/out
    try "OUT that is an option" complains 2 "esa: there is no option '--force'; if it is a file, put ./ before it" rewrite good --force
    try "OUT that is a dash" complains 2 "esa: rewrite does not write to standard output; name a file to write to" rewrite good -
    try "no file with a dash is made" eval '[ ! -e ./--force ] && [ ! -e ./- ]'
    try "OUT is as it was after all that" same out good
    if [ -e /dev/full ] && ln -s /dev/full full; then
        try "OUT that leads to a device" complains 2 "esa: full is no ordinary file; name another file to write to" rewrite good full
    fi
}

# A rewrite that waits for its table is told to end.
interrupted() {
    mkfifo pipe
    exec 8<>pipe
    "$esa" rewrite pipe out 8>&- >seen.out 2>seen.err &
    job=$!
    n=0
    while [ -z "$(find . -name '.esa*')" ] && [ $n -lt 50 ]; do
        n=$((n + 1))
        sleep 0.1
    done
    try "a file is written beside OUT first" [ -n "$(find . -name '.esa*')" ]
    kill -TERM "$job"
    exec 8>&-
    status=0
    wait "$job" || status=$?
    try "a rewrite that is told to end does (its status is $status)" [ "$status" = 143 ]
    try "OUT is as it was then" same out good
}

# A refusal whose sentence nobody reads: its reader has gone before it is written.
unheard() {
    { "$esa" rewrite bad out 2>&1 || echo $? >unheard.status; } | :
    try "a refusal that nobody reads ends (its status is $(cat unheard.status))" [ -s unheard.status ]
    try "OUT is as it was after it" same out good
    try "and no file is left behind by it" [ -z "$(find . -name '.esa*')" ]
}

rewriting() {
    ln -s nowhere/at/all lost
    written
    refused
    unwritable
    unheard
    interrupted
    try "no file is left behind" [ -z "$(find . -name '.esa*')" ]
}
