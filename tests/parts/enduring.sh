# Part of tests/esa: what every command does where a new user's machine is in its way: a file that may not be read, a disk without
# room, an end from outside. OUT is whole or as it was, and nothing else is left behind.
# shellcheck shell=sh disable=SC2015,SC2016,SC2046,SC2086,SC2154

# The commands that write OUT, and those that only read.
writers='rewrite remove hex unhex pins salvage'
readers='check list label fan pins receive diff trace'

# The words of a command that reads FILE and writes OUT; without OUT it only reads. (No name here has a blank.)
words_of() { # COMMAND FILE [OUT]
    case $1 in
    pins) echo "pins ${3:+--picture $3} $2" ;;
    remove) echo "remove $2 0 $3" ;;
    label) echo "label $2 0" ;;
    fan) echo "fan $2 1" ;;
    diff) echo "diff good $2" ;;
    *) echo "$1 $2 ${3:-}" ;;
    esac
}

# The file that a command makes its OUT of.
made_of() { # COMMAND
    case $1 in unhex) echo good.hex ;; *) echo good ;; esac
}

# What is left of a command's temporary files: beside OUT, or where such files go.
leftover() { # FOLDER
    find "$1" "$work/passing" -name '.esa*' -o -path "$work/passing/*"
}

# ---- files that may not be read

# As nobody, where this user reads every file.
barred_from() { # COMMAND OUT
    $as "$esa" $(words_of "$1" secret $2) >seen.out 2>&1
    status=$?
    case $1 in check | receive) line="secret: $barred" ;; *) line="esa: secret $barred" ;; esac
    : >seen.err
    [ "$status" = 2 ] && [ "$(cat seen.out)" = "$line" ] && [ ! -e never ] || show
}

unread() {
    cp good secret
    chmod 000 secret
    as=''
    [ ! -r secret ] || as=nobody
    if [ -n "$as" ] && ! nobody "$esa" help >/dev/null 2>&1; then
        not_tried "commands on a file without permission: this user may read every file, and cannot be nobody"
        return
    fi
    for command in $writers; do
        try "$command of a file without permission, to a new name" barred_from $command never
    done
    for command in $readers; do
        try "$command of a file without permission" barred_from $command ''
    done
    rm -f secret
}

# ---- no room

# A command that finds no room says so, with status 2; what it said is in said, and its last line is the status. A picture is drawn
# from a copy of the table, for which there may be no room either.
found_no_room() { # OUT
    case $said in
    *"esa: $1 is left as it was: "*"${newline}status 2") return 0 ;;
    "esa: no file can be made to work with; look whether the disk is full${newline}status 2") return 0 ;;
    esac
    printf '%s\n' "$said" | sed 's/^/  /'
    return 1
}

# No file may grow, as with a quota that is used up: a program that writes is ended, or is told so where it ignores that.
confined() { # WAY WORD...
    way=$1
    shift
    said=$({
        [ "$way" = ended ] || trap '' XFSZ
        ulimit -f 0
        "$esa" "$@" 2>&1
        echo "status $?"
    } 2>/dev/null)
}

quota() { # COMMAND
    words=$(words_of "$1" "$(made_of "$1")" bound/out)
    for way in ended told; do
        rm -f bound/out
        confined $way $words
        try "$1 to a new name, and no file may grow ($way)" found_no_room bound/out
        try "$1: no file of that name is made then" [ -z "$(ls -A bound)" ]
        cp bad bound/out
        confined $way $words
        try "$1 to an old name, and no file may grow ($way)" found_no_room bound/out
        try "$1: the old file is as it was then" eval '[ "$(ls -A bound)" = out ] && same bound/out bad'
    done
}

# On a disk of two pages that are taken: the system itself says that there is no room. What then stands there comes back.
on_full_disk() { # OLD WORD...
    unshare -rm sh -c '
        mount -t tmpfs -o size=8k none full || exit 99
        old=$1
        shift
        [ -z "$old" ] || cp "$old" full/out
        dd if=/dev/zero of=full/filler bs=4096 count=2 2>/dev/null
        "$@" 2>&1
        echo "status $?"
        rm -f left
        [ ! -e full/out ] || cp full/out left
        ls -A full >stands' sh "$1" "$esa" $2
}

full_disk() { # COMMAND
    words=$(words_of "$1" "$(made_of "$1")" full/out)
    said=$(on_full_disk '' "$words")
    try "$1 to a new name on a full disk" found_no_room full/out
    try "$1: nothing new is left there" [ "$(cat stands)" = filler ]
    said=$(on_full_disk bad "$words")
    try "$1 to an old name on a full disk" found_no_room full/out
    try "$1: the old file is as it was there" eval '[ "$(tr "\n" " " <stands)" = "filler out " ] && same left bad'
}

# What is printed to where nothing more fits: a report that did not arrive is no report, whatever it said.
unheard_by() { # WORD...
    said=$("$esa" "$@" 2>&1 >/dev/full; echo "status $?")
    case $said in
    *"esa: standard output cannot be written; look whether the disk is full${newline}status 2") return 0 ;;
    esac
    printf '%s\n' "$said" | sed 's/^/  /'
    return 1
}

full_output() {
    if [ ! -c /dev/full ]; then
        not_tried "standard output without room: there is no /dev/full"
        return
    fi
    for command in $readers; do
        try "$command of a good table, to a full disk" unheard_by $(words_of $command "$tables/this-month.esa")
        try "$command of a refused table, to a full disk" unheard_by $(words_of $command bad)
    done
    for words in 'label good 99' "diff --words good $tables/this-month.esa" 'receive missing' 'why 13' help 'check --help' 'why --help'; do
        try "$words to a full disk" unheard_by $words
    done
}

no_room() {
    mkdir -p bound full
    full_output
    for command in $writers; do quota $command; done
    if [ "$(on_full_disk '' help 2>/dev/null | tail -n 1)" = 'status 0' ]; then
        for command in $writers; do full_disk $command; done
    else
        not_tried "a full disk: none can be made here"
    fi
}

# ---- an end from outside

# Waits, at most 5 s, until a temporary file is there.
begun() {
    n=0
    while [ -z "$(leftover bound)" ] && [ $n -lt 50 ]; do
        n=$((n + 1))
        sleep 0.1
    done
    [ -n "$(leftover bound)" ]
}

# Starts a command that waits for its table in a group of its own, ends it when it has begun, and then lets the table come to its end.
end_it() { # SIGNAL TO-WHOM WORD...
    signal=$1 whom=$2
    shift 2
    rm -f pipe && mkfifo pipe
    exec 8<>pipe
    TMPDIR=$work/passing setsid $unignored "$esa" "$@" 8>&- >seen.out 2>seen.err <pipe &
    job=$!
    begun || printf '  it did not begin\n'
    case $whom in
    alone) kill -s "$signal" "$job" ;;
    all) kill -s "$signal" -- "-$job" ;;
    esac
    exec 8>&-
    status=0
    wait "$job" || status=$?
}

# Ended with the status of a signal, or of a program that failed by one.
ended_so() { # STATUS
    case $status in "$1" | 2) ;; *) show ;; esac
}

# Whether what runs here heeds a hang-up: under nohup nothing does.
hangs_up() {
    ! sh -c 'kill -HUP $$; exit 0' 2>/dev/null
}

ended() { # COMMAND
    hung_up=''
    ! hangs_up || hung_up=yes
    for way in 'TERM alone 143' ${hung_up:+'HUP alone 129'} 'TERM all 143' ${unignored:+'INT all 130'}; do
        set -- "$1" $way
        cp bad bound/out
        end_it "$2" "$3" $(words_of "$1" pipe bound/out)
        try "$1 that is ended ($2, $3) ends so (its status is $status)" ended_so "$4"
        try "$1 that is ended ($2, $3) leaves OUT as it was" same bound/out bad
        try "$1 that is ended ($2, $3) leaves nothing behind" [ -z "$(leftover bound)" ]
    done
}

# A shell has what it runs beside itself ignore INT, unless env undoes that.
from_outside() {
    mkdir -p passing
    unignored='env --default-signal=INT'
    if ! $unignored true 2>/dev/null; then
        unignored=''
        not_tried "INT: there is no env --default-signal"
    fi
    for command in $writers; do ended $command; done
    rm -f bound/out
    for way in 'TERM alone 143' 'TERM all 143'; do
        set -- $way
        end_it "$1" "$2" receive -
        try "receive that is ended ($1, $2) ends so (its status is $status)" ended_so "$3"
        try "receive that is ended ($1, $2) leaves nothing behind" [ -z "$(leftover bound)" ]
    done
}

enduring() {
    [ -e good ] || cp "$tables/quiet-box.esa" good
    [ -e bad ] || cp "$tables/spring.esa" bad
    cp "$tables/quiet-box.hex" good.hex
    rm -rf bound full passing never
    unread
    no_room
    from_outside
}
