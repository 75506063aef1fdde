# Part of tests/files: how an input is held to the second program.
# shellcheck shell=sh disable=SC2034,SC2154

# The programs that are missing or old are built, and their paths are known.
ready() {
    cargo build --release --offline --quiet --manifest-path "$root/second/Cargo.toml" || die "the second program does not build"
    second=$root/second/target/release/second
    timeout 900 "$root/esa" list "$root/tables/quiet-box.esa" >/dev/null || die "the program list does not run"
    timeout 900 "$root/esa" rewrite "$root/tables/quiet-box.esa" "$work/first" || die "the program rewrite does not run"
    timeout 900 "$root/esa" fan "$root/tables/quiet-box.esa" 1 >/dev/null || die "the program fan does not run"
    timeout 900 "$root/esa" remove "$root/tables/quiet-box.esa" 0 "$work/first" || die "the program remove does not run"
    timeout 900 "$root/esa" pins "$root/tables/quiet-box.esa" >/dev/null || die "the program pins does not run"
    timeout 900 "$root/esa" receive "$root/tables/quiet-box.esa" >/dev/null || die "the program receive does not run"
    timeout 900 "$root/esa" diff "$root/tables/quiet-box.esa" "$root/tables/quiet-box.esa" || die "the program differences does not run"
    list=$("$root/tools/program" list) || exit 2
    receive=$("$root/tools/program" receive) || exit 2
    rewrite=$("$root/tools/program" rewrite) || exit 2
    seek=$("$root/tools/program" fan) || exit 2
    take=$("$root/tools/program" remove) || exit 2
    sheet=$("$root/tools/program" pins) || exit 2
    sides=$("$root/tools/program" differences) || exit 2
}

# The words of every program that is run: its options, or none; of fan the zone, and of remove the element. Whether pins is run, too.
options='' zone=1 element=0 sheets=yes

# Byte 23 of a file, or 1 where it has none: the zone of its first element, or what stands there of a string or a zone descriptor.
zone_of() { # FILE
    zone=$(od -An -v -tu1 -j23 -N1 "$1" 2>/dev/null | tr -d ' \n')
    zone=${zone:-1}
}

# Runs a program on standard input: its output and its status go to files. It never needs 20 s: then the status is 124.
runs() { # PROGRAM COMMAND [WORD]
    status=0
    eval "timeout 20 \"\$2\" $options ${3:-}" >"$work/$1" 2>"$work/$1.err" || status=$?
    echo "$status" >"$work/$1.status"
}

# shellcheck disable=SC2086
wanted() { # FILE PROGRAM...
    file=$1
    shift
    for program; do
        words=$options
        [ "$program" != fan ] || words="$options $zone"
        [ "$program" != remove ] || words="$options $element"
        "$second" $program $words <"$file" >"$work/$program.wanted" || die "the second program: $program $words of $file"
    done
}

# Status 0, the bytes that are wanted, and nothing on standard error.
same() { # NAME PROGRAM
    read -r status <"$work/$2.status"
    if [ "$status" = 0 ] && cmp -s "$work/$2" "$work/$2.wanted" && [ ! -s "$work/$2.err" ]; then return 0; fi
    printf 'wrong: %s: %s %s has status %s and says\n' "$1" "$2" "$options" "$status"
    cat "$work/$2" "$work/$2.err" | od -c | sed -n '1,8p'
    return 1
}

# Counts the input, after the programs have run on it.
judge() { # NAME PROGRAM...
    files=$((files + 1))
    right=yes
    name=$1
    shift
    for program; do
        same "$name" "$program" || right=no
    done
    [ $right = yes ] || wrong=$((wrong + 1))
}

# Counts the input, which could not be read: each program has status 1, prints nothing and says why in one line.
judge_unread() { # NAME PROGRAM...
    files=$((files + 1))
    name=$1
    shift
    for program; do
        [ "$(cat "$work/$program.status") $(wc -c <"$work/$program") $(wc -l <"$work/$program.err")" = '1 0 1' ] && continue
        wrong=$((wrong + 1))
        printf 'wrong: %s: %s answers, or does not say why not\n' "$name" "$program"
        return
    done
}

# A file, to the programs at once, on one chip; to remove every fifth time, and the elements that are to go take turns.
# shellcheck disable=SC2086
hold_on() { # CHIP NAME FILE
    options="--chip $1"
    zone_of "$3"
    programs='list rewrite fan'
    runs list "$list" <"$3" &
    runs fan "$seek" "$zone" <"$3" &
    if [ $((files / 2 % 5)) -eq 0 ]; then
        programs="$programs remove"
        element=$((files / 10 % 7))
        runs remove "$take" "$element" <"$3" &
    fi
    if [ $sheets = yes ]; then
        programs="$programs pins"
        runs pins "$sheet" <"$3" &
    fi
    runs rewrite "$rewrite" <"$3"
    wanted "$3" $programs
    wait
    judge "$2" $programs
    options=''
}

# By the archive's rules; there is no such rewriting, and fan, remove and pins have the ordinary ones.
hold_archived() { # CHIP NAME FILE
    options="--chip $1 --archive"
    runs list "$list" <"$3"
    wanted "$3" list
    judge "$2" list
    options=''
}

# In reports of a size that changes from file to file.
hold_received() { # CHIP NAME FILE
    options="--chip $1 $(report)"
    runs receive "$receive" <"$3"
    wanted "$3" receive
    judge "$2" receive
    options=''
}

report() {
    case $((files / 6 % 4)) in 0) echo 64 ;; 1) echo 1 ;; 2) echo 7 ;; 3) echo 4096 ;; esac
}

hold() { # NAME FILE
    for chip in 320 321; do
        hold_on $chip "$1" "$2"
        hold_archived $chip "$1" "$2"
        hold_received $chip "$1" "$2"
    done
}

# The bytes of a file, through a pipe that a command fills.
hold_piped() { # NAME FILE COMMAND...
    name=$1 file=$2
    shift 2
    "$@" 2>/dev/null | runs list "$list"
    "$@" 2>/dev/null | runs rewrite "$rewrite"
    zone_of "$file"
    "$@" 2>/dev/null | runs fan "$seek" "$zone"
    element=0
    "$@" 2>/dev/null | runs remove "$take" "$element"
    "$@" 2>/dev/null | runs pins "$sheet"
    wanted "$file" list rewrite fan remove pins
    judge "$name" list rewrite fan remove pins
}

# The same to receive, through a pipe that ends.
hold_piped_received() { # NAME FILE COMMAND...
    name=$1 file=$2
    shift 2
    "$@" 2>/dev/null | runs receive "$receive"
    wanted "$file" receive
    judge "$name" receive
}
