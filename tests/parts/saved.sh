# Part of tests/files: the program salvage against the second program, the new table and the lines.
# shellcheck shell=sh disable=SC2002,SC2034,SC2154

saved_ready() {
    timeout 900 "$root/esa" salvage "$root/tables/quiet-box.esa" "$work/first" || die "the program salvage does not run"
    salvage=$("$root/tools/program" salvage) || exit 2
}

# The lines stand on standard error. Where they are as they should be, nothing is left there to be told of.
lines_judged() { # FILE
    # shellcheck disable=SC2086
    "$second" salvage $options <"$1" >"$work/salvage.wanted" 2>"$work/lines.wanted" || die "the second program: salvage of $1"
    if cmp -s "$work/salvage.err" "$work/lines.wanted"; then
        : >"$work/salvage.err"
    else
        printf 'other lines are wanted\n' >>"$work/salvage.err"
    fi
}

hold_saved_on() { # CHIP NAME FILE
    options="--chip $1"
    runs salvage "$salvage" <"$3"
    lines_judged "$3"
    judge "$2" salvage
    options=''
}

hold_saved() { # NAME FILE
    hold_saved_on 320 "$1" "$2"
    hold_saved_on 321 "$1" "$2"
}

# Every fifth of the generated tables, and files as a damaged chip gives them.
saved_tables() {
    for file in "$root"/tables/*.esa; do
        hold_saved "$file" "$file"
    done
    n=0
    for made in "$work/tables "*/*.bin; do
        n=$((n + 1))
        [ $((n % 5)) -ne 1 ] || hold_saved "seed $seed, ${made##*/}" "$made"
    done
    "$second" make wrecked --seed "$seed" --count $((count / 4)) "$work/wrecked" || die "no damaged files were made"
    for made in "$work/wrecked"/*.bin; do
        [ ! -f "$made" ] || hold_saved "seed $seed, ${made##*/}" "$made"
    done
}

# So many headers of no kind behind table A: a line for each that is looked at.
headers() { # COUNT
    "$root/tools/bytes" 011000020007000080FFFFFF00000000
    n=0
    while [ $n -lt "$1" ]; do
        printf '\017\003\000'
        n=$((n + 1))
    done
}

saved_lengths() {
    longest >"$work/longest"
    hold_saved '4,096 bytes, a good table' "$work/longest"
    head -c 4095 "$work/longest" >"$work/input"
    hold_saved 'its last byte cut off' "$work/input"
    { longest && zeros 1; } >"$work/input"
    hold_saved '4,097 bytes' "$work/input"
    { longest && zeros 65904; } >"$work/large"
    hold_saved '70,000 bytes that start like a table' "$work/large"
    zeros 70000 >"$work/input"
    hold_saved '70,000 zeros' "$work/input"
    zeros 5000 | tr '\000' '\377' >"$work/input"
    hold_saved '5,000 bytes of FFh' "$work/input"
    for many in 1359 1360 1361 3000; do
        headers $many >"$work/input"
        hold_saved "$many headers of no kind" "$work/input"
    done
    for length in 0 1 15 16 17; do
        head -c $length "$work/longest" >"$work/input"
        hold_saved "its first $length bytes" "$work/input"
    done
}

# A pipe, byte by byte, slowly, and one that never ends; no input at all.
saved_pipes() {
    options=''
    box=$root/tables/spring.esa
    dd bs=1 if="$box" 2>/dev/null | runs salvage "$salvage"
    lines_judged "$box"
    judge 'a pipe, filled byte by byte' salvage
    head -c 70 "$box" >"$work/input"
    slowly "$work/input" | runs salvage "$salvage"
    lines_judged "$work/input"
    judge 'a slow pipe that ends early' salvage
    yes | head -c 5000 >"$work/input"
    yes | runs salvage "$salvage"
    lines_judged "$work/input"
    judge 'a pipe that never ends' salvage
    headers 1400 >"$work/input"
    { cat "$work/input" && yes; } 2>/dev/null | runs salvage "$salvage"
    lines_judged "$work/input"
    judge 'a pipe of many lines that never ends' salvage
    runs salvage "$salvage" <&-
    judge_unread 'a closed standard input' salvage
}

saved() {
    saved_ready
    saved_tables
    saved_lengths
    saved_pipes
}
