# Part of tests/files: the programs ihex and unhex against the second program.
# shellcheck shell=sh disable=SC2002,SC2034,SC2154

moved_ready() {
    timeout 900 "$root/esa" hex "$root/tables/quiet-box.esa" "$work/first" || die "the program ihex does not run"
    timeout 900 "$root/esa" unhex "$work/first" "$work/first" || die "the program unhex does not run"
    hex=$("$root/tools/program" ihex) || exit 2
    unhex=$("$root/tools/program" unhex) || exit 2
}

# A table to its text on both chips; and back, where there is a text.
hold_table() { # NAME FILE
    for chip in 320 321; do
        options="--chip $chip"
        runs hex "$hex" <"$2"
        wanted "$2" hex
        judge "$1" hex
        cp "$work/hex.wanted" "$work/text"
        case $(head -c 1 "$work/text") in :) hold_text_on $chip "the text of $1" "$work/text" ;; esac
    done
    options=''
}

hold_text_on() { # CHIP NAME FILE
    options="--chip $1"
    runs unhex "$unhex" <"$3"
    wanted "$3" unhex
    judge "$2" unhex
    options=''
}

hold_text() { # NAME FILE
    hold_text_on 320 "$1" "$2"
    hold_text_on 321 "$1" "$2"
}

# Every twentieth of the generated tables, and one of 4,096 bytes.
moved_tables() {
    for file in "$root"/tables/*.esa; do
        hold_table "$file" "$file"
    done
    n=0
    for made in "$work/tables "*/*.bin; do
        n=$((n + 1))
        [ $((n % 20)) -ne 1 ] || hold_table "seed $seed, ${made##*/}" "$made"
    done
    longest >"$work/longest"
    hold_table '4,096 bytes, a good table' "$work/longest"
}

# Zeros in data records of one length, and the end. The first byte is 1.
records() { # LENGTH COUNT
    awk -v each="$1" -v count="$2" 'BEGIN {
        for (at = 0; at < count; at += each) {
            n = each < count - at ? each : count - at
            sum = n + int(at / 256) % 256 + at % 256 + (at == 0)
            printf ":%02X%04X00", n, at % 65536
            for (i = 0; i < n; i++) printf "%02X", at + i == 0
            printf "%02X\n", (256 - sum % 256) % 256
        }
        print ":00000001FF"
    }'
}

moved_texts() {
    box=$root/tables/quiet-box.hex
    for length in 1 16 255; do
        for size in 15 16 4096 4097 65536 65537; do
            records $length $size >"$work/input"
            hold_text_on 320 "$size bytes in records of $length" "$work/input"
        done
    done
    : >"$work/input"
    hold_text 'an empty text' "$work/input"
    tr '\n' '\r' <"$box" >"$work/input"
    hold_text 'carriage returns for line feeds' "$work/input"
    tr A-F a-f <"$box" >"$work/input"
    hold_text 'small letters' "$work/input"
    for cut in 1 11 12 43 44 45 400; do
        size=$(wc -c <"$box")
        head -c $((size - cut)) "$box" >"$work/input"
        hold_text_on 321 "a text without its last $cut bytes" "$work/input"
    done
    for line in 1 2 11 21 22; do
        sed "${line}d" "$box" >"$work/input"
        hold_text_on 320 "a text without line $line" "$work/input"
        sed "${line}s/.\$/X/" "$box" >"$work/input"
        hold_text_on 320 "a text with a strange line $line" "$work/input"
        sed "${line}p" "$box" >"$work/input"
        hold_text_on 320 "a text with line $line twice" "$work/input"
    done
    zeros 10000000 >"$work/input"
    hold_text_on 320 '10 MB of zeros' "$work/input"
    { cat "$box" && zeros 10000000; } >"$work/input"
    hold_text_on 320 'a text and 10 MB of zeros' "$work/input"
    zeros 10000000 | tr '\000' '\n' >"$work/input"
    hold_text_on 320 '10 MB of line feeds' "$work/input"
}

# A text through a pipe, whole, byte by byte and slowly; a table through one that never ends; no input at all.
moved_pipes() {
    options=''
    cat "$box" | runs unhex "$unhex"
    wanted "$box" unhex
    judge 'a text through a pipe' unhex
    dd bs=1 if="$box" 2>/dev/null | runs unhex "$unhex"
    judge 'a text through a pipe, byte by byte' unhex
    head -c 60 "$box" >"$work/input"
    slowly "$work/input" | runs unhex "$unhex"
    wanted "$work/input" unhex
    judge 'a slow pipe that ends early' unhex
    yes | head -c 5000 >"$work/input"
    yes | runs hex "$hex"
    wanted "$work/input" hex
    judge 'a pipe that never ends' hex
    runs hex "$hex" <&-
    runs unhex "$unhex" <&-
    judge_unread 'a closed standard input' hex unhex
}

moved() {
    moved_ready
    moved_tables
    moved_texts
    moved_pipes
}
