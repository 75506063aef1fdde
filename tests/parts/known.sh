# Part of tests/files: sample tables, the rows of 'Known tables' with the lines that document 01 gives, and generated tables.
# shellcheck shell=sh disable=SC2034,SC2154

samples() {
    for file in "$root"/tables/*.esa; do
        hold "$file" "$file"
    done
}

# A table in hex, and what the first line of its listing starts with on either chip and by either rules: R, number, place of a
# refusal; T of a good one.
row() { # NAME HEX LINE
    "$root/tools/bytes" "$2" >"$work/row" || die "the row '$1' is not in hex"
    for chip in 320 321; do
        for way in hold_on hold_archived; do
            $way $chip "$1" "$work/row"
            case $(head -n 1 "$work/list" | tr '\t' ' ') in "$3"*) continue ;; esac
            printf "wrong: %s: %s the %s the documents want '%s'\n" "$1" $way $chip "$3"
            [ "$right" = no ] || wrong=$((wrong + 1))
        done
        hold_received $chip "$1" "$work/row"
    done
}

# Table A with its length mended; its parts as document 01 writes them out.
a() { # LENGTH ELEMENT...
    length=$1
    shift
    printf '01%s00020007000080FFFFFF00000000' "$length"
    printf '%s' "$@"
}

description_rows() {
    row 'A' "$(a 10)" 'T 0.90 16 2 0 7 self - - -'
    row 'A without its last byte' 011000020007000080FFFFFF000000 'R 1 0'
    row 'empty' '' 'R 1 0'
    row 'A, byte 0 10h' 101000020007000080FFFFFF00000000 'R 2 0'
    row 'A, length 17' "$(a 11)" 'R 3 0'
    row 'A, byte 8 7Dh' 01100002000700007DFFFFFF00000000 'T 0.90 16 2 0 7 500 '
    row 'A, byte 8 7Eh' 01100002000700007EFFFFFF00000000 'R 5 0'
    row 'A, byte 9 30h' 01100002000700008030FFFF00000000 'T 0.90 16 2 0 7 self P3.0 - -'
    row 'A, byte 9 31h' 01100002000700008031FFFF00000000 'R 10 0'
    row 'A, byte 9 10h' 01100002000700008010FFFF00000000 'R 15 0'
}

element_rows() {
    fan=03100000FFFFFF01
    speeds=2C01DC0540
    controller=09110000FFFFFF01004000
    row 'A and two bytes' "$(a 12 0310)" 'R 6 16'
    row 'A, F' "$(a 20 $fan 050602 $speeds)" 'R 13 16'
    row 'A, F with tachometer FFh' "$(a 20 $fan 05FF02 $speeds)" 'R 9 16'
    row 'A, F with PWM 06h, tachometer 05h' "$(a 20 $fan 060502 $speeds)" 'R 10 16'
    row 'A, F cut to 15, its length 15' "$(a 1F 030F0000FFFFFF01 050602 2C01DC05)" 'R 8 16'
    row 'A, C' "$(a 21 $controller 05 01 07000C00)" 'R 13 16'
    row 'A, C with ENTRIES 2' "$(a 21 $controller 05 02 07000C00)" 'R 8 16'
    row 'A, C with ENTRIES 0' "$(a 21 $controller 05 00 07000C00)" 'R 9 16'
}

# The rows that the program known prints: the table in hex, number, place or number of elements. Other lines are of listings.
unstarred_rows() {
    while read -r hex number place <&3; do
        case $hex in [TER]) continue ;; esac
        line="R $number $place"
        [ "$number" != 0 ] || line='T 0.90 '
        row "$hex" "$hex" "$line"
    done 3<"$root/crates/known/stdout"
}

known_rows() {
    description_rows
    element_rows
    unstarred_rows
}

# shellcheck disable=SC2086
make() { # OPTIONS KIND COUNT
    "$second" make $1 "$2" --seed "$seed" --count "$3" "$work/tables $1" || die "no tables were made"
}

# Half of any sort, a quarter of good ones with every kind, a quarter of damaged ones. The program pins is run on the good ones.
generated_for() { # OPTIONS COUNT
    quarter=$(($2 / 4))
    make "$1" any $(($2 - 2 * quarter))
    make "$1" mixed $quarter
    make "$1" damaged $quarter
    for made in "$work/tables $1"/*.bin; do
        case ${made##*/} in mixed*) sheets=yes ;; *) sheets=no ;; esac
        [ ! -f "$made" ] || hold "seed $seed for $1, ${made##*/}" "$made"
    done
    sheets=yes
}

generated() {
    part=$((count / 4))
    generated_for '--chip 320' $((count - 3 * part))
    generated_for '--chip 321' $part
    generated_for '--chip 320 --archive' $part
    generated_for '--chip 321 --archive' $part
}
