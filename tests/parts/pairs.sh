# Part of tests/files: the program differences, which opens two files itself, against the second program.
# shellcheck shell=sh disable=SC2034,SC2154

# Two files, on both chips.
hold_pair() { # NAME ONE TWO
    for chip in 320 321; do
        options="--chip $chip"
        runs differences "$sides" "-- '$2' '$3'"
        "$second" diff --chip $chip "$2" "$3" >"$work/differences.wanted" || die "the second program: diff of $2 and $3"
        judge "$1" differences
    done
    options=''
}

# Samples beside the quiet box and some of the generated tables beside each other; then what is no table, or no file.
pairs() {
    box=$root/tables/quiet-box.esa
    for file in "$root"/tables/*.esa; do
        hold_pair "the quiet box and $file" "$box" "$file"
    done
    last=$box
    for file in "$work"/tables*/mixed-*[05].bin "$work"/tables*/damaged-*7.bin; do
        [ -f "$file" ] || continue
        hold_pair "seed $seed, ${last##*/} and ${file##*/}" "$last" "$file"
        last=$file
    done
    hold_pair '70,000 bytes that start like a table' "$box" "$work/large"
    hold_pair 'two refused' "$work/large" "$root/tables/spring.esa"
    hold_pair 'a file that is not there' "$work/missing" "$box"
    hold_pair 'a refused one, and none' "$root/tables/spring.esa" "$work/missing"
    hold_pair 'a folder' "$box" "$work"
}
