# Part of tests/files: inputs as long as a table can be and longer, pipes that are slow or never end, and no input at all.
# shellcheck shell=sh disable=SC2154

zeros() { # COUNT
    head -c "$1" /dev/zero
}

# A good table of 4,096 bytes: A and a string of 4,080 bytes. What stands behind is cut or added.
longest() {
    "$root/tools/bytes" 010010020007000080FFFFFF000000000CF00F01
    zeros 4076
}

lengths() {
    longest >"$work/longest"
    hold '4,096 bytes, a good table' "$work/longest"
    head -c 4095 "$work/longest" >"$work/input"
    hold 'its last byte cut off' "$work/input"
    { longest && zeros 1; } >"$work/input"
    hold '4,097 bytes that say 4,096' "$work/input"
    { longest && zeros 65904; } >"$work/large"
    hold '70,000 bytes that start like a table' "$work/large"
    zeros 70000 >"$work/input"
    hold '70,000 zeros' "$work/input"
    zeros 4096 >"$work/input"
    hold '4,096 zeros' "$work/input"
    { "$root/tools/bytes" 010110020007000080FFFFFF00000000 && zeros 4081; } >"$work/input"
    hold '4,097 bytes that say so' "$work/input"
}

# Each byte on its own, with a rest after it.
slowly() { # FILE
    for code in $(od -An -v -to1 "$1"); do
        # shellcheck disable=SC2059
        printf "\\$code"
        sleep 0.005
    done
}

pipes() {
    box=$root/tables/quiet-box.esa
    for way in hold_piped hold_piped_received; do
        $way 'a pipe' "$box" cat "$box"
        $way 'a pipe, filled byte by byte' "$box" dd bs=1 if="$box"
        $way '4,097 bytes and more, byte by byte' "$work/large" dd bs=1 if="$work/large"
        head -c 62 "$root/tables/spring.esa" >"$work/input"
        $way 'a slow pipe that ends early' "$work/input" slowly "$work/input"
        "$root/tools/bytes" 011000020007000080FFFFFF00000000 >"$work/input"
        $way 'a slow pipe' "$work/input" slowly "$work/input"
    done
    yes | head -c 5000 >"$work/input"
    hold_piped 'a pipe that never ends' "$work/input" yes
}

# A closed standard input cannot be read, and is not taken for an empty one.
no_input() {
    : >"$work/input"
    hold 'an empty file' "$work/input"
    runs list "$list" <&-
    runs rewrite "$rewrite" <&-
    runs fan "$seek" "$zone" <&-
    runs remove "$take" "$element" <&-
    runs pins "$sheet" <&-
    runs receive "$receive" <&-
    judge_unread 'a closed standard input' list rewrite fan remove pins receive
}
