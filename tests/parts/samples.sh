# Part of tests/esa: the sample tables, held to the texts beside them.
# shellcheck shell=sh disable=SC2012,SC2015,SC2154

hex_of() { # FILE
    od -An -v -tx1 "$1" | tr -d ' \n' | tr a-f A-F
}

# The bytes in the lines 'PLACE: HEX  ; WHAT' of a text, whose places must add up.
hex_in() { # TEXT
    awk '
        /^ *[0-9]+: [0-9A-F ]+  ; / {
            place = hex = $0
            sub(/:.*/, "", place)
            sub(/^[^:]*: /, "", hex)
            sub(/  ; .*/, "", hex)
            gsub(/ /, "", hex)
            if (place + 0 != n / 2) exit
            n += length(hex)
            printf "%s", hex
        }' "$1"
}

same_bytes() { # NAME
    hex=$(hex_in "$tables/$1.txt")
    [ -n "$hex" ] && [ "$hex" = "$(hex_of "$tables/$1.esa")" ]
}

# What a text has under '$ COMMAND', up to an empty line or the end.
under() { # COMMAND TEXT
    COMMAND="\$ $1" awk '$0 == "" { on = 0 } on { print } $0 == ENVIRON["COMMAND"] { on = 1 }' "$2"
}

# A command, with its options, prints on either output what the text has under it.
as_the_text_says() { # COMMAND NAME STATUS
    under "./esa $1 tables/$2.esa" "$tables/$2.txt" >"$work/wanted"
    status=0
    # shellcheck disable=SC2086
    (cd "$root" && ./esa $1 "tables/$2.esa") >"$work/seen.out" 2>&1 || status=$?
    : >"$work/seen.err"
    [ -s "$work/wanted" ] && [ "$status" = "$3" ] && cmp -s "$work/seen.out" "$work/wanted" || show
}

# The names of the samples that were tried.
sampled=''

sample() { # NAME STATUS
    sampled="$sampled$1 "
    try "$1.txt has the bytes of $1.esa" same_bytes "$1"
    try "./esa check of $1 is as its text says" as_the_text_says check "$1" "$2"
    try "./esa list of $1 is as its text says" as_the_text_says list "$1" "$2"
}

# A sample that an option gives another answer.
sample_with() { # NAME STATUS OPTION STATUS
    sample "$1" "$2"
    try "./esa check $3 of $1 is as its text says" as_the_text_says "check $3" "$1" "$4"
    try "./esa list $3 of $1 is as its text says" as_the_text_says "list $3" "$1" "$4"
}

# Each sample is tried and has a text; and beside them stand the quiet box in Intel HEX, and a trace of it.
every_sample() {
    for name in $sampled; do echo "$name.esa" && echo "$name.txt"; done | cat - "$work/beside" | sort >"$work/wanted"
    ls "$tables" | sort | cmp -s - "$work/wanted" || { ls "$tables" | sort | diff - "$work/wanted" | sed 's/^/  /'; return 1; }
}

samples() {
    sample quiet-box 0
    sample every-kind 0
    sample water-kit 0
    sample leftover 0
    sample reports 0
    try "./esa receive of reports is as its text says" as_the_text_says receive reports 0
    try "./esa receive --report 1 of reports is as its text says" as_the_text_says "receive --report 1" reports 0
    sample last-month 0
    sample this-month 0
    sample spring 1
    sample mute 1
    sample blank 1
    sample lamp 1
    sample twice 1
    sample damaged 1
    sample_with larger-chip 0 '--chip 321' 1
    sample_with old-box 1 --archive 0
    printf 'quiet-box.hex\nquiet-box.trace\n' >"$work/beside"
    try "every sample table is tried and has a text, and nothing else stands there but the quiet box's HEX and trace" every_sample
}
