# Part of tests/esa: what is said of each table of sentences.tsv, on the 321 of each of sentences-321.tsv, and by the archive's rules
# of each of sentences-archive.tsv.
# shellcheck shell=sh disable=SC2015,SC2154

# Lines of hex as lines of octal escapes for printf.
octal() {
    awk '
        function value(c) { return index("123456789ABCDEF", c) }
        {
            text = ""
            for (i = 1; i < length($0); i += 2)
                text = text sprintf("\\%03o", 16 * value(substr($0, i, 1)) + value(substr($0, i + 1, 1)))
            print text
        }'
}

# The tables as files, in the order of their lines.
make_tables() { # FOLDER TEXTS
    mkdir "$1"
    sed '/^#/d' "$2" | cut -f 1 | octal >"$work/octal"
    n=1000
    while IFS= read -r bytes; do
        n=$((n + 1))
        # shellcheck disable=SC2059
        printf "$bytes" >"$1/$n"
    done <"$work/octal"
}

sentences_of() { # NAME WORD...
    name=$1
    shift
    make_tables "$work/$name" "$parts/$name.tsv"
    ran check "$@" "$name"/*
    try "status 1 where some tables of $name are refused" [ "$status" = 1 ]
    n=1000
    sed '/^#/d' "$parts/$name.tsv" | cut -f 2 >"$work/said"
    while IFS= read -r said; do
        n=$((n + 1))
        try "$name: $said" [ "$(sed -n "$((n - 1000))p" "$work/seen.out")" = "$name/$n: $said" ]
    done <"$work/said"
    try "a line for each table of $name.tsv" [ "$(wc -l <"$work/seen.out")" -eq $((n - 1000)) ]
}

sentences() {
    sentences_of sentences
    sentences_of sentences-321 --chip 321
    sentences_of sentences-archive --archive
}
