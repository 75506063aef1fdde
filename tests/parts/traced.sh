# Part of tests/files: the program trace, which opens the table and the trace itself, against the second program.
# shellcheck shell=sh disable=SC2034,SC2154

traced_ready() {
    timeout 900 "$root/esa" trace "$root/tables/quiet-box.esa" /dev/null >/dev/null || die "the program trace does not run"
    tracing=$("$root/tools/program" trace) || exit 2
}

# A table and a trace in files; every second time the trace comes through a pipe.
hold_trace() { # NAME TABLE TRACE
    for chip in 320 321; do
        options="--chip $chip"
        case $(((files + files / 2) % 2)) in
        0) runs trace "$tracing" "'$2' '$3'" ;;
        1) runs trace "$tracing" "'$2'" <"$3" ;;
        esac
        "$second" trace --chip $chip "$2" "$3" >"$work/trace.wanted" || die "the second program: trace of $2 and $3"
        judge "$1" trace
    done
    options=''
}

# So many lines for the table, or none where it is refused.
some_lines() { # TABLE COUNT
    "$second" lines --seed $((seed + files)) --count "$2" "$1" 2>/dev/null || :
}

# The same of a table that is accepted, and then there must be some.
many_lines() { # TABLE COUNT
    "$second" lines --seed $((seed + files)) --count "$2" "$1" || die "the second program: lines for $1"
}

# The samples, some of the generated tables, and what is no table; then traces that are long, cut short or no text at all.
traced() {
    traced_ready
    for file in "$root"/tables/*.esa "$work/tables "*/mixed-*[05].bin "$work/tables "*/damaged-*7.bin; do
        [ -f "$file" ] || continue
        some_lines "$file" 200 >"$work/lines"
        hold_trace "a trace for ${file##*/}" "$file" "$work/lines"
    done
    box=$root/tables/every-kind.esa
    hold_trace 'no line' "$box" /dev/null
    many_lines "$box" 50000 >"$work/lines"
    [ -s "$work/lines" ] || die "the second program makes no lines for $box"
    hold_trace '50,000 lines' "$box" "$work/lines"
    for length in 1 2047 2048 2049 4096 65537; do
        head -c $length "$work/lines" >"$work/cut"
        hold_trace "$length bytes of a trace" "$box" "$work/cut"
    done
    { yes '' | head -n 999998 && many_lines "$box" 9; } >"$work/cut"
    hold_trace 'more than 1,000,000 lines' "$box" "$work/cut"
    hold_trace '70,000 bytes that are no trace' "$box" "$work/large"
    hold_trace '70,000 bytes that start like a table' "$work/large" "$work/lines"
}
