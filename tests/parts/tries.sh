# Part of tests/esa: how a thing is tried and counted.
# shellcheck shell=sh disable=SC2015,SC2034,SC2154
esa=$root/esa
tables=$root/tables

# Counts one thing. The command says whether it is right; it may print what it saw.
try() { # WHAT COMMAND...
    tried=$((tried + 1))
    what=$1
    shift
    "$@" && return 0
    wrong=$((wrong + 1))
    printf 'wrong: %s\n' "$what"
}

not_tried() { # WHAT
    printf 'not tried: %s\n' "$1"
}

# Runs ./esa in the working folder: its output is in seen.out and seen.err, its status in status.
ran() { # WORD...
    status=0
    "$esa" "$@" >"$work/seen.out" 2>"$work/seen.err" </dev/null || status=$?
}

show() {
    printf '  status %s\n' "$status"
    sed 's/^/  out: /' "$work/seen.out"
    sed 's/^/  err: /' "$work/seen.err"
    return 1
}

# The status, and all of standard output.
gives() { # STATUS TEXT WORD...
    wanted=$1
    printf '%s\n' "$2" >"$work/wanted"
    shift 2
    ran "$@"
    [ "$status" = "$wanted" ] && cmp -s "$work/seen.out" "$work/wanted" || show
}

# The status, nothing on standard output, and this whole line on standard error.
complains() { # STATUS LINE WORD...
    wanted=$1
    line=$2
    shift 2
    ran "$@"
    [ "$status" = "$wanted" ] && [ ! -s "$work/seen.out" ] && grep -qxF -- "$line" "$work/seen.err" || show
}

# A refusal: all of standard output, all of standard error and the status.
refuses() { # COMMAND OUT ERR WORD...
    name=$1 out=$2 err=$3
    shift 3
    ran "$name" "$@"
    [ "$status" = 1 ] && [ "$(cat seen.out)" = "$out" ] && [ "$(cat seen.err)" = "$err" ] || show
}

# The programs that are missing are built once, before anything is tried.
first_use() {
    ran check "$tables/quiet-box.esa"
    grep '^esa:\|^rt:' "$work/seen.err"
    "$esa" rewrite "$tables/quiet-box.esa" "$work/first" && rm -f "$work/first"
    [ ! -f "$root/crates/list/src/main.rt" ] || "$esa" list "$tables/quiet-box.esa" >/dev/null
    "$esa" label "$tables/quiet-box.esa" 0 >/dev/null
    "$esa" fan "$tables/quiet-box.esa" 1 >/dev/null
    "$esa" remove "$tables/quiet-box.esa" 0 "$work/first" && rm -f "$work/first"
    "$esa" pins "$tables/quiet-box.esa" >/dev/null
    "$esa" hex "$tables/quiet-box.esa" "$work/first" && "$esa" unhex "$work/first" "$work/first" && rm -f "$work/first"
    "$esa" receive "$tables/quiet-box.esa" >/dev/null
    "$esa" diff "$tables/quiet-box.esa" "$tables/quiet-box.esa"
}
