# Part of tests/esa: ./esa list. What it prints of the samples is held to their texts in samples.sh.
# shellcheck shell=sh disable=SC2015,SC2154

refused_listing() {
    ran list bad
    [ "$status" = 1 ] && [ "$(cat seen.out)" = "R	13	16" ] && [ "$(cat seen.err)" = "bad: $zone_missing" ] || show
}

# A pipe cannot be read a second time for its sentence.
complains_piped() {
    status=0
    "$esa" list /dev/stdin <bad >seen.out 2>seen.err || status=$?
    dd if=bad 2>/dev/null | "$esa" list /dev/stdin >piped.out 2>piped.err
    [ "$status" = 1 ] && [ "$(cat seen.err)" = "/dev/stdin: $zone_missing" ] && [ "$(cat piped.out)" = "R	13	16" ] &&
        [ "$(cat piped.err)" = "/dev/stdin: 13 at 16: './esa why 13' tells what that means" ] || show
}

has_list() {
    [ -f "$root/crates/list/src/main.rt" ]
}

listing() {
    try "the program list is in this copy" has_list
    try "a refused table" refused_listing
    try "list of an empty file" gives 1 "R	1	0" list empty
    try "list of 10 MB that start like a table" gives 1 "R	3	0" list large
    try "list of a file that is not there" complains 2 "esa: missing $no_file" list missing
    try "list of a folder" complains 2 "esa: box is a folder; list takes one table, so name a file in it" list box
    rm -f ./-
    try "list of a dash for standard input" complains 2 "esa: - $no_input" list -
    try "list of a link to nowhere" complains 2 "esa: dangling cannot be read: it is a link to a file that is not there" list dangling
    try "list of a refused table through a pipe" complains_piped
    cp good -- '- a name'
    try "list of a name with a dash and blanks" gives 0 "$(under './esa list tables/quiet-box.esa' "$tables/quiet-box.txt")" list '- a name'
}
