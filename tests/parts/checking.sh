# Part of tests/esa: ./esa check on files of every sort.
# shellcheck shell=sh disable=SC2015,SC2016,SC2154

zone_missing="13 at 16: the PWM fan at byte 16 names zone 1, and no zone descriptor declares it; add the zone descriptor or move the fan to a zone that exists"
too_long="3 at 0: the file has more than 4,096 bytes, and no table is longer; this is another kind of file, or something was added behind the table"
other_start="2 at 0: byte 0 is 00h, and a table of revision 0.90 starts with 01h; this is another kind of file, or its start was overwritten"
empty="1 at 0: the file is empty, and a table has at least 16 bytes; copy the table again from where it came"
no_file="cannot be read: there is no such file; look at its name"
no_input="cannot be read: there is no such file, and standard input is not read; name a table"
folder="cannot be read: it is a folder; name the tables in it"
barred="cannot be read: you may not read it; look at its permissions"
failed="cannot be read: reading it failed; try again, or copy it to another disk"
newline='
'

odd_files() {
    mkdir box
    cp "$tables/quiet-box.esa" good
    cp "$tables/spring.esa" bad
    : >empty
    dd if=/dev/zero of=zeros bs=1048576 count=10 2>/dev/null
    { printf '\001' && cat zeros; } >large
    { cat good && printf '\000'; } >longer
    ln -s nowhere dangling
    try "an empty file" gives 1 "empty: $empty" check empty
    try "10 MB of zeros" gives 1 "zeros: $other_start" check zeros
    try "10 MB that start like a table" gives 1 "large: $too_long" check large
    try "a byte too many" gives 1 "longer: 3 at 0: bytes 1-2 say that the table has 326 bytes, and the file has 327; cut it to 326 bytes, or let ./esa salvage do so" check longer
    { cat good && head -c 5000 zeros; } >padded
    try "5,000 bytes too many" gives 1 "padded: 3 at 0: the file has more than 4,096 bytes, and bytes 1-2 say that the table has 326; cut it to 326 bytes, or let ./esa salvage do so" check padded
    try "a file that is not there" gives 2 "missing: $no_file" check missing
    try "an empty name" gives 2 ": cannot be read: its name is empty; name a table" check ''
    try "a dash for standard input" gives 2 "-: $no_input" check -
    try "a folder" gives 2 "box: $folder" check box
    try "a link to nowhere" gives 2 "dangling: cannot be read: it is a link to a file that is not there" check dangling
    try "nothing that can be read, and a line each" gives 2 "missing: $no_file
box: $folder
-: $no_input" check missing box -
    try "2 goes before 1, and every file has its line" gives 2 "good: ok, 15 elements
missing: $no_file
bad: $zone_missing
box: $folder
good: ok, 15 elements" check good missing bad box good
}

odd_names() {
    # shellcheck disable=SC2016
    for name in 'with  blanks ' '-n' '--' '-' '*' '$(false)' 'a\tb%s' "o'clock\"" 'R	1' "two${newline}lines" 'é'; do
        cp good "./$name"
        cp bad "./bad$name"
        try "a good table named '$name'" gives 0 "$name: ok, 15 elements" check -- "$name"
        try "a bad table named 'bad$name'" gives 1 "bad$name: $zone_missing" check "bad$name"
    done
    try "a name with a dash needs no --" gives 0 "-n: ok, 15 elements" check -n
    long=$(printf '%04096d' 0)
    try "a name of 4,096 bytes" gives 2 "$long: $no_file" check "$long"
}

# A file that opens and whose reading fails: no command takes it for an empty table.
failing() {
    if [ ! -r /proc/self/mem ]; then
        not_tried "a file whose reading fails: there is no /proc/self/mem"
        return
    fi
    try "a file whose reading fails" gives 2 "/proc/self/mem: $failed" check /proc/self/mem
    try "list of a file whose reading fails" complains 2 "esa: /proc/self/mem $failed" list /proc/self/mem
    try "rewrite of a file whose reading fails" complains 2 "esa: /proc/self/mem $failed" rewrite /proc/self/mem never
    try "nothing is written of it" [ ! -e never ]
}

# A file that may not be read: as nobody, where this user reads everything.
unreadable() {
    cp good secret
    chmod 000 secret
    as=''
    [ ! -r secret ] || as=nobody
    if [ -n "$as" ] && ! nobody "$esa" help >/dev/null 2>&1; then
        not_tried "a file without permission: this user may read every file, and cannot be nobody"
        return
    fi
    $as "$esa" check secret good >seen.out 2>&1
    try "a file without permission" [ "$? $(cat seen.out)" = "2 secret: $barred${newline}good: ok, 15 elements" ]
    for command in 'list secret' 'rewrite secret never'; do
        # shellcheck disable=SC2086
        $as "$esa" $command >seen.out 2>&1
        try "$command without permission" [ "$? $(cat seen.out)" = "2 esa: secret $barred" ]
    done
    $as "$esa" rewrite good secret >seen.out 2>&1
    try "rewrite to a file without permission" [ "$? $(cat seen.out)" = "2 esa: secret cannot be written: you may not change it; look at its permissions" ]
}

nobody() { # COMMAND...
    setpriv --reuid=65534 --regid=65534 --clear-groups --no-new-privs "$@"
}

forty_one() {
    mkdir boxes
    n=0
    while [ $n -lt 41 ]; do
        n=$((n + 1))
        cp good boxes/$n
    done
    cp bad boxes/7
    began=$(date +%s%N)
    ran check boxes/*
    took=$((($(date +%s%N) - began) / 1000000))
    try "41 files, one of them bad: status" [ "$status" = 1 ]
    try "41 files: a line each" [ "$(wc -l <seen.out)" -eq 41 ]
    try "41 files: 40 good ones" [ "$(grep -c ': ok, 15 elements$' seen.out)" -eq 40 ]
    try "41 files: the bad one" grep -qxF "boxes/7: $zone_missing" seen.out
    printf '41 files in one check: %s ms\n' $took
}

elsewhere() {
    ln -s "$esa" link-to-esa
    status=0
    (cd box && ../link-to-esa check ../good) >seen.out 2>seen.err || status=$?
    try "through a link, from another folder" [ "$status $(cat seen.out)" = "0 ../good: ok, 15 elements" ]
}

# A copy without programs, as a fresh clone is, with a kit whose 'rt run' leaves the program of this repository.
fresh_clone() {
    mkdir -p fresh/kit && cp "$esa" "$root/crates.txt" fresh && cp -R "$root/tools" fresh || return
    status=0
    fresh/esa check missing box >seen.out 2>&1 || status=$?
    try "nothing is built to say that no file can be read" [ "$status $(cat seen.out)" = "2 missing: $no_file${newline}box: $folder" ]
    for crate in $(cd fresh && tools/below verdicts); do mkdir -p "fresh/crates/$crate/src"; done
    : >fresh/crates/verdicts/src/main.rt
    printf '#!/bin/sh\nmkdir out && cp "%s" out && echo "rt: running out/verdicts" >&2\n' "$root/crates/verdicts/out/verdicts" >fresh/kit/rt
    chmod +x fresh/kit/rt
    PATH=$PWD/fresh/kit:$PATH fresh/esa check good >seen.out 2>seen.err
    try "a program that is missing is built" [ "$? $(cat seen.out)" = "0 good: ok, 15 elements" ]
    rm fresh/kit/rt
    PATH=$PWD/fresh/kit:/usr/bin:/bin fresh/esa check good >seen.out 2>&1
    try "and then needs no kit" [ "$? $(cat seen.out)" = "0 good: ok, 15 elements" ]
}

# A program that stands needs no kit.
without_rt() {
    if PATH=/usr/bin:/bin command -v rt >/dev/null; then
        not_tried "a check without rt on the path"
        return
    fi
    PATH=/usr/bin:/bin "$esa" check good >seen.out 2>&1
    try "a check without rt on the path" [ "$? $(cat seen.out)" = "0 good: ok, 15 elements" ]
}

checking() {
    odd_files
    odd_names
    failing
    unreadable
    forty_one
    elsewhere
    fresh_clone
    without_rt
}
