# Part of tests/esa: ./esa trace runs a trace through a table; lines of every kind, cuts, standard input, and the words of its program.
# shellcheck shell=sh disable=SC2015,SC2154

# The tallies of elements from FIRST to LAST that have no reading.
without_readings() { # FIRST LAST
    k=$1
    while [ "$k" -le "$2" ]; do
        printf '%s\t0\t0\t0\t0\t0\n' "$k"
        k=$((k + 1))
    done
}

# What trace gives of the file 'text': these lines, and then the tallies of fifteen elements without a reading.
answers() { # LINE...
    { [ $# -eq 0 ] || printf '%s\n' "$@"; } >wanted
    without_readings 0 14 >>wanted
    status=0
    "$esa" trace good text >seen.out 2>seen.err || status=$?
    [ "$status" = 0 ] && cmp -s seen.out wanted && [ ! -s seen.err ] || show
}

of_the_sample() {
    {
        printf '1200\n1110\n250\n161\n390\nunder 0\nover 100\n'
        printf 'R\t18\t8\nR\t17\t9\nR\t19\t10\nR\t18\t11\nR\t19\t12\n'
        printf '0\t1200\t1200\t1\t0\t0\n1\t1110\t1110\t1\t0\t0\n2\t250\t390\t2\t1\t0\n3\t161\t161\t1\t0\t1\n'
        without_readings 4 14
    } >sample.out
    try "the sample trace" gives 0 "$(cat sample.out)" trace good "$tables/quiet-box.trace"
    try "by the smaller chip" gives 0 "$(cat sample.out)" trace --chip 321 -- good "$tables/quiet-box.trace"
    "$esa" trace good <"$tables/quiet-box.trace" >seen.out 2>seen.err
    try "without a name the trace is standard input" cmp seen.out sample.out
    "$esa" trace good - <"$tables/quiet-box.trace" >seen.out 2>seen.err
    try "a dash is standard input" cmp seen.out sample.out
    dd if="$tables/quiet-box.trace" bs=1 2>/dev/null | "$esa" trace good >seen.out 2>seen.err
    try "a pipe that is slow" cmp seen.out sample.out
}

# The tabs of what is wanted are tabs.
of_lines() {
    : >text
    try "no line" answers
    printf '\n\n' >text
    try "empty lines" answers 'R	19	1' 'R	19	2'
    printf '0\t0' >text
    try "an unended line is a line" answers 'R	19	1'
    printf '0\t4\t0\r\n' >text
    try "a carriage return" answers 'R	19	1'
    printf '0\t4\t0\n0\t4\t0\t\n0\t4 \t0\n0\t+4\t0\n0\t4\n\t4\t0\n' >text
    try "forms that are none" answers 'R	18	1' 'R	19	2' 'R	19	3' 'R	19	4' 'R	19	5' 'R	19	6'
    printf '000000001\t000000004\t000000001\n0000000001\t4\t1\n86399\t4\t1\n86400\t4\t1\n' >text
    try "zeros in front, nine digits, and the last second" answers 'R	18	1' 'R	19	2' 'R	18	3' 'R	19	4'
    printf '0\t15\t65536\n0\t14\t65536\n0\t0\t65536\n0\t2\t1024\n' >text
    try "the order of the refusals" answers 'R	17	1' 'R	18	2' 'R	19	3' 'R	18	4'
    head -c 5000 /dev/zero | tr '\0' 7 >text
    try "a line of 5,000 digits" answers 'R	19	1'
}

# Lines past 1,000,000 each have their own refusal, and the tallies still come.
of_a_long_trace() {
    awk 'BEGIN { for (i = 0; i < 1000002; i++) print "0\t0\t2" }' >long
    "$esa" trace good long >seen.out 2>seen.err
    try "line 1,000,000" [ "$(sed -n 1000000p seen.out)" = 60 ]
    try "the lines past it" [ "$(sed -n '1000001,1000002p' seen.out)" = "R	19	1000001${newline}R	19	1000002" ]
    try "its tallies" [ "$(sed -n 1000003p seen.out)" = "0	60	60	1000000	0	0" ]
    { "$esa" trace good long 2>seen.err || echo $? >seen.status; } | head -n 1 >seen.out
    try "a reader that goes early" [ "$(cat seen.out seen.err) $(cat seen.status)" = "60 141" ]
    rm -f long
}

of_words() {
    try "a refused table" refuses trace "R	13	16" "bad: $zone_missing" bad "$tables/quiet-box.trace"
    try "no table" complains 2 "esa: trace needs the name of a table, and may have that of a trace behind it" trace
    try "three names" complains 2 "esa: trace takes a table and a trace, and 3 names were given" trace good good good
    try "a trace that is not there" fails 2 trace good nowhere
    try "no archive" complains 2 "esa: trace takes no --archive (check and list do): it reads by the ordinary rules" trace --archive good
}

# Only the status.
fails() { # STATUS WORD...
    wanted=$1
    shift
    ran "$@"
    [ "$status" = "$wanted" ] && [ ! -s "$work/seen.out" ] || show
}

tracing() {
    of_the_sample
    of_lines
    of_a_long_trace
    of_words
}
