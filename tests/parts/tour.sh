# Part of tests/esa: the tour of the README, and of the pages under docs/ that show commands: each '$' line, run in turn in a folder with
# ./esa and tables/, prints on either output what stands under it.
# shellcheck shell=sh disable=SC2015,SC2016,SC2154

# Each command of a page as a pair of files, NNN.command and NNN.wanted.
shown_by() { # PAGE FOLDER
    FOLDER=$2 awk '
        function close_both() { if (n) { close(command); close(wanted) } }
        /^    \$ / { close_both(); n++; base = sprintf("%s/%03d", ENVIRON["FOLDER"], n); command = base ".command"; wanted = base ".wanted"
            print substr($0, 7) >command; printf "" >wanted; on = 1; next }
        on && /^    / { print substr($0, 5) >wanted; next }
        { on = 0 }' "$1"
}

prints_it() { # NUMBER
    (cd ground && sh "../shown/$1.command") >seen.out 2>&1 </dev/null
    cmp -s seen.out "shown/$1.wanted" && return
    diff "shown/$1.wanted" seen.out | sed 's/^/  /'
    return 1
}

toured() { # PAGE LEAST
    rm -rf ground shown && mkdir ground shown
    ln -s "$root/esa" ground/esa
    ln -s "$root/tables" ground/tables
    shown_by "$root/$1" shown
    count=$(find shown -name '*.command' | wc -l)
    try "$1 shows $2 commands at least" [ "$count" -ge "$2" ]
    n=0
    while [ $n -lt "$count" ]; do
        n=$((n + 1))
        number=$(printf '%03d' $n)
        try "$1: $(cat "shown/$number.command")" prints_it "$number"
    done
}

tour() {
    toured README.md 17
}
