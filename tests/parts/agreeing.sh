# Part of tests/esa: help, manual page, completion and the command itself have the same commands, options and numbers.
# shellcheck shell=sh disable=SC2015,SC2016,SC2154

page=$root/esa.1
completion=$root/completion/esa.bash

# What bash would offer for the last of these words, a line each.
offered() { # WORD...
    # shellcheck disable=SC2016
    bash -c '. "$1" && shift && COMP_WORDS=("$@") COMP_CWORD=$(($# - 1)) && _esa && printf "%s\n" "${COMPREPLY[@]}"' \
        bash "$completion" "$@" | sed '/^$/d'
}

offers() { # WANTED WORD...
    wanted=$1
    shift
    seen=$(offered "$@" | sort | tr '\n' ' ')
    [ "$seen" = "${wanted:+$wanted }" ] || { printf "  '%s' offers '%s'\n" "$*" "$seen"; return 1; }
}

# The commands, a line each: of the lines of help, of the manual's synopsis.
commands_of_help() {
    "$esa" help | sed -n -e 's/^use: /     /' -e 's/^     \.\/esa \([a-z]*\)[ ].*/\1/p' | sort -u
}

commands_of_page() {
    awk '/^\.SH/ { inside = /SYNOPSIS/ } inside && $1 == ".B" && $2 == "esa" { print $3 }' "$page" | sort
}

# The options of a command by the manual's synopsis.
options_of_page() { # COMMAND
    sed 's/\\-/-/g' "$page" | NAME=$1 awk '/^\.SH/ { inside = /SYNOPSIS/ }
        inside && $1 == ".B" { mine = $3 == ENVIRON["NAME"] }
        inside && mine && match($0, /--[a-z]+/) { print substr($0, RSTART, RLENGTH) }' | sort
}

# The same by the lines of help: an option, the commands that take it, a colon.
options_of_help() { # COMMAND
    "$esa" help | NAME=$1 awk '/^     --/ { option = $1; line = $0; sub(/^     --.*   +/, "", line); sub(/:.*/, "", line)
        n = split(line, words, /, /)
        for (i = 1; i <= n; i++) if (words[i] == ENVIRON["NAME"] || line == "all but why and help") { print option; break } }' | sort
}

every_option() {
    sed 's/\\-/-/g' "$page" | awk '/^\.SH/ { inside = /SYNOPSIS/ }
        inside && match($0, /--[a-z]+/) { print substr($0, RSTART, RLENGTH) }' | sort -u
}

# An option and what stands behind it.
with_value() { # OPTION
    case $1 in
    --chip) echo "$1 320" ;;
    --report) echo "$1 64" ;;
    --picture) echo "$1 never.svg" ;;
    *) echo "$1" ;;
    esac
}

# The options that the command takes: with one of them and nothing else it asks for a name.
options_of_command() { # COMMAND
    for option in $(every_option); do
        # shellcheck disable=SC2046
        ran "$1" $(with_value "$option")
        head -n 1 "$work/seen.err" | grep -q "^esa: $1 needs " && echo "$option"
    done | sort
}

alike() { # NAME ONE TWO
    [ -n "$2" ] && [ "$2" = "$3" ] || { printf '  %s: %s\n  and: %s\n' "$1" "$2" "$3"; return 1; }
}

same_commands() {
    of_help=$(commands_of_help)
    try "the manual page has the commands of help" alike commands "$of_help" "$(commands_of_page)"
    try "the completion has them" alike commands "$of_help" "$(offered esa '' | sort)"
    for command in $of_help; do
        case $command in why | help) continue ;; esac
        of_page=$(options_of_page "$command")
        try "$command takes the options of the manual page" alike options "$of_page" "$(options_of_command "$command")"
        try "$command has these options in help" alike options "$of_page" "$(options_of_help "$command")"
        try "$command has these options in the completion" alike options "$of_page" "$(offered esa "$command" - | sort)"
    done
    for option in $(every_option); do
        try "the manual page tells of $option" eval 'sed "s/\\\\-/-/g" "$page" | grep -q "^\.BI* $option"'
    done
}

same_numbers() {
    "$esa" why 2>&1 | sed -n 's/^esa: why needs a number; the numbers are //p' | tr -d ' ' | tr ',' '\n' | sort >numbers.why
    try "the completion of why has every number" alike numbers "$(cat numbers.why)" "$(offered esa why '' | sort)"
    awk -F '\t' '/^\.SH/ { inside = /REFUSALS/ } inside && $1 ~ /^[0-9]+$/ { print $1 } END { print 0 }' "$page" | sort >numbers.page
    try "the manual page has every number" alike numbers "$(cat numbers.why)" "$(cat numbers.page)"
}

completed() {
    mkdir completed && cd completed && : >good.esa && : >'a box.esa' && mkdir garage || return
    try "a command that is begun" offers 'check' esa ch
    try "two commands that begin alike" offers 'receive remove rewrite' esa re
    try "no such command" offers '' esa x
    try "the chips" offers '320 321' esa check --chip ''
    try "an option once" offers '--chip' esa check --archive -
    try "an option behind the value of another" offers '--archive' esa list --chip 321 --
    try "no option behind a name" offers '' esa check good.esa -
    try "no option behind --" offers '' esa check -- -
    try "files that begin so" offers 'garage good.esa' esa check g
    try "a second file" offers 'good.esa' esa check garage go
    try "a name with a blank" offers 'a box.esa' esa list a
    try "the second table of diff" offers 'good.esa' esa diff --words good.esa go
    try "where remove writes to" offers 'good.esa' esa remove good.esa 3 go
    try "no file for the number of an element" offers '' esa remove good.esa ''
    try "no file for a zone" offers '' esa fan good.esa ''
    try "a picture" offers 'good.esa' esa pins --picture go
    try "an option behind the picture" offers '--chip' esa pins --picture new.svg -
    try "the bytes of a report" offers '64' esa receive --report ''
    try "numbers that begin so" offers '2 20 21 22 23 24 25' esa why 2
    try "one number" offers '' esa why 13 ''
    try "nothing behind help" offers '' esa help ''
    try "bash has it for esa" eval 'bash -c ". \"$completion\" && complete -p esa" | grep -q -- "-F _esa esa"'
    cd ..
}

# The page as it would be printed, without a warning.
printed() {
    if command -v groff >/dev/null; then
        try "the manual page is printed without a warning" eval '[ -z "$(groff -man -t -ww -Tutf8 "$page" 2>&1 >/dev/null)" ]'
    else
        not_tried "the manual page as it is printed: there is no groff"
    fi
}

agreeing() {
    if ! command -v bash >/dev/null; then
        not_tried "the completion: there is no bash"
        return
    fi
    same_commands
    same_numbers
    completed
    printed
}
