# completion/esa.bash: what may stand next in a command of ./esa, for bash. Source it, as from ~/.bashrc; it serves 'esa' and './esa'.
# tests/parts/agreeing.sh holds its commands and options to those of './esa help' and the manual page.

_esa_commands='check list rewrite label fan remove pins hex unhex receive diff trace salvage why help'

# The options of a command.
_esa_options() { # COMMAND
    case $1 in
    check | list) echo '--chip --archive' ;;
    rewrite | label | fan | remove | hex | unhex | trace) echo '--chip' ;;
    pins) echo '--chip --picture' ;;
    receive) echo '--chip --report' ;;
    diff | salvage) echo '--chip --words' ;;
    esac
}

# What stands at a place behind the options, counted from 1: a file, or something that cannot be completed.
_esa_place() { # COMMAND PLACE
    case $1,$2 in
    check,* | list,1 | rewrite,[12] | label,1 | fan,1 | remove,[13] | pins,1) echo file ;;
    hex,[12] | unhex,[12] | receive,1 | diff,[12] | trace,[12] | salvage,[12]) echo file ;;
    why,1) echo number ;;
    esac
}

# Words that begin with the current one.
_esa_words() { # WORDS
    mapfile -t COMPREPLY < <(compgen -W "$1" -- "$current")
}

_esa_files() {
    compopt -o filenames 2>/dev/null
    mapfile -t COMPREPLY < <(compgen -f -- "$current")
}

# Reads one word before the current one: an option, its value, the end of the options, or a name.
_esa_read() { # WORD
    if [[ -n $value ]]; then
        value=''
    elif [[ -n $closed ]]; then
        place=$((place + 1))
    elif [[ $1 == -- ]]; then
        closed=yes
    elif [[ " $left " == *" $1 "* ]]; then
        left=${left//"$1"/}
        [[ $1 == --archive || $1 == --words ]] || value=$1
    else
        closed=yes place=$((place + 1))
    fi
}

# What the current word may be.
_esa_offer() {
    case $value in
    --chip) _esa_words '320 321' ;;
    --picture) _esa_files ;;
    --report) _esa_words '64' ;;
    '')
        if [[ -z $closed && $current == -* ]]; then
            _esa_words "$left"
        else
            case $(_esa_place "$command" "$place") in
            file) _esa_files ;;
            number) _esa_words "$(echo {0..25})" ;;
            esac
        fi
        ;;
    esac
}

_esa() {
    local current=${COMP_WORDS[COMP_CWORD]} command=${COMP_WORDS[1]} value='' closed='' place=1 left word
    COMPREPLY=()
    if ((COMP_CWORD == 1)); then
        _esa_words "$_esa_commands"
        return
    fi
    left=$(_esa_options "$command")
    for word in "${COMP_WORDS[@]:2:COMP_CWORD-2}"; do
        _esa_read "$word"
    done
    _esa_offer
}

complete -F _esa esa
