# Completion of filc's words in bash: commands, options and files.
#
# Source it in ~/.bashrc: `. PATH/bin/filc-completion.bash`. It serves `filc` by any path, as bin/filc.
# shellcheck shell=bash

# The options that a command takes, each followed by what its value is.
_filc_options() {
    case $1 in
        run) echo "--turns number" ;;
    esac
}

# What the value of an option of a command is, or nothing where the command doesn't take the option.
_filc_value() {
    local option value
    while read -r option value; do
        if [ "$option" = "$2" ]; then echo "$value"; fi
    done < <(_filc_options "$1")
}

# The options of a command that begin so, each without those that stand already.
_filc_free_options() {
    local command=$1 begun=$2 option value
    shift 2
    while read -r option value; do
        case " $* " in
            *" $option "*) ;;
            *) compgen -W "$option" -- "$begun" ;;
        esac
    done < <(_filc_options "$command")
}

# The C files and folders whose names begin so. Where there are none, each file does. filc takes no
# name with a dash in front, so such a file is told as ./-name.
_filc_files() {
    local begun=$1
    compopt -o filenames 2>/dev/null
    mapfile -t COMPREPLY < <(compgen -f -X '!*.c' -- "$begun"; compgen -d -- "$begun")
    if [ "${#COMPREPLY[@]}" -eq 0 ]; then mapfile -t COMPREPLY < <(compgen -f -- "$begun"); fi
    COMPREPLY=("${COMPREPLY[@]/#-/./-}")
}

# The words after the command, up to the one that is completed: a file, options and their values.
_filc_after_command() {
    local command=$1 begun=$2 has_file='' waits='' word
    shift 2
    for word; do
        if [ -n "$waits" ]; then
            waits=
        elif [ "${word:0:1}" = - ]; then
            waits=$(_filc_value "$command" "$word")
        else
            has_file=yes
        fi
    done
    if [ -n "$waits" ]; then return; fi
    if [ "${begun:0:1}" = - ] || [ -n "$has_file" ]; then
        mapfile -t COMPREPLY < <(_filc_free_options "$command" "$begun" "$@")
    else
        _filc_files "$begun"
    fi
}

_filc() {
    local begun=${COMP_WORDS[COMP_CWORD]}
    COMPREPLY=()
    if [ "$COMP_CWORD" -eq 1 ]; then
        mapfile -t COMPREPLY < <(compgen -W "run check code --help --version" -- "$begun")
        return
    fi
    case ${COMP_WORDS[1]} in
        run | check | code)
            _filc_after_command "${COMP_WORDS[1]}" "$begun" "${COMP_WORDS[@]:2:COMP_CWORD-2}"
            ;;
    esac
}

complete -F _filc filc
