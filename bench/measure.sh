# What the scripts of this folder share; each sources it. They print what they measure and test nothing.
# shellcheck shell=bash

top=$(CDPATH='' cd "$(dirname "$0")/.." && pwd)
dir=$(mktemp -d)
trap 'rm -rf "$dir"' EXIT

# Builds the program of a crate, on a short run of it. rt proves and builds what has changed, and no more.
build() {
    local crate=$1
    shift
    if ! (cd "$top/crates/$crate" && rt run -- "$@") >"$dir/log" 2>&1 </dev/null; then
        cat "$dir/log" >&2
        echo "$0: $crate is not built" >&2
        exit 1
    fi
}

# The user time of a command in milliseconds, and at least 1: the least of three runs. Another status than
# the one that is wanted ends the script.
least_time() {
    local wanted=$1 least=0 taken run status
    shift
    local TIMEFORMAT=%U
    for run in 1 2 3; do
        status=0
        { time "$@" >"$dir/output" 2>"$dir/errors" || status=$?; } 2>"$dir/time"
        if [ "$status" -ne "$wanted" ]; then
            echo "$0: $1 ended with status $status: $(cat "$dir/errors")" >&2
            exit 1
        fi
        taken=$(tr -d . <"$dir/time")
        taken=$((10#$taken))
        if [ "$run" -eq 1 ] || [ "$taken" -lt "$least" ]; then least=$taken; fi
    done
    echo "$((least > 0 ? least : 1))"
}
