# For the scripts beside the crates: --help prints a script's first comment, before anything is built or made.
# A script sources this file first.
if [ "${1:-}" = --help ] || [ "${1:-}" = -h ]; then
    sed -n '2,/^[^#]/s/^# \{0,1\}//p' "$0"
    exit 0
fi

# usage: what a script says of a wrong call, the lines of its help that say how it is called
usage() {
    sed -n '2,/^[^#]/s/^# \{0,1\}//p' "$0" | grep -A1 '^Usage' >&2
    exit 2
}

# need COMMAND..: ends a script that lacks a command
need() {
    local command
    for command; do
        command -v "$command" >/dev/null || { echo "$(basename "$0"): there is no $command" >&2; exit 3; }
    done
}

# are_numbers WORD..: whether each word is a number
are_numbers() {
    local word
    for word; do
        [[ $word =~ ^[0-9]+$ ]] || return 1
    done
}
