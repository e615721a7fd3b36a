# Rows of runs of the program: what is run, and what it must write, say and answer. A script sources this file, and before it
# help.sh. The program is ./bidigrid, or the one that BIDIGRID names.

root=$(cd "$(dirname "$(readlink -f "$0")")/../.." && pwd)
program=${BIDIGRID:-$root/bidigrid}
need "$program" xxd python3
program=$(realpath "$program")
"$program" --help >/dev/null || exit 3
folder=$(mktemp -d)
trap 'rm -rf "$folder"' EXIT
cd "$root" || exit 3
failed=0
passed=0

# file NAME HEX: bytes in hexadecimal, spaces ignored, into a file of the folder
file() { printf '%s' "${2// /}" | xxd -r -p >"$folder/$1"; }

# tell NAME YES WHAT: counts a row that passed (YES is 0), or says what is wrong
tell() {
    if [ "$2" = 0 ]; then passed=$((passed + 1)); else
        echo "$1: $3"
        failed=$((failed + 1))
    fi
}

# row NAME STATUS STDOUT STDERR WORD..: runs the program in the folder. In STDOUT \n, \r and \t are written so;
# STDERR is the line without its end, or * for whatever it says.
row() {
    local name=$1 status=$2 out=$3 err=$4 got
    shift 4
    (cd "$folder" && "$program" "$@" >out 2>err)
    got=$?
    [ "$got" = "$status" ] && cmp -s "$folder/out" <(printf '%b' "$out") &&
        { [ "$err" = '*' ] || [ "$(cat "$folder/err")" = "$err" ]; }
    tell "$name" $? "status $got, wrote '$(cat "$folder/out")', said '$(head -n 1 "$folder/err")'"
}

# lost NAME WORD..: the same into a full device, into a closed one, and into a pipe whose reader has left; each is reported
lost() {
    local name=$1
    shift
    (cd "$folder" && "$program" "$@" >/dev/full 2>err)
    told_device "a full device: $name" $?
    (cd "$folder" && "$program" "$@" >&- 2>err)
    told_device "a closed device: $name" $?
    # The pipe is opened for both ends, so that its writer needn't wait for the reader that then leaves.
    (cd "$folder" && rm -f pipe && mkfifo pipe && exec 3<>pipe 4>pipe 3>&- && "$program" "$@" >&4 4>&- 2>err)
    told_device "a reader that has left: $name" $?
}

# told_device NAME STATUS: counts a row that reported a device and ended so
told_device() {
    [ "$2" = 3 ] && [ "$(cat "$folder/err")" = 'bidigrid: device' ]
    tell "$1" $? "status $2, said '$(head -n 1 "$folder/err")'"
}

# same NAME FILE WORD..: run at the top of the repository the program writes the bytes of the file
same() {
    local name=$1 wanted=$2
    shift 2
    "$program" "$@" | cmp -s - "$wanted"
    tell "$name" $? "not the bytes of $wanted"
}

# counted NAME: how many rows passed and failed; its status is 0 where none did
counted() {
    echo "$1: $passed passed, $failed failed"
    [ "$failed" = 0 ]
}

# What operation files are made of.
header=42474f5001
a='0011 01 00000001 0001 00000000 0000 00000061'  # (1,1) root a
ab='0011 01 00000002 0001 00000001 0001 00000062' # (2,1) after (1,1) b
b1='0011 01 00000001 0001 00000000 0000 00000062' # (1,1) root b
