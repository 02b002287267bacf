# shellcheck shell=sh
# What the tests of ./tambolune share: octets from hex digits, and runs of a command whose output is compared, octet for octet.
# A test goes to the repository's folder, sets `verb` to the word behind ./tambolune, and sources this.
root=$PWD
work=$(mktemp -d)
trap 'rm -rf "$work"' EXIT
# where the command is given, and where its standard output goes; where that is empty it is closed
from=$root
to=$work/said
count=0

# Hex digits from standard input as octets.
octets() {
    tr -d ' \n' | sed 's/../& /g' | tr ' ' '\n' | while read -r pair; do
        # shellcheck disable=SC2059
        [ -z "$pair" ] || printf "\\$(printf %03o "0x$pair")"
    done
}

# repeated TEXT N
repeated() {
    i=0
    while [ "$i" -lt "$2" ]; do
        printf %s "$1"
        i=$((i + 1))
    done
}

# The header of a capture with its high octet first (C1).
# shellcheck disable=SC2034
high='A1B2C3D4 0002 0004 00000000 00000000 0000FFFF 00000001'

# Gives the command with the words that follow and keeps the status, and below $work what is said.
give() {
    status=0
    : >"$work/said"
    # shellcheck disable=SC2154
    (
        cd "$from"
        if [ -n "$to" ]; then exec >"$to"; else exec >&-; fi
        exec "$root/tambolune" "$verb" "$@"
    ) 2>"$work/error" || status=$?
}

wrong() {
    echo "$verb: $1: due, then said, then what is on standard error, with status $status:"
    cat "$work/due" "$work/said" "$work/error"
    exit 1
}

# says NAME LINES WORDS..: the lines are due, with status 0 and nothing on standard error.
says() {
    name=$1
    printf '%s' "${2:+$2
}" >"$work/due"
    shift 2
    give "$@"
    said "$name"
}

# said NAME: the same of a run that was made otherwise.
said() {
    if [ "$status" -ne 0 ] || [ -s "$work/error" ] || ! cmp -s "$work/due" "$work/said"; then
        wrong "$1"
    fi
    count=$((count + 1))
}

# fails NAME LINE WORDS..: status 2, nothing on standard output, and on standard error the line and the usage.
fails() {
    name=$1
    echo "$2" >"$work/due"
    shift 2
    give "$@"
    if [ "$status" -ne 2 ] || [ -s "$work/said" ] || ! grep -q '^usage: ' "$work/error" || ! grep -qF -e "$(cat "$work/due")" "$work/error"; then
        wrong "$name"
    fi
    count=$((count + 1))
}

# locked CAPTURE WORDS..: a copy of the capture that may not be read fails. As root every file may be read, and then this is left out.
locked() {
    if [ "$(id -u)" -eq 0 ]; then
        echo "$verb: as root every file may be read, so none that may not is tried"
        return
    fi
    cp "$1" "$work/locked"
    chmod 0 "$work/locked"
    shift
    fails 'a file that may not be read' "tambolune: $work/locked cannot be read" "$work/locked" "$@"
}

# breaks NAME LINE WORDS..: status 2, nothing on standard output, and the line alone on standard error.
breaks() {
    name=$1
    echo "$2" >"$work/due"
    shift 2
    give "$@"
    if [ "$status" -ne 2 ] || [ -s "$work/said" ] || ! cmp -s "$work/due" "$work/error"; then
        wrong "$name"
    fi
    count=$((count + 1))
}

# enough N WORD: at least N runs were made, or what else the word calls them.
enough() {
    [ "$count" -ge "$1" ] || { echo "$verb: only $count $2 were made"; exit 1; }
    echo "$verb: $count $2, each answered as due"
}
