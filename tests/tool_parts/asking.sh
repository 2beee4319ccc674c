# Asking the tool, and comparing what it tells.

fail() {
    echo "tool: $*" >&2
    exit 1
}

# Runs the tool, and keeps its exit status and both outputs.
ask() {
    asked="hours $*"
    status=0
    "$hours" "$@" >out 2>err || status=$?
}

# The same as a user who may not read and write all.
ask_as_nobody() {
    asked="hours $*"
    status=0
    if [ "$(id -u)" = 0 ]; then
        setpriv --reuid=65534 --regid=65534 --clear-groups "$hours" "$@" >out 2>err || status=$?
    else
        "$hours" "$@" >out 2>err || status=$?
    fi
}

# What was told: lines of standard output as they are, and those of standard error after "! ".
shown() {
    cat out
    sed 's/^/! /' err
}

# It ended with a status and told exactly what stands on standard input.
told() {
    [ "$status" = "$1" ] || fail "$asked: exit status $1 was expected, and $status came; it told: $(shown)"
    diff - <(shown) >differences || fail "$asked: what was expected (<) and what came (>): $(cat differences)"
}

# Begins a tally, and nothing is said.
begin() { # tally, and its zone file
    ask new "${2:-berlin.hex}" "$1"
    told 0 </dev/null
}

# A file holds what another one holds, or is not there.
holds() {
    cmp -s "$1" "$2" || fail "$asked: $1 does not hold what is in $2"
}

is_missing() {
    [ ! -e "$1" ] && [ ! -L "$1" ] || fail "$asked: $1 should not be there"
}

# A folder holds these names, in their order, and no others.
has_only() { # folder, names
    local there=$1
    shift
    local found
    found=$(LC_ALL=C ls -A "$there" | tr '\n' ' ')
    [ "$found" = "$(printf '%s ' "$@")" ] || fail "$asked: in $there there should be $*, and there is: $found"
}
has_nothing() { # folder
    [ -z "$(ls -A "$1")" ] || fail "$asked: it left $(ls -A "$1")"
}

# Nothing is left of a file that was to be written, nor of the lock or its list.
nothing_new() {
    local name
    name=$(basename "$1")
    [ -z "$(find "$(dirname "$1")" -maxdepth 1 \( -name "$name*.new-*" -o -name "$name*.old-*" -o -name "$name.lock*" -o -name "$name.swept-*" -o -name "$name.begun" \))" ] || fail "$asked: it left a new file, a copy or a lock beside $1: $(ls "$(dirname "$1")")"
}

# The bytes that hex text writes.
bytes() {
    local text=${1//[[:space:]]/} i
    for ((i = 0; i < ${#text}; i += 2)); do
        printf "\\x${text:i:2}"
    done
}

# So many bytes of 0.
zeros() {
    head -c "$1" /dev/zero
}

# A tally on which nothing is booked, and its sheet.
fresh_tally() {
    bytes '42 00 01 00 00 C0 C6 78 D1 1E 01 00' && zeros 56
}
fresh_sheet() {
    printf '%-10s     0:00\n' Sunday Monday Tuesday Wednesday Thursday Friday Saturday total
    echo 'counted up to 1602-01-01T00:00:00Z'
}

# 172 bytes that two readers accept. As a definition they have a header of another minor, so that bytes may follow its one rule: 90 minutes west all year. As a remote desktop record they have Bias 0x00060002, and
# biases added to it that make zone P.
for_two_readers() {
    bytes '02 00 0600 0200 0000 0100'
    bytes '02 01 3E00 0300 0000' && zeros 14
    bytes '5A000000 00000000 00000000' && zeros 24
    bytes '0000 0A00 0000 0500 0300 0000 0000 0000 C2FFF9FF'
    zeros 64
    bytes '0000 0300 0000 0500 0200 0000 0000 0000 86FFF9FF'
}
