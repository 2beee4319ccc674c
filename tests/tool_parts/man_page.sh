# The examples of the man page do what it says.

# The n-th display under EXAMPLES, without its fonts.
display() {
    awk -v which="$1" '
        /^\.SH/ { here = /EXAMPLES/ }
        /^\.nf/ { shown = here; count += here; next }
        /^\.fi/ { shown = 0 }
        shown && count == which
    ' "$repository/man/hours.1" | sed 's/\\f[BR]//g; s/\\-/-/g'
}
# A line of a display that is a command. What goes to a file is told all the same.
ask_line() {
    [[ $1 == '$ hours '* ]] || fail "the man page: no command: $1"
    local command=${1#'$ hours '}
    ask ${command% > *}
}
# A display that is a command and no more.
ask_display() { # n
    [ "$(display "$1" | wc -l)" = 1 ] || fail "the man page: display $1 is not one command: $(display "$1")"
    ask_line "$(display "$1")"
}

display 1 >hall.hex
display 2 >week12.log
ask_display 3
told 0 </dev/null
display 4 >booking
tail -n +2 booking >sheet
ask_line "$(head -n 1 booking)"
told 0 <sheet
cp compressor3.tally booked
display 5 >commands
[ "$(wc -l <commands)" = 2 ] || fail "the man page: display 5 should be two commands: $(cat commands)"
ask_line "$(head -n 1 commands)"
told 0 <sheet
# The hall's zone is that of the sample.
ask_line "$(tail -n 1 commands)"
told 0 < <("$second" monday-sheet --csv <week12.log)
ask_display 6
told 0 < <(fresh_sheet)
ask_line "$(head -n 1 booking)"
told 0 <sheet
holds compressor3.tally booked
ask_display 7
told 0 <<'TOLD'
2023-10-29T00:30:00Z 2023-10-29T01:30:00Z
TOLD
display 8 >refused
ask_line "$(head -n 1 refused)"
told 1 < <(tail -n +2 refused | sed 's/^/! /')
[ -z "$(display 9)" ] || fail "the man page: there is an example more: $(display 9)"

echo "the man page: its examples"
