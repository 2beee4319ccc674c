# The tool called in a wrong way.

# Arguments of a wrong number or kind: all of them are told the same.
wrong_usage() {
    ask "$@"
    told 2 <<'TOLD'
! hours: wrong usage: hours --help says how
TOLD
}
wrong_usage
wrong_usage ''
wrong_usage weigh
wrong_usage new
wrong_usage new berlin.hex
wrong_usage new berlin.hex tally week.log
wrong_usage new berlin.hex ''
wrong_usage new berlin.hex --csv
wrong_usage book
wrong_usage book berlin.hex
wrong_usage book berlin.hex tally week.log more
wrong_usage book berlin.hex '' week.log
wrong_usage book berlin.hex --csv week.log
wrong_usage book berlin.hex tally --csv
wrong_usage sheet
wrong_usage sheet tally more
wrong_usage sheet ''
wrong_usage undo
wrong_usage undo tally more
wrong_usage undo berlin.hex tally
wrong_usage undo ''
wrong_usage undo tally --csv
wrong_usage zone
wrong_usage zone berlin.hex more
wrong_usage local
wrong_usage local berlin.hex
wrong_usage utc berlin.hex
wrong_usage fields
wrong_usage time
# Options of other commands.
wrong_usage new --csv berlin.hex tally
wrong_usage new --as registry --csv berlin.hex tally
wrong_usage undo --as registry tally
wrong_usage undo --csv --as registry tally
wrong_usage sheet --as registry tally
wrong_usage zone --csv berlin.hex
wrong_usage zone --csv --as registry berlin.hex
wrong_usage local --csv berlin.hex 0
wrong_usage utc --as registry --csv berlin.hex 0
wrong_usage fields --csv 0
wrong_usage fields --as registry 0
wrong_usage time --csv 0
wrong_usage time --as definition 0
wrong_usage fields --revision 10 --csv 0
wrong_usage new --revision 12 berlin.hex tally
wrong_usage book --revision 12 berlin.hex tally week.log
wrong_usage book --csv --revision 12 berlin.hex tally week.log
wrong_usage undo --revision 10 tally
wrong_usage sheet --revision 11 tally
wrong_usage zone --revision 12 berlin.hex
wrong_usage local --revision 10 berlin.hex 0
wrong_usage utc --revision 12 berlin.hex 0
# No time is left for the command.
wrong_usage fields --revision
wrong_usage fields --revision 10
wrong_usage time --revision 0
# An option behind a time would come too late for it; no more than six are taken.
wrong_usage time 2016-12-31T23:59:60Z --revision 10
wrong_usage fields 0 --revision 11
wrong_usage fields 0 1 --csv
wrong_usage time --revision 12 --revision 12 --revision 12 --revision 12 --revision 12 --revision 12 --revision 10 2016-12-31T23:59:60Z
# The tool makes names that are longer than the tally's.
long=$(printf 'a%.0s' {1..4001})
wrong_usage new berlin.hex "$long"
wrong_usage book berlin.hex "$long" week.log
wrong_usage undo "$long"

no_option() {
    ask "$@"
    told 2 <<'TOLD'
! hours: no such option: hours --help lists them
TOLD
}
no_option new --csw berlin.hex tally
no_option book --cvs berlin.hex tally week.log
no_option undo --all tally
no_option sheet --help
no_option fields --
no_option weigh --csv --bare

no_kind() {
    ask "$@"
    told 2 <<'TOLD'
! hours: --as takes registry, remote-desktop or definition
TOLD
}
no_kind zone --as
no_kind zone --as rdp berlin.hex
no_kind new --as rdp berlin.hex tally
no_kind book --csv --as Registry berlin.hex tally week.log

ask --version
told 0 <<TOLD
hours $(cat "$repository/VERSION")
TOLD

# The help has a line for each command of the man page.
ask --help
[ "$status" = 0 ] || fail "$asked: exit status $status"
for command in new book undo sheet zone local utc fields time; do
    grep -q "^hours $command " out || fail "$asked: no line for $command"
    grep -qF "hours $command" "$repository/man/hours.1" || fail "the man page has no line for $command"
done
# The man page has each exit status.
for number in 0 1 2 3 4 5; do
    sed -n '/^\.SH EXIT STATUS/,/^\.SH EXAMPLES/p' "$repository/man/hours.1" | grep -qx "\.B $number" || fail "the man page has no exit status $number"
done

asked='wrong usage'
has_only . berlin.hex differences err out week.log
echo "wrong usage: exit status 2"
