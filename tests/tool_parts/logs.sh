# Logs that can't be read, and lines that are no runs. Nothing is booked.

begin tally
nothing_booked() {
    holds tally <(fresh_tally)
    is_missing tally.old
    nothing_new tally
}
mkdir folder
ask book berlin.hex tally missing
told 1 <<'TOLD'
! hours: missing: No such file or directory
TOLD
nothing_booked
ask book berlin.hex tally folder
told 1 <<'TOLD'
! hours: folder: Is a directory
TOLD
nothing_booked
ask book berlin.hex tally <&-
told 1 <<'TOLD'
! hours: -: Bad file descriptor
TOLD
nothing_booked
cp week.log closed
chmod 000 closed
mkdir -m 777 open_to_all
ask_as_nobody new berlin.hex open_to_all/tally
told 0 </dev/null
ask_as_nobody book berlin.hex open_to_all/tally closed
told 1 <<'TOLD'
! hours: closed: Permission denied
TOLD
holds open_to_all/tally tally
has_only open_to_all tally tally.zone

# A line of 70,000 bytes, after some that are taken.
not_a_time='not a time, as 2023-03-26T00:00:00Z or a TIME number'
{ cat week.log && zeros 70000 | tr '\0' '1' && printf '\n'; } >long.log
ask book berlin.hex tally long.log
told 1 <<'TOLD'
! hours: long.log: line 9: too long for a line
! hours: long.log: 1 wrong line; nothing is booked
TOLD
nothing_booked
# The longest line there may be, as a comment.
{ printf '#' && zeros 65534 | tr '\0' '-' && printf '\n' && cat week.log; } >long.log
begin long_comment
ask book berlin.hex long_comment long.log
told 0 <"$sample/stdout"
# Many lines, more than are read at once, with line ends at all places of what is read.
{ for ((i = 0; i < 3000; i++)); do printf '# %*s\n' $((i % 97)) ''; done && cat week.log; } >long.log
begin many_lines
ask book berlin.hex many_lines long.log
told 0 <"$sample/stdout"

# Any bytes.
printf '\x00\xff\xfe\x80 2023-10-23T04:00:00Z\n\x00\n2023-10-23T04:00:00Z\x002023-10-24T04:00:00Z\n\xef\xbb\xbf# comment\n' >binary.log
ask book berlin.hex tally binary.log
told 1 <<TOLD
! hours: binary.log: line 1: $not_a_time
! hours: binary.log: line 2: not two times, a run's start and its end
! hours: binary.log: line 3: not two times, a run's start and its end
! hours: binary.log: line 4: not two times, a run's start and its end
! hours: binary.log: 4 wrong lines; nothing is booked
TOLD
nothing_booked
head -c 60000 "$hours" >binary.log
ask book berlin.hex tally binary.log
[ "$status" = 1 ] || fail "$asked: exit status 1 was expected, and $status came"
[ "$(wc -l <err)" = 21 ] || fail "$asked: 20 wrong lines and their count were expected: $(cat err)"
nothing_booked

# The byte order mark of UTF-8, at the very start and nowhere else.
mark='\xef\xbb\xbf'
{ printf "$mark" && cat week.log; } >marked.log
begin marked
ask book berlin.hex marked marked.log
told 0 <"$sample/stdout"
{ printf "$mark" && grep -v '^#' week.log; } >marked.log
begin marked_run
ask book berlin.hex marked_run marked.log
told 0 <"$sample/stdout"
holds marked_run marked
begin pieces
asked='hours book, with a mark that comes in pieces'
{ printf '\xef' && sleep 0.1 && printf '\xbb' && sleep 0.1 && printf '\xbf' && cat week.log; } | "$hours" book berlin.hex pieces - >out 2>&1 || fail "$asked: exit status $?"
diff out "$sample/stdout" || fail "$asked: the sheet (>) is not what it should be"
holds pieces marked
printf "$mark" >marked.log
begin alone
ask book berlin.hex alone marked.log
told 0 < <(fresh_sheet)
holds alone <(fresh_tally)
not_marked() { # the log's first line, and its number
    printf "$1" >marked.log
    ask book berlin.hex tally marked.log
    told 1 <<TOLD
! hours: marked.log: line $2: not two times, a run's start and its end
! hours: marked.log: 1 wrong line; nothing is booked
TOLD
    nothing_booked
}
not_marked "$mark$mark\n" 1
not_marked "\n$mark\n" 2
not_marked " $mark\n" 1
not_marked '\xef\xbb\n' 1
not_marked '\xef\xbb\xbe\n' 1
not_marked '\xef\xba\xbf\n' 1
not_marked '\xee\xbb\xbf\n' 1
not_marked "${mark}wrong\n" 1

# Each cause of a refusal by its words; the run before is not booked either.
good='2023-10-23T04:00:00Z 2023-10-23T12:00:00Z'
wrong_line() { # line, what is said of it
    printf '%s\n%s\n' "$good" "$1" >wrong.log
    ask book berlin.hex tally wrong.log
    told 1 <<TOLD
! hours: wrong.log: line 2: $2
! hours: wrong.log: 1 wrong line; nothing is booked
TOLD
    nothing_booked
}
wrong_line '2023-10-23T12:00:00Z' "not two times, a run's start and its end"
wrong_line '2023-10-23T12:00:00Z - 2023-10-23T13:00:00Z' "not two times, a run's start and its end"
wrong_line '2023-10-23T12:00:00 2023-10-23T13:00:00Z' "$not_a_time"
wrong_line '2023-10-23T12:00:00Z 2023-10-32T13:00:00Z' 'refused 14: fields ill formed'
wrong_line '2023-10-23T12:00:00Z 9223149888000000001' 'refused 15: TIME negative, result not expressible, UTC tick outside the window, local tick negative'
wrong_line '2023-10-23T11:59:59.9999999Z 2023-10-23T13:00:00Z' "refused 17: b before a, or a before the tally's end (a run is from a to before b)"
wrong_line '2023-10-23T13:00:00Z 2023-10-23T12:59:59.9999999Z' "refused 17: b before a, or a before the tally's end (a run is from a to before b)"
"$second" zone-records .
printf '1999-12-31T23:59:59Z 2000-01-01T00:00:01Z\n' >early.log
begin early definition
ask book definition early early.log
told 1 <<'TOLD'
! hours: early.log: line 1: refused 16: the tick, or a run's start, lies before the first rule's year
! hours: early.log: 1 wrong line; nothing is booked
TOLD
holds early <(fresh_tally)
nothing_new early

echo "logs: not to be read, or with wrong lines"
