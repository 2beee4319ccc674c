# Standard output full, closed, or a pipe that nobody reads. The booking is kept: it stood on the disk before the sheet was shown. The status says so, and the sheet is had by `hours sheet`.

begin expected
cp expected fresh
"$hours" book berlin.hex expected week.log >/dev/null

no_space='hours: standard output: No space left on device'
no_output='hours: standard output: Bad file descriptor'
no_reader='hours: standard output: Broken pipe'

not_shown() { # tally, what is said of the output
    printf '%s\nhours: %s: booked, but the sheet could not be shown: hours sheet shows it\n' "$2" "$1"
}
kept() { # tally, and on standard input what is said
    [ "$status" = 4 ] || fail "$asked: exit status 4 was expected, and $status came: $(cat err)"
    diff - err >differences || fail "$asked: what it should say (<) and what it said (>): $(cat differences)"
    holds "$1" expected
    holds "$1.zone" expected.zone
    holds "$1.old" fresh
    nothing_new "$1"
}
begin full
asked='hours book, standard output full'
status=0
"$hours" book berlin.hex full week.log >/dev/full 2>err || status=$?
kept full < <(not_shown full "$no_space")

begin closed
asked='hours book, standard output closed'
status=0
"$hours" book berlin.hex closed week.log >&- 2>err || status=$?
kept closed < <(not_shown closed "$no_output")
begin closed_both
status=0
"$hours" book --csv berlin.hex closed_both - <week.log >&- 2>err || status=$?
kept closed_both < <(not_shown closed_both "$no_output")

# With neither output nor errors, the files are as they should be.
begin mute
asked='hours book, all outputs closed'
status=0
"$hours" book berlin.hex mute week.log >&- 2>&- || status=$?
: >err
kept mute </dev/null

# Nothing is booked, and nobody hears of it.
refused() { # tally
    [ "$status" = 1 ] || fail "$asked: exit status 1 was expected, and $status came"
    holds "$1" expected
    holds "$1.old" fresh
    nothing_new "$1"
}
cp expected unheard
cp expected.zone unheard.zone
cp fresh unheard.old
asked='hours book, nothing is open'
status=0
"$hours" book berlin.hex unheard week.log <&- >&- 2>&- || status=$?
refused unheard
asked='hours book, standard error full'
status=0
"$hours" book berlin.hex unheard week.log 2>/dev/full || status=$?
refused unheard

# A pipe that was closed before the tool begins: what shall be told is refused with EPIPE, and the tool is not killed by the signal.
mkfifo go
into_closed_pipe() { # command of the shell, whose standard output the pipe is
    status=0
    # The reader closes its end, and says so.
    { read -r _ <go && "$@"; } | { exec <&- && echo >go; } || status=${PIPESTATUS[0]}
}
# The signal is not ignored by whoever started these tests.
tool=(env --default-signal=PIPE "$hours")
output_closed() {
    exec "${tool[@]}" "$@" 2>err
}
errors_closed() {
    exec "${tool[@]}" "$@" 2>&1 >out
}
both_closed() {
    exec "${tool[@]}" "$@" 2>&1
}
begin pipe
asked='hours book, into a pipe that is closed'
into_closed_pipe output_closed book berlin.hex pipe week.log
kept pipe < <(not_shown pipe "$no_reader")
begin pipe_csv
into_closed_pipe output_closed book --csv berlin.hex pipe_csv week.log
kept pipe_csv < <(not_shown pipe_csv "$no_reader")
begin pipe_both
asked='hours book, both outputs into a pipe that is closed'
into_closed_pipe both_closed book berlin.hex pipe_both week.log
: >err
kept pipe_both </dev/null
# Wrong lines told to nobody: more than are told, so that it would not do to fail at the first one.
asked='hours book, its errors into a pipe that is closed'
for ((i = 0; i < 30; i++)); do echo wrong; done >wrong.log
for log in week.log wrong.log; do
    into_closed_pipe errors_closed book berlin.hex unheard "$log"
    refused unheard
    [ ! -s out ] || fail "$asked: it showed: $(cat out)"
    into_closed_pipe both_closed book berlin.hex unheard "$log"
    refused unheard
done

# What was undone stays so, too.
undone() { # tally, and on standard input what is said
    [ "$status" = 4 ] || fail "$asked: exit status 4 was expected, and $status came: $(cat err)"
    diff - err >differences || fail "$asked: what it should say (<) and what it said (>): $(cat differences)"
    holds "$1" fresh
    is_missing "$1.old"
    nothing_new "$1"
}
not_shown_again() { # tally, what is said of the output
    printf '%s\nhours: %s: put back, but the sheet could not be shown: hours sheet shows it\n' "$2" "$1"
}
asked='hours undo, standard output full'
status=0
"$hours" undo full >/dev/full 2>err || status=$?
undone full < <(not_shown_again full "$no_space")
asked='hours undo, standard output closed'
status=0
"$hours" undo --csv closed >&- 2>err || status=$?
undone closed < <(not_shown_again closed "$no_output")
asked='hours undo, into a pipe that is closed'
into_closed_pipe output_closed undo pipe
undone pipe < <(not_shown_again pipe "$no_reader")
asked='hours undo, all outputs closed'
status=0
"$hours" undo mute >&- 2>&- || status=$?
: >err
undone mute </dev/null

# To begin a tally shows nothing, so no output is needed.
asked='hours new, all closed'
status=0
"$hours" new berlin.hex silent <&- >&- 2>&- || status=$?
[ "$status" = 0 ] || fail "$asked: exit status $status"
holds silent fresh
holds silent.zone expected.zone
nothing_new silent

for command in 'sheet expected' 'zone berlin.hex' 'fields 0' 'time 0' 'local berlin.hex 315360000000000' 'utc berlin.hex 315360000000000' --help --version; do
    asked="hours $command, standard output full"
    status=0
    "$hours" $command >/dev/full 2>err || status=$?
    [ "$status" = 1 ] || fail "$asked: exit status 1 was expected, and $status came"
    grep -qx "$no_space" err || fail "$asked: it said: $(cat err)"
    asked="hours $command, into a pipe that is closed"
    into_closed_pipe output_closed $command
    [ "$status" = 1 ] || fail "$asked: exit status 1 was expected, and $status came"
    grep -qx "$no_reader" err || fail "$asked: it said: $(cat err)"
done

echo "outputs: full, closed, or a closed pipe; what was booked or undone is kept"
