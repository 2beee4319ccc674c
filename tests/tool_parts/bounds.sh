# Bounds: how long a log may be, and how much stack the tool needs.

# So many KiB of stack are enough for each command.
STACK=1280
# A log has so many bytes at most.
longest=67108864
too_long='longer than a log may be, 67108864 bytes; nothing is booked'

begin tally
cp tally fresh
not_booked() { # log
    told 1 <<<"! hours: $1: $too_long"
    holds tally fresh
    has_only . berlin.hex differences err fresh out tally tally.zone week.log
}

# A log that never ends is refused all the same.
comment="#$(printf '%*s' 65000 '')"
for line in '' "$comment"; do
    asked='yes | hours book berlin.hex tally'
    status=0
    yes "$line" | timeout 300 "$hours" book berlin.hex tally >out 2>err || status=${PIPESTATUS[1]}
    not_booked -
done

# With the week at its end.
of_length() {
    head -c $(($1 - $(stat -c %s week.log) - 1)) < <(yes "$comment")
    echo
    cat week.log
}
of_length "$longest" >long.log
[ "$(stat -c %s long.log)" = "$longest" ] || fail "bounds: the log has $(stat -c %s long.log) bytes"
begin longest
ask book berlin.hex longest long.log
told 0 <"$sample/stdout"
cp longest week
rm longest longest.*
ask book berlin.hex tally - < <(cat long.log)
told 0 <"$sample/stdout"
holds tally week
cp fresh tally
rm tally.old week
# One byte more is too much, be it a line end, or the start of a line.
for byte in '\n' '#'; do
    printf "$byte" >>long.log
    status=0
    asked='hours book, with a log of one byte too much'
    "$hours" book berlin.hex tally long.log >out 2>err || status=$?
    mv long.log ..
    not_booked long.log
    mv ../long.log .
    truncate -s "$longest" long.log
done
rm long.log

# ---- the stack
small() { # arguments
    asked="hours $*, with a stack of $STACK KiB"
    status=0
    (ulimit -s "$STACK" && exec "$hours" "$@") >out 2>err || status=$?
}
# Zone P as 1,024 rules of a year each: a definition whose hex text has a separator behind each byte.
{
    printf '02 01 06 00 02 00 00 00 00 04 '
    for ((year = 1602; year < 1602 + 1024; year++)); do
        printf '02 01 3E 00 %s 00 %02X %02X ' "$([ "$year" = 2625 ] && echo 03 || echo 00)" $((year % 256)) $((year / 256))
        printf '00 %.0s' {1..14}
        printf 'C4 FF FF FF 00 00 00 00 C4 FF FF FF '
        printf '00 00 0A 00 00 00 05 00 03 00 00 00 00 00 00 00 '
        printf '00 00 03 00 00 00 05 00 02 00 00 00 00 00 00 00 '
    done
} >many.hex
tr ' ' ',' <many.hex >many.reg
for zone in berlin.hex many.hex many.reg; do
    small zone "$zone"
    [ "$status" = 0 ] || fail "$asked: exit status $status: $(cat err)"
    [ "$zone" = berlin.hex ] || [ "$(head -n 1 out)" = 'TZDEFINITION, 1024 rules' ] || fail "$asked: $(head -n 1 out)"
    small new "$zone" small
    told 0 </dev/null
    small book "$zone" small week.log
    told 0 <"$sample/stdout"
    holds small.old fresh
    small sheet --csv small
    told 0 < <("$second" monday-sheet --csv <week.log)
    small undo small
    told 0 < <(fresh_sheet)
    holds small fresh
    small book --csv "$zone" small - <week.log
    told 0 < <("$second" monday-sheet --csv <week.log)
    nothing_new small
    small local "$zone" 2023-10-29T01:30:00Z
    told 0 <<<'2023-10-29T02:30:00'
    small utc "$zone" 2023-10-29T02:30:00
    told 0 <<<'2023-10-29T00:30:00Z 2023-10-29T01:30:00Z'
    rm small small.*
done
small fields 0
told 0 <<<'1601-01-01T00:00:00Z Monday'
small time 0
told 0 <<<0
small --help
[ "$status" = 0 ] || fail "$asked: exit status $status: $(cat err)"
# With less it is another matter: were the limit no limit, this part would say nothing.
STACK=64
{ small book berlin.hex tally week.log; } 2>/dev/null
[ "$status" -gt 128 ] || fail "$asked: it was not killed, so that the limit is none"
holds tally fresh

echo "bounds: the longest log, and the stack that is needed"
