# The papers' dates, by the commands on times. Seeded ones are compared by the second program.

ask fields 0 9999 122648657102450000 9223372036854775807 2000-02-29T00:00:00Z
told 0 <<'TOLD'
1601-01-01T00:00:00Z Monday
1601-01-01T00:00:00.0009999Z Monday
1989-08-29T11:08:30.2450000Z Tuesday
30828-09-14T02:48:05.4775807Z Thursday
2000-02-29T00:00:00Z Tuesday
TOLD

ask time 1989-08-29T11:08:30.245Z 30828-09-14T02:48:05.477Z 2016-12-31T23:59:60Z 2017-01-01T00:00:00Z -5
told 0 <<'TOLD'
122648657102450000
9223372036854770000
131277024000000000
131277024000000000
-5
TOLD

# What is refused has no line, and the others are answered.
ask time 1900-02-29T00:00:00Z 2016-12-30T23:59:60Z 30828-09-14T02:48:05.478Z 1600-12-31T00:00:00Z 2023-03-26T00:00:00 1601-01-01T00:00:00.0000001Z
told 1 <<'TOLD'
1
! hours: 1900-02-29T00:00:00Z: refused 14: fields ill formed
! hours: 2016-12-30T23:59:60Z: refused 14: fields ill formed
! hours: 30828-09-14T02:48:05.478Z: refused 15: TIME negative, result not expressible, UTC tick outside the window, local tick negative
! hours: 1600-12-31T00:00:00Z: refused 14: fields ill formed
! hours: 2023-03-26T00:00:00: not a time
TOLD
ask fields -1
told 1 <<'TOLD'
! hours: -1: refused 15: TIME negative, result not expressible, UTC tick outside the window, local tick negative
TOLD

# By revision 1.0 of the time paper second 60 is refused, also where 1.2 gives 15; all else is the same. The last one of two counts.
sixty() { # command and options: second 60 where 1.2 takes it and where it is after the last TIME, and other times
    ask "$@" 2016-12-31T23:59:59.9999999Z 2016-12-31T23:59:60Z 30828-09-30T23:59:60Z 30829-01-01T00:00:00Z 0 -1
}
sixty time
told 1 <<'TOLD'
131277023999999999
131277024000000000
0
-1
! hours: 30828-09-30T23:59:60Z: refused 15: TIME negative, result not expressible, UTC tick outside the window, local tick negative
! hours: 30829-01-01T00:00:00Z: refused 15: TIME negative, result not expressible, UTC tick outside the window, local tick negative
TOLD
cp out out.12
cp err err.12
for again in '--revision 12' '--revision 0012' '--revision 10 --revision 12'; do
    sixty time $again
    told 1 < <(cat out.12 && sed 's/^/! /' err.12)
done
rm out.12 err.12
for again in '--revision 10' '--revision 12 --revision 10' '--revision 11 --revision 10'; do
    sixty time $again
    told 1 <<'TOLD'
131277023999999999
0
-1
! hours: 2016-12-31T23:59:60Z: refused 14: fields ill formed
! hours: 30828-09-30T23:59:60Z: refused 14: fields ill formed
! hours: 30829-01-01T00:00:00Z: refused 15: TIME negative, result not expressible, UTC tick outside the window, local tick negative
TOLD
done
sixty fields --revision 10
told 1 <<'TOLD'
2016-12-31T23:59:59.9999999Z Saturday
1601-01-01T00:00:00Z Monday
! hours: 2016-12-31T23:59:60Z: refused 14: fields ill formed
! hours: 30828-09-30T23:59:60Z: refused 14: fields ill formed
! hours: 30829-01-01T00:00:00Z: refused 15: TIME negative, result not expressible, UTC tick outside the window, local tick negative
! hours: -1: refused 15: TIME negative, result not expressible, UTC tick outside the window, local tick negative
TOLD
ask time --revision 12 --revision 11 0
told 1 <<'TOLD'
! hours: --revision: refused 22: revision number neither 10 nor 12
TOLD
# Any other revision is refused before a time is read: 1.1, numbers that are 10 or 12 in 8, 16, 32 or 64 bits, and what is no number.
for other in 11 0 9 13 1 102 266 268 65546 65548 4294967295 4294967306 4294967308 18446744073709551626 -10 +10 1.0 0x0C ten ' 10' '' --csv; do
    for command in fields time; do
        ask "$command" --revision "$other" 0 2016-12-31T23:59:60Z weigh
        told 1 <<'TOLD'
! hours: --revision: refused 22: revision number neither 10 nor 12
TOLD
    done
done

# Zone P: around both switches of 2023, and the ends of the window.
ask local berlin.hex 2023-03-26T00:59:59.9999999Z 2023-03-26T01:00:00Z 2023-10-29T00:30:00Z 2023-10-29T01:30:00Z 315360000000000
told 0 <<'TOLD'
2023-03-26T01:59:59.9999999
2023-03-26T03:00:00
2023-10-29T02:30:00
2023-10-29T02:30:00
1602-01-01T01:00:00
TOLD
ask local berlin.hex 315359999999999 9223149888000000000
told 1 <<'TOLD'
! hours: 315359999999999: refused 15: TIME negative, result not expressible, UTC tick outside the window, local tick negative
! hours: 9223149888000000000: refused 15: TIME negative, result not expressible, UTC tick outside the window, local tick negative
TOLD
ask utc berlin.hex 2023-03-26T02:30:00 2023-10-29T02:30:00 2023-07-01T12:00:00 133242714000000000
told 0 <<'TOLD'
none
2023-10-29T00:30:00Z 2023-10-29T01:30:00Z
2023-07-01T10:00:00Z
none
TOLD
# A local time has no Z.
ask utc berlin.hex 2023-07-01T12:00:00Z -1
told 1 <<'TOLD'
! hours: 2023-07-01T12:00:00Z: not a time
! hours: -1: refused 15: TIME negative, result not expressible, UTC tick outside the window, local tick negative
TOLD

# Two rules that meet at a new year: one local time comes four times. Before the first rule there is none.
"$second" zone-records .
ask utc definition 2000-12-31T23:00:00 1999-07-01T00:00:00
told 0 <<'TOLD'
2000-12-31T22:00:00Z 2000-12-31T23:00:00Z 2001-01-01T00:00:00Z 2001-01-01T01:00:00Z
none
TOLD
ask local definition 1999-12-31T23:59:59Z 2000-01-01T00:00:00Z
told 1 <<'TOLD'
2000-01-01T00:00:00
! hours: 1999-12-31T23:59:59Z: refused 16: the tick, or a run's start, lies before the first rule's year
TOLD

echo "times: the papers' dates"
