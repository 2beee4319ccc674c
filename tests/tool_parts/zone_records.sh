# Zone records in words, one of each kind.

"$second" zone-records .

ask zone registry
told 0 <<'TOLD'
registry record, 1 rule
rule from the year 0 on, active
  standard time: UTC less local is -60 minutes, from the last Sunday of October 03:00
  daylight time: UTC less local is -120 minutes, from the last Sunday of March 02:00
TOLD
cp out words
ask zone berlin.hex
told 0 <words

ask zone remote-desktop
told 0 <<'TOLD'
remote desktop record, 1 rule
standard time is called AUS Eastern Standard
daylight time is called AUS Eastern Daylight
rule from the year 0 on, active
  standard time: UTC less local is -600 minutes, from the first Sunday of April 03:00
  daylight time: UTC less local is -660 minutes, from the first Sunday of October 02:00
TOLD

ask zone definition
told 0 <<'TOLD'
TZDEFINITION, 5 rules
called Hall 4
rule from the year 2000 on
  standard time: UTC less local is 0 minutes, from 2000-12-31 23:30
  daylight time: UTC less local is -60 minutes, from 2000-06-01 00:00
rule from the year 2001 on
  standard time: UTC less local is 120 minutes, from 2001-01-01 00:00
  daylight time: UTC less local is 60 minutes, from 2001-06-01 00:00
rule from the year 2007 on
  standard time: UTC less local is 300 minutes, from the first Sunday of November 02:00
  daylight time: UTC less local is 240 minutes, from the second Sunday of March 02:00
rule from the year 2015 on
  standard time: UTC less local is 240 minutes, from the fourth Saturday of March 23:59:59.999
  daylight time: UTC less local is 180 minutes, from the first Saturday of October 23:59:59.999
rule from the year 2020 on, active
  all year: UTC less local is 270 minutes
TOLD

# Switches at any millisecond: Berlin's biases, with the time of day of both dates.
late() { # second and millisecond, as hex text
    printf 'C4FFFFFF 00000000 C4FFFFFF 00000A0000000500 17003B00%s 0000030000000500 17003B00%s\n' "$1" "$1"
}
late 3B00E703 >late.hex
ask zone late.hex
told 0 <<'TOLD'
registry record, 1 rule
rule from the year 0 on, active
  standard time: UTC less local is -60 minutes, from the last Sunday of October 23:59:59.999
  daylight time: UTC less local is -120 minutes, from the last Sunday of March 23:59:59.999
TOLD
late 1E000000 >half.hex
ask zone half.hex
told 0 <<'TOLD'
registry record, 1 rule
rule from the year 0 on, active
  standard time: UTC less local is -60 minutes, from the last Sunday of October 23:59:30.000
  daylight time: UTC less local is -120 minutes, from the last Sunday of March 23:59:30.000
TOLD
late 00000100 >first.hex
ask zone first.hex
told 0 <<'TOLD'
registry record, 1 rule
rule from the year 0 on, active
  standard time: UTC less local is -60 minutes, from the last Sunday of October 23:59:00.001
  daylight time: UTC less local is -120 minutes, from the last Sunday of March 23:59:00.001
TOLD
# The tick before the switch, the switch, and the next midnight, at which nothing changes.
ask local late.hex 2023-03-26T22:59:59.9989999Z
told 0 <<'TOLD'
2023-03-26T23:59:59.9989999
TOLD
ask local late.hex 2023-03-26T22:59:59.999Z
told 0 <<'TOLD'
2023-03-27T00:59:59.9990000
TOLD
ask local late.hex 2023-03-26T23:00:00Z
told 0 <<'TOLD'
2023-03-27T01:00:00
TOLD
ask utc late.hex 2023-10-29T22:59:59.999
told 0 <<'TOLD'
2023-10-29T20:59:59.9990000Z 2023-10-29T21:59:59.9990000Z
TOLD
# Sunday loses its last millisecond to Monday.
ask new late.hex late_tally
told 0 </dev/null
printf '2023-03-25T23:00:00Z 2023-03-26T23:00:00Z\n' >sunday.log
ask book --csv late.hex late_tally sunday.log
told 0 <<'TOLD'
weekday,hours,minutes,ticks,counted_up_to
Sunday,23,59,863999990000,2023-03-26T23:00:00Z
Monday,0,0,10000,2023-03-26T23:00:00Z
Tuesday,0,0,0,2023-03-26T23:00:00Z
Wednesday,0,0,0,2023-03-26T23:00:00Z
Thursday,0,0,0,2023-03-26T23:00:00Z
Friday,0,0,0,2023-03-26T23:00:00Z
Saturday,0,0,0,2023-03-26T23:00:00Z
total,24,0,864000000000,2023-03-26T23:00:00Z
TOLD
# No second 60 and no millisecond 1000, in either date.
for time in 3C000000 3B00E803; do
    late "$time" >refused.hex
    ask zone refused.hex
    told 1 <<'TOLD'
! hours: refused.hex: no reader of zone records accepts it
!   as registry: refused 10: a set date breaks its rule
!   as remote-desktop: refused 2: a size is wrong, a fixed record has another length, bytes follow, or a name to be written is an odd number of bytes
!   as definition: refused 3: header major is not 2
TOLD
    ask new --as registry refused.hex no_tally
    told 1 <<'TOLD'
! hours: refused.hex: refused 10: a set date breaks its rule
TOLD
    is_missing no_tally
done

# A definition whose name has a character of two units, each shown as a question mark, and half of one, in the last two units.
named() { # file, the last two units of the name as hex text
    cp definition "$1"
    bytes "$2" | dd of="$1" bs=1 seek=16 conv=notrunc status=none
}
named factory '3CD8 EDDF'
ask zone factory
[ "$status" = 0 ] || fail "$asked: exit status $status: $(shown)"
[ "$(sed -n 2p out)" = 'called Hall??' ] || fail "$asked: it told: $(shown)"
size='refused 2: a size is wrong, a fixed record has another length, bytes follow, or a name to be written is an odd number of bytes'
half='refused 20: name with half a character: a high surrogate not directly followed by a low one, or a low one with no high one directly before it'
for units in '2000 3CD8' '3CD8 2000' '2000 EDDF' 'EDDF 2000' 'EDDF 3CD8'; do
    named half_named "$units"
    ask zone half_named
    told 1 <<TOLD
! hours: half_named: no reader of zone records accepts it
!   as registry: $size
!   as remote-desktop: $size
!   as definition: $half
TOLD
done
# A rule count that would be the other half is none: 20, not 6.
named half_named '2000 3CD8 00DC'
ask zone --as definition half_named
told 1 <<TOLD
! hours: half_named: $half
TOLD
named whole_named '3CD8 EDDF 00DC'
ask zone --as definition whole_named
told 1 <<'TOLD'
! hours: whole_named: refused 6: rule count 0 or above 1,024
TOLD
# The names of a remote desktop record are not looked through.
cp remote-desktop half_remote
bytes '3CD8' | dd of=half_remote bs=1 seek=4 conv=notrunc status=none
ask zone half_remote
[ "$status" = 0 ] || fail "$asked: exit status $status: $(shown)"
[ "$(sed -n 2p out)" = 'standard time is called ?US Eastern Standard' ] || fail "$asked: it told: $(shown)"

# A tally that was begun with such a record while it was taken: no run is booked; its sheet is shown, and its last booking undone. With another
# character in the half's place, in the record and in the one that is kept, it goes on.
begin half_tally factory
printf '2023-10-23T04:00:00Z 2023-10-23T05:00:00Z\n' >first.log
printf '2023-10-24T04:00:00Z 2023-10-24T05:00:00Z\n' >second.log
ask book factory half_tally first.log
[ "$status" = 0 ] || fail "$asked: exit status $status: $(shown)"
cp out sheet_before
cp half_tally tally_before
named half_named '2000 3CD8'
cp half_named half_tally.zone
ask book --as definition half_named half_tally second.log
told 1 <<TOLD
! hours: half_named: $half
TOLD
holds half_tally tally_before
ask sheet half_tally
told 0 <sheet_before
cp half_tally undone
cp half_tally.old undone.old
cp half_named undone.zone
ask undo undone
[ "$status" = 0 ] || fail "$asked: exit status $status: $(shown)"
holds undone half_tally.old
named mended '2000 3F00'
ask book mended half_tally second.log
told 1 <<'TOLD'
! hours: half_tally: booked in another zone: the record kept beside it, with the ending .zone, is not the one named now
TOLD
holds half_tally tally_before
ask new mended other_tally
told 0 </dev/null
mv other_tally.zone half_tally.zone
rm other_tally
ask book mended half_tally second.log
[ "$status" = 0 ] || fail "$asked: exit status $status: $(shown)"
[ "$(tail -n 2 out | head -n 1)" = 'total          2:00' ] || fail "$asked: it told: $(shown)"

# Said to be what it is, and what it is not.
for kind in registry remote-desktop definition; do
    ask zone "$kind"
    cp out words
    ask zone --as "$kind" "$kind"
    told 0 <words
done
ask zone --as registry remote-desktop
told 1 <<'TOLD'
! hours: remote-desktop: refused 2: a size is wrong, a fixed record has another length, bytes follow, or a name to be written is an odd number of bytes
TOLD
ask zone --as definition registry
told 1 <<'TOLD'
! hours: registry: refused 3: header major is not 2
TOLD

# A record for two readers.
for_two_readers >both
[ "$(stat -c %s both)" = 172 ] || fail "the record for two readers has another length"
ask zone both
told 1 <<'TOLD'
! hours: both: more than one reader accepts it: --as KIND says which
TOLD
ask zone --as remote-desktop both
told 0 <<'TOLD'
remote desktop record, 1 rule
standard time is called ???>?Z
daylight time is called 
rule from the year 0 on, active
  standard time: UTC less local is -60 minutes, from the last Sunday of October 03:00
  daylight time: UTC less local is -120 minutes, from the last Sunday of March 02:00
TOLD
ask zone --as definition both
told 0 <<'TOLD'
TZDEFINITION, 1 rule
rule from the year 0 on, active
  all year: UTC less local is 90 minutes
TOLD
ask zone --as registry both
told 1 <<'TOLD'
! hours: both: refused 2: a size is wrong, a fixed record has another length, bytes follow, or a name to be written is an odd number of bytes
TOLD
ask utc --as remote-desktop both 2023-10-29T02:30:00
told 0 <<'TOLD'
2023-10-29T00:30:00Z 2023-10-29T01:30:00Z
TOLD
ask local --as definition both 2023-10-29T00:30:00Z
told 0 <<'TOLD'
2023-10-28T23:00:00
TOLD
ask new --as remote-desktop both tally
told 0 </dev/null
ask book --as remote-desktop both tally week.log
told 0 <"$sample/stdout"
# Read in another way the same bytes are another zone.
cp tally before
printf '2023-10-30T05:00:00Z 2023-10-30T06:00:00Z\n' >next.log
ask book --as definition both tally next.log
told 1 <<'TOLD'
! hours: tally: its zone record, kept beside it with the ending .zone, is missing
TOLD
holds tally before
ask book --as remote-desktop both tally next.log
[ "$status" = 0 ] || fail "$asked: exit status $status: $(shown)"
for command in 'new both other_tally' 'book both other_tally week.log'; do
    ask $command
    told 1 <<'TOLD'
! hours: both: more than one reader accepts it: --as KIND says which
TOLD
    is_missing other_tally
done

# The same with a name of one unit, whole and half a character: with half of one it is the remote desktop's alone, and kept as such.
for_two_readers_named() { # the unit as hex text
    bytes "02 00 0800 0200 0100 $1 0100"
    bytes '02 01 3E00 0300 0000' && zeros 14
    bytes '5A000000 00000000 00000000' && zeros 22
    bytes '0000 0A00 0000 0500 0300 0000 0000 0000 C2FFF7FF'
    zeros 64
    bytes '0000 0300 0000 0500 0200 0000 0000 0000 86FFF7FF'
}
for_two_readers_named 5000 >both_whole
ask zone both_whole
told 1 <<'TOLD'
! hours: both_whole: more than one reader accepts it: --as KIND says which
TOLD
ask new --as remote-desktop both_whole whole_tally
told 0 </dev/null
holds whole_tally.zone-remote-desktop both_whole
is_missing whole_tally.zone
for_two_readers_named 3CD8 >both_half
ask zone both_half
[ "$status" = 0 ] || fail "$asked: exit status $status: $(shown)"
[ "$(head -n 1 out)" = 'remote desktop record, 1 rule' ] || fail "$asked: it told: $(shown)"
ask zone --as definition both_half
told 1 <<TOLD
! hours: both_half: $half
TOLD
ask new --as remote-desktop both_half one_tally
told 0 </dev/null
holds one_tally.zone both_half
is_missing one_tally.zone-remote-desktop

echo "zone records: three kinds in words, switches at any millisecond, names with half a character, and one that two readers accept"
