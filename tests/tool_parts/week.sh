# The sample week: what the tool prints is what the second program makes of the log.

"$second" monday-sheet <week.log >sheet
"$second" monday-sheet --csv <week.log >sheet.csv
diff "$sample/stdout" sheet || fail "the sample's stdout (<) is not what the second program makes of its log (>)"

begin tally
ask book berlin.hex tally week.log
told 0 <sheet
begin tally.csv
ask book --csv berlin.hex tally.csv week.log
told 0 <sheet.csv
holds tally.csv tally
[ "$(stat -c %s tally)" = 68 ] || fail "the tally file has $(stat -c %s tally) bytes"

ask sheet tally
told 0 <sheet
ask sheet --csv tally
told 0 <sheet.csv

# By standard input.
begin by_input
ask book berlin.hex by_input - <week.log
told 0 <sheet
holds by_input tally
begin by_pipe
ask book berlin.hex by_pipe < <(cat week.log)
told 0 <sheet
holds by_pipe tally

# In two logs, cut after each line, with a second start of the tool between them.
lines=$(wc -l <week.log)
for ((cut = 0; cut <= lines; cut++)); do
    rm -f cut cut.zone cut.old
    begin cut
    head -n "$cut" week.log >first.log
    tail -n "+$((cut + 1))" week.log >second.log
    ask book berlin.hex cut first.log
    [ "$status" = 0 ] || fail "$asked: the first $cut lines: exit status $status: $(shown)"
    ask book berlin.hex cut second.log
    told 0 <sheet
    holds cut tally
    nothing_new cut
done

# A log that was booked is not booked again.
cp tally before
ask book berlin.hex tally week.log
told 1 <<TOLD
! hours: week.log: line 2: refused 17: b before a, or a before the tally's end (a run is from a to before b)
! hours: week.log: line 3: refused 17: b before a, or a before the tally's end (a run is from a to before b)
! hours: week.log: line 4: refused 17: b before a, or a before the tally's end (a run is from a to before b)
! hours: week.log: line 6: refused 17: b before a, or a before the tally's end (a run is from a to before b)
! hours: week.log: line 8: refused 17: b before a, or a before the tally's end (a run is from a to before b)
! hours: week.log: 5 wrong lines; nothing is booked
TOLD
holds tally before

# A log without a run is booked, and changes nothing.
begin nothing
ask book berlin.hex nothing /dev/null
told 0 < <(fresh_sheet)
holds nothing <(fresh_tally)

echo "the sample week: in both forms, by a file and by standard input, cut in two after each of $lines lines"
