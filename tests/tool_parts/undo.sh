# `hours undo` puts the tally from before the last booking back, once.

head -n 4 week.log >first.log
tail -n +5 week.log >second.log
: >empty.log
bad='refused 18: saved record of another length or kind, or a tally that does not hold'
no_old='hours: run/tally: nothing to undo: there is no run/tally.old'
same='hours: run/tally: nothing to undo: run/tally.old is the same tally'

# The tally as it stands after each booking, with its sheets.
begin tally
for state in fresh first both; do
    case $state in
    first) ask book berlin.hex tally first.log ;;
    both) ask book berlin.hex tally second.log ;;
    esac
    [ "$status" = 0 ] || fail "$asked: exit status $status: $(shown)"
    cp tally "$state"
    ask sheet tally
    cp out "$state.sheet"
    ask sheet --csv tally
    cp out "$state.csv"
done
diff "$sample/stdout" both.sheet || fail "the week in two bookings has another sheet"

book() { # log, and how the tally stands then
    ask book berlin.hex run/tally "$1"
    told 0 <"$2.sheet"
    holds run/tally "$2"
}
stands() { # what the tally is, and what is beside it: old, or none
    holds run/tally "$1"
    holds run/tally.zone tally.zone
    if [ "$2" = none ]; then
        has_only run tally tally.zone
    else
        holds run/tally.old "$2"
        has_only run tally tally.old tally.zone
    fi
}
undo() { # how the tally stands then, and the form
    if [ "$2" = csv ]; then ask undo --csv run/tally; else ask undo run/tally; fi
    told 0 <"$1.$2"
    stands "$1" none
}
not_undone() { # what is said
    rm -rf before
    cp -a run before
    local command
    for command in 'undo run/tally' 'undo --csv run/tally'; do
        ask $command
        told 1 <<<"! $1"
        diff -r --no-dereference before run >differences || fail "$asked: the folder was changed: $(cat differences)"
    done
}

for form in sheet csv; do
    rm -rf run
    mkdir run
    begin run/tally
    not_undone "$no_old"
    # One booking is undone once, and booked again it is the same.
    book first.log first
    stands first fresh
    undo fresh "$form"
    not_undone "$no_old"
    stands fresh none
    book first.log first
    stands first fresh
    # Of two bookings the last one.
    book second.log both
    stands both first
    undo first "$form"
    not_undone "$no_old"
    stands first none
    book second.log both
    stands both first
    # A booking that changed nothing leaves nothing to undo, and one that was refused undoes nothing.
    ask book berlin.hex run/tally second.log
    [ "$status" = 1 ] || fail "$asked: exit status 1 was expected, and $status came"
    stands both first
    book empty.log both
    stands both both
    not_undone "$same"
    stands both both
done

# An old tally that is none, or none at all.
rm run/tally.old
not_undone "$no_old"
damaged() { # what is said
    not_undone "$1"
    holds run/tally both
}
head -c 67 first >run/tally.old
damaged "hours: run/tally.old: $bad"
{ cat first && zeros 1; } >run/tally.old
damaged "hours: run/tally.old: $bad"
: >run/tally.old
damaged "hours: run/tally.old: $bad"
zeros 5000 >run/tally.old
damaged "hours: run/tally.old: $bad"
{ bytes '42 00 01 00 00 C0 C6 78 D1 1E 01 00 01' && zeros 55; } >run/tally.old
damaged "hours: run/tally.old: $bad"
rm run/tally.old
mkdir run/tally.old
damaged 'hours: run/tally.old: Is a directory'
rmdir run/tally.old
# A tally that was lost, or is none any more, is replaced, too, and then booked on as before.
cp first run/tally.old
rm run/tally
undo first sheet
book second.log both
head -c 67 both >run/tally
undo first csv
book second.log both
zeros 5000 >run/tally
undo first sheet
book second.log both
stands both first
rm run/tally
mkdir run/tally
not_undone 'hours: run/tally: Is a directory'
rmdir run/tally
undo first csv

# No tally, a lost one, or a folder.
rm -rf run
mkdir run
not_undone "$no_old"
cp tally.zone run/tally.zone
not_undone "$no_old"
mkdir run/tally
not_undone "$no_old"
rmdir run/tally

# A tally that the user may not write to is not replaced, and nothing is made beside it, though the folder may be written to.
read_only() { # arguments
    ask_as_nobody "$@"
    told 1 <<<'! hours: run/tally: Permission denied'
    [ "$(stat -c %a run/tally)" = 444 ] || fail "$asked: its mode is $(stat -c %a run/tally)"
    nothing_new run/tally
}
rm -rf run
mkdir -m 777 run
ask_as_nobody new berlin.hex run/tally
told 0 </dev/null
chmod 444 run/tally
read_only book berlin.hex run/tally week.log
read_only book --csv berlin.hex run/tally - <week.log
read_only undo run/tally
stands fresh none
chmod 644 run/tally
ask_as_nobody book berlin.hex run/tally first.log
told 0 <first.sheet
stands first fresh
chmod 444 run/tally
read_only book berlin.hex run/tally second.log
read_only undo run/tally
read_only undo --csv run/tally
stands first fresh
ask_as_nobody sheet run/tally
told 0 <first.sheet
# Where it may be written to, it is undone.
chmod 644 run/tally
ask_as_nobody undo run/tally
told 0 <fresh.sheet
stands fresh none

echo "undo: the last booking, once; a tally that may not be written to stays"
