# Tally files that are no tally, or one of another zone. A booking leaves them as they are.

not_held() { # file, what is said of it
    [ ! -f "$1" ] || cp "$1" before
    for command in "sheet $1" "sheet --csv $1" "book berlin.hex $1 week.log"; do
        ask $command
        told 1 <<TOLD
! hours: $1: $2
TOLD
        [ ! -f "$1" ] || holds "$1" before
        is_missing "$1.zone"
        is_missing "$1.old"
        nothing_new "$1"
    done
}
bad='refused 18: saved record of another length or kind, or a tally that does not hold'

fresh='42 00 01 00 00 C0 C6 78 D1 1E 01 00'
{ bytes "$fresh" && zeros 55; } >of_67
not_held of_67 "$bad"
{ bytes "$fresh" && zeros 57; } >of_69
not_held of_69 "$bad"
: >empty
not_held empty "$bad"
zeros 5000 >of_5000
not_held of_5000 "$bad"
{ bytes '42 00 02 00 00 C0 C6 78 D1 1E 01 00' && zeros 56; } >other_kind
not_held other_kind "$bad"
{ bytes '44 00 01 00 00 C0 C6 78 D1 1E 01 00' && zeros 56; } >other_length
not_held other_length "$bad"
# One tick more than there was time for, and an end before the window.
{ bytes "$fresh" && bytes '01' && zeros 55; } >too_much
not_held too_much "$bad"
{ bytes '42 00 01 00 FF BF C6 78 D1 1E 01 00' && zeros 56; } >too_early
not_held too_early "$bad"
mkdir folder
not_held folder 'Is a directory'
not_held berlin.hex/tally 'Not a directory'

ask sheet missing
told 1 <<'TOLD'
! hours: missing: there is no such file
TOLD
is_missing missing

# Nothing booked yet.
fresh_tally >fresh
ask sheet fresh
told 0 < <(fresh_sheet)

# The zone beside it.
"$second" zone-records .
head -n 4 week.log >first.log
tail -n +5 week.log >second.log
begin tally
ask book berlin.hex tally first.log
[ "$status" = 0 ] || fail "$asked: exit status $status: $(shown)"
holds tally.zone registry
cp tally before
stays() {
    ask "$@"
    told 1
    holds tally before
    holds tally.old fresh
    nothing_new tally
}
stays book remote-desktop tally second.log <<'TOLD'
! hours: tally: booked in another zone: the record kept beside it, with the ending .zone, is not the one named now
TOLD
mv tally.zone kept
stays book berlin.hex tally second.log <<'TOLD'
! hours: tally: its zone record, kept beside it with the ending .zone, is missing
TOLD
is_missing tally.zone
cp berlin.hex tally.zone
stays book berlin.hex tally second.log <<'TOLD'
! hours: tally: booked in another zone: the record kept beside it, with the ending .zone, is not the one named now
TOLD
rm tally.zone
mkdir tally.zone
stays book berlin.hex tally second.log <<'TOLD'
! hours: tally.zone: Is a directory
TOLD
rmdir tally.zone
mv kept tally.zone
# The same zone in another spelling, or the kept record itself.
ask book tally.zone tally second.log
told 0 <"$sample/stdout"

# A folder that is not there, or that another user may not write to.
ask book berlin.hex no/tally week.log
told 1 <<'TOLD'
! hours: no/tally: No such file or directory
TOLD
is_missing no
mkdir locked
chmod 555 locked
ask_as_nobody book berlin.hex locked/tally week.log
told 1 <<'TOLD'
! hours: locked/tally: Permission denied
TOLD
has_nothing locked
chmod 755 locked
cp before locked/tally
cp registry locked/tally.zone
chmod 666 locked/tally
chmod 555 locked
ask_as_nobody book berlin.hex locked/tally second.log
told 1 <<'TOLD'
! hours: locked/tally: Permission denied
TOLD
holds locked/tally before
has_only locked tally tally.zone
chmod 755 locked
# A file of another's with a like name stays as it is.
mkdir own
for name in tally.new tally.lock-mine tally.new-mine tally.old-mine; do
    echo mine >"own/$name"
done
begin own/tally
ask book berlin.hex own/tally week.log
told 0 <"$sample/stdout"
has_only own tally tally.lock-mine tally.new tally.new-mine tally.old tally.old-mine tally.zone
for name in tally.new tally.lock-mine tally.new-mine tally.old-mine; do
    [ "$(cat "own/$name")" = mine ] || fail "$asked: $name was written to"
done

# A link would become a file, and the tally that it names fall behind. Its sheet may be asked for.
mkdir linked
cp before linked/kept
cp registry linked/kept.zone
cp registry linked/tally.zone
ln -s kept linked/tally
for command in 'new berlin.hex linked/tally' 'book berlin.hex linked/tally second.log' 'undo linked/tally'; do
    ask $command
    told 1 <<'TOLD'
! hours: linked/tally: a link; name the file itself
TOLD
    [ -L linked/tally ] || fail "$asked: the link is gone"
    holds linked/kept before
    has_only linked kept kept.zone tally tally.zone
done
ask sheet tally
cp out sheet
cp tally linked/kept
ask sheet linked/tally
told 0 <sheet
ln -s nowhere linked/loose
for command in 'new berlin.hex linked/loose' 'book berlin.hex linked/loose week.log' 'undo linked/loose'; do
    ask $command
    told 1 <<'TOLD'
! hours: linked/loose: a link; name the file itself
TOLD
    has_only linked kept kept.zone loose tally tally.zone
done
# A folder that is a link is no matter.
ln -s linked way
begin way/fresh
ask book berlin.hex way/fresh week.log
told 0 <"$sample/stdout"
holds linked/fresh tally

echo "tally files: no tally, another zone's, or not to be written"
