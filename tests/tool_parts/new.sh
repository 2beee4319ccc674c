# `hours new` begins a tally, and nothing else does: a booking without one is refused.

"$second" zone-records .

# ---- begun
mkdir begun
begin begun/tally
has_only begun tally tally.zone
holds begun/tally <(fresh_tally)
holds begun/tally.zone registry
ask sheet begun/tally
told 0 < <(fresh_sheet)
# The zone's bytes are kept, however the file writes them. A name may have its folder in front, or a ./ .
for kind in registry remote-desktop definition; do
    od -An -v -tx1 "$kind" >spelt
    begin "begun/$kind" "$kind"
    begin "./begun/./$kind.spelt" spelt
    for tally in "begun/$kind" "begun/$kind.spelt"; do
        holds "$tally" begun/tally
        holds "$tally.zone" "$kind"
        nothing_new "$tally"
    done
    ask new --as "$kind" spelt "begun/$kind.said"
    told 0 </dev/null
    holds "begun/$kind.said" begun/tally
    holds "begun/$kind.said.zone" "$kind"
done
# With blanks in its name.
begin 'begun/compressor 3'
has_only begun 'compressor 3' 'compressor 3.zone' {definition,registry,remote-desktop}{,.said,.said.zone,.spelt,.spelt.zone,.zone} tally tally.zone

# A record that several readers accept is kept with its kind.
for_two_readers >both
mkdir several
ask new both several/tally
told 1 <<'TOLD'
! hours: both: more than one reader accepts it: --as KIND says which
TOLD
has_nothing several
for kind in remote-desktop definition; do
    ask new --as "$kind" both "several/$kind"
    told 0 </dev/null
    holds "several/$kind" begun/tally
    holds "several/$kind.zone-$kind" both
done
has_only several definition definition.zone-definition remote-desktop remote-desktop.zone-remote-desktop
ask new --as registry both several/tally
told 1 <<'TOLD'
! hours: both: refused 2: a size is wrong, a fixed record has another length, bytes follow, or a name to be written is an odd number of bytes
TOLD
is_missing several/tally
# Booked in the kind that it was begun in, and in no other one.
ask book --as remote-desktop both several/remote-desktop week.log
told 0 <"$sample/stdout"
ask book --as remote-desktop both several/definition week.log
told 1 <<'TOLD'
! hours: several/definition: its zone record, kept beside it with the ending .zone, is missing
TOLD
holds several/definition begun/tally

# ---- not begun
not_begun() { # arguments; on standard input what is said
    rm -rf before
    cp -a run before
    ask new "$@"
    told 1
    diff -r --no-dereference before run >differences || fail "$asked: the folder was changed: $(cat differences)"
}
there='hours: run/tally: there is a file of this name already; nothing is begun'
mkdir run
# Where there is one, of whatever kind.
begin run/tally
not_begun berlin.hex run/tally <<<"! $there"
not_begun remote-desktop run/tally <<<"! $there"
ask book berlin.hex run/tally week.log
told 0 <"$sample/stdout"
not_begun berlin.hex run/tally <<<"! $there"
rm run/tally.zone run/tally.old
not_begun berlin.hex run/tally <<<"! $there"
echo mine >run/tally
not_begun berlin.hex run/tally <<<"! $there"
: >run/tally
not_begun berlin.hex run/tally <<<"! $there"
rm run/tally
mkdir run/tally
not_begun berlin.hex run/tally <<<'! hours: run/tally: Is a directory'
rmdir run/tally
ln -s nowhere run/tally
not_begun berlin.hex run/tally <<<'! hours: run/tally: a link; name the file itself'
rm run/tally
fresh_tally >run/kept
ln -s kept run/tally
not_begun berlin.hex run/tally <<<'! hours: run/tally: a link; name the file itself'
rm run/tally run/kept

# Where one was lost: what stood beside it is still there.
lost() { # what stands there
    echo "! hours: run/tally: a tally of this name was lost: $1 stands there without it; put it back from a copy, or remove $1 to begin anew"
}
cp registry run/tally.zone
not_begun berlin.hex run/tally < <(lost run/tally.zone)
cp definition run/tally.zone
not_begun berlin.hex run/tally < <(lost run/tally.zone)
fresh_tally >run/tally.old
not_begun berlin.hex run/tally < <(lost run/tally.zone)
rm run/tally.zone
not_begun berlin.hex run/tally < <(lost run/tally.old)
: >run/tally.old
not_begun berlin.hex run/tally < <(lost run/tally.old)
rm run/tally.old
for kind in registry remote-desktop definition; do
    : >"run/tally.zone-$kind"
    not_begun berlin.hex run/tally < <(lost "run/tally.zone-$kind")
    rm "run/tally.zone-$kind"
done
begin run/tally
rm run/tally run/tally.zone

# With a zone file that is none: see zone_files.sh, too.
printf 'Europe/Berlin' >words
not_begun words run/tally <<'TOLD'
! hours: words: no reader of zone records accepts it
!   as registry: refused 2: a size is wrong, a fixed record has another length, bytes follow, or a name to be written is an odd number of bytes
!   as remote-desktop: refused 2: a size is wrong, a fixed record has another length, bytes follow, or a name to be written is an odd number of bytes
!   as definition: refused 3: header major is not 2
TOLD
not_begun missing run/tally <<<'! hours: missing: there is no such file'
not_begun run run/tally <<<'! hours: run: Is a directory'
not_begun --as definition registry run/tally <<<'! hours: registry: refused 3: header major is not 2'

# In a folder that is none, that is not there, or that may not be written to.
not_begun berlin.hex run/no/tally <<<'! hours: run/no/tally: No such file or directory'
not_begun berlin.hex berlin.hex/tally <<<'! hours: berlin.hex/tally: Not a directory'
chmod 555 run
rm -rf before
ask_as_nobody new berlin.hex run/tally
told 1 <<<'! hours: run/tally: Permission denied'
has_nothing run
chmod 755 run

# ---- a booking without a tally
# In each of its forms; a log by standard input is not waited for.
no_tally='hours: run/tally: there is no such tally; hours new begins one; nothing is booked'
mkfifo never
exec {open}<>never
not_booked() { # what is said, arguments
    local said=$1
    shift
    rm -rf before
    cp -a run before
    ask "$@" <never
    told 1 <<<"! $said"
    diff -r --no-dereference before run >differences || fail "$asked: the folder was changed: $(cat differences)"
}
forms_not_booked() { # what is said
    not_booked "$1" book berlin.hex run/tally week.log
    not_booked "$1" book --csv berlin.hex run/tally week.log
    not_booked "$1" book --as registry berlin.hex run/tally week.log
    not_booked "$1" book --csv --as definition definition run/tally week.log
    not_booked "$1" book berlin.hex run/tally -
    not_booked "$1" book berlin.hex run/tally
    not_booked "$1" book berlin.hex run/tally missing
    not_booked "$1" book berlin.hex run/tally /dev/null
}
forms_not_booked "$no_tally"
# A mistyped name beside a tally.
begin run/tally1
forms_not_booked "$no_tally"
rm run/tally1 run/tally1.zone
ask sheet run/tally
told 1 <<<'! hours: run/tally: there is no such file'
has_nothing run

# A lost one. The old one is no substitute: it lacks the last booking.
lost='the tally is lost: %s stands there without it; put it back from a copy; nothing is booked'
begin run/tally
ask book berlin.hex run/tally week.log
told 0 <"$sample/stdout"
rm run/tally
forms_not_booked "hours: run/tally: $(printf "$lost" run/tally.zone)"
rm run/tally.zone
forms_not_booked "hours: run/tally: $(printf "$lost" run/tally.old)"
rm run/tally.old
cp both run/tally.zone
forms_not_booked "hours: run/tally: $(printf "$lost" run/tally.zone)"
rm run/tally.zone
: >run/tally.zone-definition
forms_not_booked "hours: run/tally: $(printf "$lost" run/tally.zone-definition)"
rm run/tally.zone-definition
exec {open}>&-

echo "new: a tally is begun once, and no booking begins one"
