# Bookings at once on one tally: in the end it holds the runs of those that ended with status 0, and of no others.

# Booked one after the other: on nothing or on an earlier run, the first log, the second one, or both.
head -n 4 week.log >first.log
tail -n +5 week.log >second.log
printf '2023-10-20T04:00:00Z 2023-10-20T12:00:00Z\n' >earlier.log
# A run before all the others, which is refused once one of them is booked.
printf '2023-09-01T04:00:00Z 2023-09-01T12:00:00Z\n' >past.log
one_by_one() { # tally, logs
    local tally=$1 log
    shift
    "$hours" new berlin.hex "$tally" >/dev/null 2>&1 || fail "hours new berlin.hex $tally: exit status $?"
    for log; do
        "$hours" book berlin.hex "$tally" "$log" >/dev/null 2>&1 || fail "hours book berlin.hex $tally $log: exit status $?"
    done
}
one_by_one fresh-none
one_by_one fresh-first first.log
one_by_one fresh-second second.log
one_by_one fresh-both first.log second.log
one_by_one kept-none earlier.log
one_by_one kept-first earlier.log first.log
one_by_one kept-second earlier.log second.log
one_by_one kept-both earlier.log first.log second.log

at_work() { # process number
    echo "hours: run/tally: another booking is at work on it, process $1, which holds run/tally.lock; nothing is changed, try again"
}
left_over="hours: run/tally.lock: left over from a booking, or held by one that can't be seen from here; remove this folder where none is at work; nothing is changed"

# ---- locks and leftovers, as a booking makes them
boot=$(cat /proc/sys/kernel/random/boot_id)
space=$(readlink /proc/self/ns/pid)
host=$(uname -n)
machine=$(grep -xE '[0-9a-f]{32}' /etc/machine-id 2>/dev/null || true)
left=0123456789abcdef
export boot space host machine left
leave_lock() { # number, command line; then boot, namespace, host name and machine where they are others
    mkdir -p run/tally.lock
    {
        printf '%s\n' "$left" "$1" "${3-$boot}" "${4-$space}" "${5-$host}" "${6-$machine}"
        printf "$2"
    } >run/tally.lock/holder
    : >"run/tally.lock/$left"
}
export -f leave_lock
true &
dead=$!
wait "$dead"

set_scene() {
    rm -rf run
    mkdir run
    cp "$kept-none" run/tally
    cp "$kept-none.zone" run/tally.zone
    [ ! -e "$kept-none.old" ] || cp "$kept-none.old" run/tally.old
    [ "$lock" = none ] || leave_lock "$dead" 'hours\0'
}

# Waits until a process that was started here has stopped or ended.
until_stopped() { # number
    local state
    while read -r _ _ state _ 2>/dev/null <"/proc/$1/stat"; do
        case $state in
        T | Z) return ;;
        esac
    done
}

# Waits until a process that was started here holds the lock.
until_held() { # number
    local lines
    while :; do
        { mapfile -t -n 2 lines <run/tally.lock/holder; } 2>/dev/null || lines=()
        [ "${lines[1]-}" != "$1" ] || return 0
        kill -0 "$1" 2>/dev/null || fail "$asked: it did not take the lock: $(cat err_b)"
    done
}

# What is booked is there, and the tally before it, and nothing else. The list of those that were begun may stay where one of them was refused by a lock: the next booking takes it away, and is refused here by its run.
is_as() { # the tally that was booked one by one
    holds run/tally "$1"
    holds run/tally.old "$1.old"
    holds run/tally.zone kept-none.zone
    if [ -e run/tally.begun ]; then
        ! grep -vxE '[0-9a-f]{16}' run/tally.begun || fail "$asked: the list has a wrong line"
        status=0
        "$hours" book berlin.hex run/tally past.log >out 2>err || status=$?
        [ "$status" = 1 ] || fail "$asked, then a run before all others: exit status $status: $(cat err)"
        holds run/tally "$1"
    fi
    [ "$(ls run | tr '\n' ' ')" = "tally tally.old tally.zone " ] || fail "$asked: it left $(ls run)"
}

# ---- one of two stopped
# Booking A stops behind its n-th call, booking B of an earlier run comes, and A goes on. A is done in any case: B is done before it, or refused. False where A has fewer calls.
stopped_at() { # n
    local a
    set_scene
    rm -f calls
    AT=$1 HOW=stopped-after CALL_LIST=calls LD_PRELOAD=$folder/kill_at.so "$hours" book berlin.hex run/tally second.log >out_a 2>err_a &
    a=$!
    until_stopped "$a"
    cp calls made
    status=0
    "$hours" book berlin.hex run/tally first.log >out 2>err || status=$?
    kill -CONT "$a" 2>/dev/null || true
    status_a=0
    wait "$a" || status_a=$?
    [ "$(wc -l <made)" = "$1" ] || return 1
    tries=$((tries + 1))
    asked="two bookings at once, $kept tally, lock $lock, stopped behind call $1, $(tail -n 1 made)"
    [ "$status_a" = 0 ] || fail "$asked: the one that was stopped ended with $status_a: $(cat err_a)"
    # A lock that was left costs a rename that fails, and its holder goes before A's own.
    if [ "$(grep -cx 'unlink run/tally.lock/holder' made)" = "$turns" ]; then
        holding=given_back
    elif [ "$(grep -c '^rename run/tally.lock-[0-9a-f]* run/tally.lock$' made)" = "$turns" ]; then
        holding=yes
    else
        holding=no
    fi
    case $holding in
    no)
        [ "$status" = 0 ] || fail "$asked: the other one ended with $status: $(cat err)"
        is_as "$kept-both"
        ;;
    yes)
        [ "$status" = 3 ] || fail "$asked: the other one ended with $status"
        [ "$(cat out err)" = "$(at_work "$a")" ] || fail "$asked: the other one told: $(cat out err)"
        is_as "$kept-second"
        ;;
    given_back)
        [ "$status" = 1 ] || fail "$asked: the other one ended with $status"
        grep -q ': refused 17: ' err || fail "$asked: the other one told: $(cat err)"
        is_as "$kept-second"
        ;;
    esac
    seen[$holding]=$((${seen[$holding]:-0} + 1))
}

declare -A seen
tries=0
for scene in 'fresh none' 'kept left'; do
    read -r kept lock <<<"$scene"
    turns=1
    [ "$lock" = none ] || turns=2
    for ((n = 1; ; n++)); do
        stopped_at "$n" || break
    done
    [ "$n" -gt 60 ] || fail "$asked: only $((n - 1)) calls on files are seen"
done
for holding in no yes given_back; do
    [ "${seen[$holding]:-0}" -gt 2 ] || fail "two bookings at once: only ${seen[$holding]:-0} of kind $holding"
done

# The calls of a booking in this scene, and the places of those that match.
list_calls() {
    set_scene
    rm -f calls
    CALL_LIST=calls LD_PRELOAD=$folder/kill_at.so "$hours" book berlin.hex run/tally first.log >out 2>err || fail "hours book, its calls listed: $(cat err)"
    cp calls all_calls
}
places_of() { # pattern
    grep -nE "$1" all_calls | cut -d : -f 1
}
takes_lock='^rename run/tally.lock-[0-9a-f]* run/tally.lock$'

# Booking A breaks a lock that was left and stops, B breaks it too and holds the tally until its log comes, and A goes on: it is refused, and B keeps its lock.
kept=kept lock=left
mkfifo comes_later
late_breaker() { # n
    local a b mark
    set_scene
    rm -f calls
    AT=$1 HOW=stopped-after CALL_LIST=calls LD_PRELOAD=$folder/kill_at.so "$hours" book berlin.hex run/tally first.log >out 2>err &
    a=$!
    until_stopped "$a"
    asked="a late breaker of a lock, stopped behind call $1, $(tail -n 1 calls)"
    "$hours" book berlin.hex run/tally comes_later >out_b 2>err_b &
    b=$!
    until_held "$b"
    mark=run/tally.lock/$(head -n 1 run/tally.lock/holder)
    [ -e "$mark" ] || fail "$asked: the other one holds a lock without its mark"
    kill -CONT "$a"
    status=0
    wait "$a" || status=$?
    [ -e "$mark" ] || fail "$asked: it broke a lock that is held"
    if [[ $(tail -n 1 made) = "unlink run/tally.lock/$left" ]]; then
        # It was about to take the holder away, and that is another one's now. The mark still holds the lock.
        told 3 <<<"! $left_over"
    else
        told 3 <<<"! $(at_work "$b")"
        [ "$(sed -n 2p run/tally.lock/holder)" = "$b" ] || fail "$asked: the lock has another holder"
    fi
    cat second.log >comes_later
    wait "$b" || fail "$asked: the other one ended with $?: $(cat err_b)"
    is_as kept-second
}
list_calls
renames=($(places_of "$takes_lock"))
[ "${#renames[@]}" = 2 ] || fail "a lock that was left is taken by ${#renames[@]} renames"
for ((n = renames[0]; n < renames[1]; n++)); do
    head -n "$n" all_calls >made
    late_breaker "$n"
done

# Booking A has its lock ready and stops. B is done, and is killed while it takes away what A made ready and gives its lock back. A goes on and takes the lock, and keeps it while its log does not come.
kept=kept lock=none
killed_in_sweep() { # n
    local a
    set_scene
    rm -f calls
    AT=$ready HOW=stopped-after LD_PRELOAD=$folder/kill_at.so "$hours" book berlin.hex run/tally comes_later >out_b 2>err_b &
    a=$!
    until_stopped "$a"
    asked="a booking killed behind call $1 of its own, and one that had its lock ready"
    status=0
    { AT=$1 HOW=killed-after CALL_LIST=calls LD_PRELOAD=$folder/kill_at.so "$hours" book berlin.hex run/tally first.log >out 2>err || status=$?; } 2>/dev/null
    asked="$asked: $(tail -n 1 calls)"
    kill -CONT "$a"
    until_held "$a"
    [ -e "run/tally.lock/$(head -n 1 run/tally.lock/holder)" ] || fail "$asked: it took a lock without its mark"
    # Another one is refused, and nothing of the lock changes.
    cp -r run/tally.lock lock
    ask book berlin.hex run/tally second.log
    told 3 <<<"! $(at_work "$a")"
    diff -r lock run/tally.lock || fail "$asked: the lock was changed"
    rm -r lock
    cat second.log >comes_later
    wait "$a" || fail "$asked: the one that was stopped ended with $?: $(cat err_b)"
    is_as kept-both
    rehearsed=$(wc -l <calls)
}
list_calls
ready=$(($(places_of "$takes_lock") - 1))
killed_in_sweep 0
sweeps=$(grep -n '^open run/tally.begun$' calls | tail -n 1 | cut -d : -f 1)
grep -q '^rename run/tally.lock-[0-9a-f]* run/tally.swept-[0-9a-f]*$' <(tail -n "+$sweeps" calls) || fail "$asked: it did not sweep"
last=$rehearsed
[ $((last - sweeps)) -gt 10 ] || fail "$asked: only $((last - sweeps)) calls of the sweep are seen"
for ((n = sweeps; n <= last; n++)); do
    killed_in_sweep "$n"
done
swept=$((last - sweeps + 1))

# ---- eight at once
# Of one day each: the later of two may come first, and the earlier is then refused.
for day in 1 2 3 4 5 6 7 8; do
    printf '2023-10-0%dT04:00:00Z 2023-10-0%dT12:00:00Z\n' "$day" "$day" >"day$day.log"
done
booked=0
eight_at_once() {
    local day running=() done_days=()
    set_scene
    for day in $order; do
        "$hours" book berlin.hex run/tally "day$day.log" >"out$day" 2>"err$day" &
        running[day]=$!
    done
    asked="eight bookings at once, lock $lock, $order"
    for day in 1 2 3 4 5 6 7 8; do
        status=0
        wait "${running[day]}" || status=$?
        case $status in
        0) done_days+=("day$day.log") ;;
        1) grep -q ': refused 17: ' "err$day" || fail "$asked: day $day told: $(cat "err$day")" ;;
        3) grep -q '; nothing is changed' "err$day" || fail "$asked: day $day told: $(cat "err$day")" ;;
        *) fail "$asked: day $day ended with $status: $(cat "err$day")" ;;
        esac
    done
    [ "${#done_days[@]}" -gt 0 ] || fail "$asked: none was booked: $(cat err?)"
    booked=$((booked + ${#done_days[@]}))
    rm -f expected expected.zone expected.old
    one_by_one expected "${done_days[@]}"
    is_as expected
}
kept=fresh
for lock in none left; do
    for order in '1 2 3 4 5 6 7 8' '8 7 6 5 4 3 2 1' '1 5 2 6 3 7 4 8' '1 2 3 4 5 6 7 8' '1 2 3 4 5 6 7 8'; do
        eight_at_once
    done
done

# ---- locks that were left, and locks that are held
kept=kept
lock=none
goes_through() { # what stands there
    ask book berlin.hex run/tally first.log
    asked="$asked, $1"
    [ "$status" = 0 ] || fail "$asked: exit status $status: $(cat err)"
    [ ! -s err ] || fail "$asked: it said: $(cat err)"
    [ ! -e run/tally.begun ] || fail "$asked: it left $(ls run)"
    is_as kept-first
}
# Nothing is changed, and no part of the lock that stands there.
is_refused() { # what is said, what stands there
    rm -rf lock
    [ ! -e run/tally.lock ] || cp -r run/tally.lock lock
    ask book berlin.hex run/tally first.log
    asked="$asked, $2"
    told 3 <<TOLD
! $1
TOLD
    holds run/tally kept-none
    [ ! -e lock ] || diff -r lock run/tally.lock || fail "$asked: the lock was changed"
    [ -z "$(find run -name '*.new-*' -o -name '*.old-*' -o -name '*.lock-*' -o -name '*.swept-*')" ] || fail "$asked: it left $(ls run)"
}

set_scene
mkdir run/tally.lock
goes_through 'an empty lock'
set_scene
leave_lock "$dead" 'hours\0'
goes_through 'a lock of a process that is gone'
set_scene
leave_lock "$dead" 'hours\0'
rm "run/tally.lock/$left"
goes_through 'a lock that was being given back'

# A process that is there, with its own command line, another one, or none that is known.
sleep 100 &
alive=$!
while [ "$(tr '\0' ' ' <"/proc/$alive/cmdline")" != 'sleep 100 ' ]; do :; done
set_scene
leave_lock "$alive" 'sleep\000100\0'
is_refused "$(at_work "$alive")" 'a lock of a process that is there'
set_scene
leave_lock "$alive" ''
is_refused "$(at_work "$alive")" 'a lock of a process that is there, and knew no command line'
for command in 'hours\0book\0' 'sleep\000100' 'sleep\000100\0more\0'; do
    set_scene
    leave_lock "$alive" "$command"
    goes_through 'a lock whose number was given to another program since'
done
kill "$alive"
wait "$alive" 2>/dev/null || true

# One that has ended, and whose parent never asks for its status.
bash -c 'sleep 0.01 & echo $! >ended; exec sleep 100' &
parent=$!
until [ -s ended ] && read -r _ _ state _ <"/proc/$(cat ended)/stat" && [ "$state" = Z ]; do sleep 0.01; done
set_scene
leave_lock "$(cat ended)" 'sleep\0000.01\0'
goes_through 'a lock of a process that has ended'
kill "$parent"
wait "$parent" 2>/dev/null || true

# The longest name there may be: of its command line only the start is kept.
list_calls
long=$(printf './%.0s' {1..1995})run/tally
set_scene
AT=$(places_of "$takes_lock") HOW=stopped-after LD_PRELOAD=$folder/kill_at.so "$hours" book berlin.hex "$long" first.log >out_a 2>err_a &
alive=$!
until_stopped "$alive"
is_refused "$(at_work "$alive")" 'a lock of a process with a long command line'
kill -CONT "$alive"
wait "$alive" || fail "$asked: the other one ended with $?: $(cat err_a)"
is_as kept-first

# ---- locks of another boot, another machine or another namespace
other_boot=00000000-0000-4000-8000-000000000000
set_scene
leave_lock "$dead" 'hours\0' "$other_boot"
if [ -n "$machine" ]; then
    goes_through 'a lock of an earlier boot of this machine'
    set_scene
    leave_lock $$ '' "$other_boot"
    goes_through 'a lock of an earlier boot of this machine, whose number a process has now'
    set_scene
    leave_lock "$dead" 'hours\0' "$other_boot" 'pid:[1]'
    goes_through 'a lock of an earlier boot of this machine and another namespace'
else
    is_refused "$left_over" 'a lock of another boot, on a machine without a number of its own'
fi
left_alone() { # what stands there, and the lock's boot, namespace, host name and machine
    local what=$1
    shift
    set_scene
    leave_lock "$dead" 'hours\0' "$@"
    is_refused "$left_over" "$what"
}
other_machine=ffffffffffffffffffffffffffffffff
left_alone 'a lock of another boot and another host' "$other_boot" "$space" "other-$host"
left_alone 'a lock of another boot and an unknown host' "$other_boot" "$space" ''
left_alone 'a lock of another boot and another machine' "$other_boot" "$space" "$host" "$other_machine"
left_alone 'a lock of another boot and an unknown machine' "$other_boot" "$space" "$host" ''
left_alone 'a lock of an unknown boot' ''
left_alone 'a lock of another namespace' "$boot" 'pid:[1]'
left_alone 'a lock of an unknown namespace' "$boot" ''

# The number of the booking itself: a process that becomes the tool keeps its number, which is evidence in its own boot and namespace.
as_own() { # what to leave, in words of the shell; exit status
    asked="hours book, after $1"
    set_scene
    status=0
    bash -c "$1"'; exec "$@"' own "$hours" book berlin.hex run/tally first.log >out 2>err || status=$?
    [ "$status" = "$2" ] || fail "$asked: exit status $status: $(cat err)"
    if [ "$2" = 0 ]; then
        is_as kept-first
    else
        told 3 <<<"! $left_over"
        holds run/tally kept-none
    fi
}
as_own 'leave_lock $$ ""' 0
as_own 'leave_lock $$ "bash\0"' 0
as_own 'leave_lock $$ "" "$boot" "pid:[1]"' 3
as_own 'leave_lock $$ "" "$boot" ""' 3
as_own 'leave_lock $$ "" ""' 3
as_own "leave_lock \$\$ '' $other_boot \"\$space\" \"\$host\" $other_machine" 3

# ---- locks that do not say who holds them: they may be held
says_nothing() { # the holder's file, as printf takes it
    set_scene
    mkdir run/tally.lock
    printf -- "$1" >run/tally.lock/holder
    : >"run/tally.lock/$left"
    is_refused "$left_over" "a lock with the holder $1"
}
here="$boot\n$space\n$host\n$machine\nhours\0"
for holder in '' "$dead" "$dead\nhours\0" 'x\n' '\n' "$left" "$left\n" "$left\n$dead\n" "$(printf '1%.0s' {1..5000})" "$(printf '1%.0s' {1..9000})"; do
    says_nothing "$holder"
done
for number in '' x -1 0 99999999999999999999 2147483648 "$dead " "../$dead"; do
    says_nothing "$left\n$number\n$here"
done
for token in '' 0123456789abcde 0123456789abcdef0 0123456789ABCDEF 0123456789abcdeg ../../run/tally 0123456789/../..; do
    says_nothing "$token\n$dead\n$here"
done
set_scene
mkdir -p run/tally.lock/holder
is_refused "$left_over" 'a lock whose holder is a folder'
set_scene
mkdir run/tally.lock
: >run/tally.lock/1234
is_refused "$left_over" 'a lock without a holder'
set_scene
leave_lock "$dead" 'hours\0'
chmod 000 run/tally.lock/holder
chmod 777 run
chmod 666 run/tally
ask_as_nobody book berlin.hex run/tally first.log
told 3 <<TOLD
! $left_over
TOLD
holds run/tally kept-none
set_scene
echo mine >run/tally.lock
ask book berlin.hex run/tally first.log
told 1 <<'TOLD'
! hours: run/tally.lock: Not a directory
TOLD
holds run/tally kept-none
[ "$(cat run/tally.lock)" = mine ] || fail "$asked: it was written to"
[ -z "$(find run -name '*.lock-*')" ] || fail "$asked: it left $(ls run)"

# ---- what killed bookings left
# Killed where it has made each of its files and folders.
list_calls
killed=0
for n in $(places_of '^(mkdir|open|rename) run/tally.(begun|lock|new|old)'); do
    set_scene
    { AT=$n HOW=killed-after LD_PRELOAD=$folder/kill_at.so "$hours" book berlin.hex run/tally first.log >out 2>err || true; } 2>/dev/null
    cmp -s run/tally kept-none || continue
    killed=$((killed + 1))
    goes_through "after one that was killed behind call $n, $(sed -n "${n}p" all_calls)"
done
[ "$killed" -gt 7 ] || fail "only $killed killed bookings are seen"

# As they are left by one that was killed, or by one that was killed while it took them away.
token=fedcba9876543210
other=00000000ffffffff
leave_folder() { # name, what is in it
    mkdir "$1"
    local file
    for file in "${@:2}"; do
        echo x >"$1/$file"
    done
}
for inside in '' "$token" "holder" "$token holder"; do
    set_scene
    printf '%s\n' "$token" "$other" "$token" >run/tally.begun
    leave_folder "run/tally.lock-$token" $inside
    leave_folder "run/tally.swept-$token" $inside
    leave_folder "run/tally.swept-$other"
    : >"run/tally.new-$token"
    : >"run/tally.old-$token"
    : >"run/tally.old-$other"
    goes_through "a list of two that were killed, and in their folders: $inside"
done
# Behind a line that has no end the next token makes one of 32 digits, which is none.
set_scene
printf '%s' "$token" >run/tally.begun
: >"run/tally.new-$token"
ask book berlin.hex run/tally first.log
[ "$status" = 0 ] || fail "$asked: exit status $status: $(cat err)"
holds run/tally kept-first
is_missing run/tally.begun
[ -e "run/tally.new-$token" ] || fail "$asked: it took 32 digits for a token"

# A list with anything else in it leads to no file.
set_scene
printf '%s\n' '' .. ../x x/../../x 0123456789ABCDEF 0123456789abcde 0123456789abcdef0 '0123456789abcde ' 0123456789abcdeg "$(printf '0%.0s' {1..5000})" '../../../../../x' "$other" >run/tally.begun
printf '0123456789abcde\0\n\0\n' >>run/tally.begun
mkdir run/tally.new-.. run/tally.lock-.. run/tally.new-x
names=(x tally.new- tally.old- tally.new-../x tally.lock-../x tally.new-x/x tally.new-0123456789ABCDEF tally.new-0123456789abcde tally.old-0123456789abcdef0 'tally.new-0123456789abcde ' tally.old-0123456789abcdeg)
for name in "${names[@]}"; do
    echo mine >"run/$name"
done
: >"run/tally.new-$other"
ask book berlin.hex run/tally first.log
asked="$asked, with a list of anything"
[ "$status" = 0 ] || fail "$asked: exit status $status: $(cat err)"
holds run/tally kept-first
for name in "${names[@]}"; do
    [ "$(cat "run/$name" 2>/dev/null)" = mine ] || fail "$asked: run/$name is gone"
done
is_missing "run/tally.new-$other"
is_missing run/tally.begun

# A list that can't be added to is said, and one that is gone each time it is looked at, as if others swept, is tried three times.
set_scene
mkdir run/tally.begun
ask book berlin.hex run/tally first.log
told 1 <<'TOLD'
! hours: run/tally: Is a directory
TOLD
holds run/tally kept-none
set_scene
ln -s nowhere run/tally.begun
is_refused 'hours: run/tally: another booking is at work on it; nothing is changed, try again' 'a list that is always gone'

# The sheet takes no lock.
set_scene
leave_lock $$ ''
ask sheet run/tally
[ "$status" = 0 ] || fail "$asked: exit status $status: $(cat err)"

echo "bookings at once: $tries of two, one of them stopped behind each call; $swept killed in a sweep; $booked of 80 by eight at once; locks left and held; what $killed killed ones left"
