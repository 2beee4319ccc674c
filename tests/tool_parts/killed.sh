# A tally that is begun, booked on or put back, and the tool killed at any of its calls on files, or one of them failing: the tally file is the old one or the new one, whole, and the next call of the tool goes on from it, whatever lock was left.

# The week in two logs: the second one is booked on the tally of the first, or put back.
head -n 4 week.log >first.log
tail -n +5 week.log >second.log
begin fresh
cp fresh old
cp fresh.zone old.zone
ask book berlin.hex old first.log
told 0 <<'TOLD'
Sunday         0:00
Monday        10:00
Tuesday        6:30
Wednesday     11:45
Thursday       0:00
Friday         0:00
Saturday       0:00
total         28:15
counted up to 2023-10-25T17:00:00Z
TOLD
cp out old.sheet
cp old new
cp old.zone new.zone
ask book berlin.hex new second.log
told 0 <"$sample/stdout"
: >no.sheet
tries=0

# A process that is gone, and the lock that it left.
true &
dead=$!
wait "$dead"
dead_token=0123456789abcdef
leave_lock() { # folder
    mkdir "$1/tally.lock"
    {
        printf '%s\n' "$dead_token" "$dead" "$(cat /proc/sys/kernel/random/boot_id)" "$(readlink /proc/self/ns/pid)" "$(uname -n)"
        grep -xE '[0-9a-f]{32}' /etc/machine-id 2>/dev/null || echo
        printf 'hours\0'
    } >"$1/tally.lock/holder"
    : >"$1/tally.lock/$dead_token"
}

# ---- the scenes
# Each has its folder, its command, what is shown, and how things stand before and after: the tally and the old one beside it. Some way between them they may stand as well.
mkdir at_new at_later at_broken at_undo
for scene in later broken undo; do
    cp old.zone "at_$scene/tally.zone"
done
for scene in later broken; do
    cp old "at_$scene/tally"
    cp fresh "at_$scene/tally.old"
done
leave_lock at_broken
cp new at_undo/tally
cp old at_undo/tally.old
set_words() {
    between=
    case $scene in
    new)
        command=(new berlin.hex run/tally)
        before='none none' after='fresh none' sheet=no.sheet done_word=begun
        ;;
    later | broken)
        command=(book berlin.hex run/tally second.log)
        before='old fresh' between='old old' after='new old' sheet=$sample/stdout done_word=booked
        ;;
    undo)
        command=(undo run/tally)
        before='new old' after='old none' sheet=old.sheet done_word='put back'
        ;;
    esac
}

# The scene's command, whose n-th call meets what is said, on a disk that may be full. False where it ended before that call.
run_with() { # n, what happens
    rm -rf run
    cp -r "at_$scene" run
    : >calls
    status=0
    # The shell tells of each process that was killed.
    {
        AT=$1 HOW=$2 CALL_LIST=calls DISK_FULL=$disk_full LD_PRELOAD=$folder/kill_at.so "$hours" "${command[@]}" >out 2>err || status=$?
    } 2>/dev/null
    # From 1 on.
    calls=('')
    mapfile -t -O 1 calls <calls
    call=
    [ "$1" = 0 ] || call=${calls[$1]:-}
    asked="hours ${command[0]}, scene $scene${disk_full:+ on a disk that is $disk_full full}${call:+, $2 at call $1, $call}"
    tries=$((tries + 1))
    [ -n "$call" ]
}
again() {
    asked="$1, then hours ${command[*]}"
    status=0
    LD_PRELOAD=$folder/kill_at.so "$hours" "${command[@]}" >out 2>err || status=$?
}
done_and_shown() {
    [ "$status" = 0 ] && [ ! -s err ] && cmp -s out "$sheet" || fail "$asked: exit status $status; it told: $(shown)"
}

# How it stands: the tally and the old one are none, fresh, old, new, or wrong. The zone is as it should be, or there is none.
unset sums seen
declare -A sums seen
for tally in fresh old new; do
    sums[$(md5sum <"$tally")]=$tally
done
sums[$(md5sum <old.zone)]=zone
how_it_stands() {
    local sum name
    local -A is=([tally]=none [tally.old]=none [tally.zone]=none)
    for name in tally tally.old tally.zone; do
        [ ! -e "run/$name" ] || is[$name]=wrong
    done
    while read -r sum name; do
        is[${name#run/}]=${sums[$sum  -]:-wrong}
    done < <(md5sum run/tally run/tally.old run/tally.zone 2>/dev/null)
    found="${is[tally]} ${is[tally.old]}"
    zone=${is[tally.zone]}
}
# As before, between or after, and no tally without its zone.
is_whole() {
    how_it_stands
    [ "$found" = "$before" ] || [ "$found" = "$between" ] || [ "$found" = "$after" ] || fail "$asked: it should stand as $before, $between or $after, and stands as $found"
    [ "$zone" = zone ] || { [ "$zone" = none ] && [ "$found" = 'none none' ]; } || fail "$asked: its zone is $zone"
}
is_done() {
    how_it_stands
    [ "$found" = "$after" ] && [ "$zone" = zone ] || fail "$asked: it should stand as $after, and stands as $found, its zone as $zone"
}

# Nothing but the tally and the files beside it that are to stay.
nothing_left() {
    local name
    for name in run/* run/.[!.]*; do
        case $name in
        run/tally | run/tally.zone | run/tally.old | 'run/*' | 'run/.[!.]*') ;;
        *) return 1 ;;
        esac
    done
}
nothing_is_left() {
    nothing_left || fail "$asked: it left $(ls -AR run)"
}

# The same command again makes it good, or is refused where the killed one was done: nothing counts twice. Then nothing is left of the killed one.
goes_on() {
    local first=$asked
    if [ "$scene" = new ] && [ ! -e run/tally ] && [ -e run/tally.zone ]; then
        # It can't be told from a tally that was lost. The zone is removed, as it says.
        again "$first"
        told 1 <<<'! hours: run/tally: a tally of this name was lost: run/tally.zone stands there without it; put it back from a copy, or remove run/tally.zone to begin anew'
        nothing_is_left
        rm run/tally.zone
    fi
    again "$first"
    if [ "$found" = "$after" ]; then
        [ "$status" = 1 ] && [ ! -s out ] || fail "$asked: exit status 1 was expected, and $status came: $(shown)"
        case $scene in
        new) grep -q 'there is a file of this name already; nothing is begun$' err ;;
        undo) grep -q 'nothing to undo: there is no run/tally.old$' err ;;
        *) grep -q 'wrong lines*; nothing is booked$' err ;;
        esac || fail "$asked: it said: $(cat err)"
    else
        done_and_shown
    fi
    is_done
    nothing_is_left
}

killed_at_each_call() { # before or after the call, and the fewest calls that are expected
    local n
    for ((n = 1; ; n++)); do
        run_with "$n" "killed-$1" || break
        [ "$status" = 137 ] || fail "$asked: it was not killed: exit status $status"
        is_whole
        goes_on
    done
    [ "$n" -gt "$2" ] || fail "$asked: only $((n - 1)) calls on files are seen"
}

# ---- calls that fail
# What the calls before the n-th one have done.
looks_back() { # n: sets in_place, lock_held, breaking (the one that was left), and whether the call is on the folder, or reads the list of those that were begun
    local i took=0 turns=1
    [ "$scene" != broken ] || turns=2
    in_place=no lock_held=no breaking=no on_folder=no on_list=no
    for ((i = 1; i < $1; i++)); do
        case ${calls[i]} in
        'rename run/tally.lock-'*' run/tally.lock') took=$((took + 1)) ;;
        'rename '*' run/tally') in_place=yes ;;
        esac
    done
    if [ "$took" = "$turns" ]; then
        lock_held=yes
    elif [ "$took" -gt 0 ]; then
        breaking=yes
    fi
    if [ "$call" = 'open run/' ] || { [ "$call" = fsync ] && [ "${calls[$1 - 1]}" = 'open run/' ]; }; then
        on_folder=yes
    fi
    for ((i = $1; i > 0; i--)); do
        case ${calls[i]} in
        'open run/tally.begun') on_list=yes ;;
        read | close) continue ;;
        esac
        break
    done
}
# Calls that may fail unheard, where all else went well: whether it is a link, what the holder's file tells, reading on where a file ends, closing a file, which was flushed before, and what breaks a lock, which is seen when it is tried again.
may_fail() {
    [ "$breaking" = no ] || return 0
    case $call in
    'statx '* | 'readlink '* | 'open /'* | read | close) return 0 ;;
    *) return 1 ;;
    esac
}
# Which exit status a failed call may lead to.
is_answered() { # n
    if [ "$call" = 'write output' ]; then
        [ "$status" = 4 ]
    elif [ "$in_place" = yes ]; then
        if [ "$on_folder" = yes ]; then [ "$status" = 5 ]; else [ "$status" = 0 ]; fi
    else
        case $status in
        0) may_fail ;;
        1) true ;;
        # The lock could not be judged.
        3) [ "$scene" = broken ] && [ "$lock_held" = no ] ;;
        *) false ;;
        esac
    fi
}
# What could not be taken away; the list of those that were begun, where it could not be read, or the lock was not taken yet; and a lock that could not be seen to be left over.
may_be_left() {
    local name
    case $call in
    unlink* | rmdir*) return 0 ;;
    esac
    for name in run/*; do
        case $name in
        run/tally | run/tally.zone | run/tally.old) ;;
        run/tally.begun) [ "$lock_held" = no ] || [ "$on_list" = yes ] ;;
        run/tally.lock) [ "$lock_held" = no ] && [ "$scene" = broken ] ;;
        *) false ;;
        esac || return 1
    done
}
failed_at_each_call() { # with which error, and the system's words
    local n
    for ((n = 1; ; n++)); do
        run_with "$n" "$1" || break
        looks_back "$n"
        is_answered "$n" || fail "$asked: exit status $status: $(shown)"
        is_whole
        case $status in
        0) done_and_shown ;;
        4) told 4 < <(printf '! %s\n' "hours: standard output: $2" "hours: run/tally: $done_word, but the sheet could not be shown: hours sheet shows it") ;;
        5) told 5 < <(cat "$sheet" && printf '! %s\n' "hours: run/: $2" "hours: run/tally: $done_word, but it may not survive a power cut") ;;
        *) [ -s err ] && [ ! -s out ] || fail "$asked: it told: $(shown)" ;;
        esac
        case $status in
        0 | 4 | 5) [ "$found" = "$after" ] ;;
        *) [ "$found" != "$after" ] ;;
        esac || fail "$asked: exit status $status, and it stands as $found"
        nothing_left || may_be_left || fail "$asked: it left $(ls -AR run)"
        # A zone is taken back where no tally follows.
        [ "$found" != 'none none' ] || [ "$zone" = none ] || [ "$call" = 'unlink run/tally.zone' ] || fail "$asked: it left the zone without a tally"
        seen[$status]=$((${seen[$status]:-0} + 1))
        goes_on
    done
}

# Not every file system flushes a folder when asked: EINVAL is passed by.
folder_not_flushed() {
    local n count=0 all
    run_with 0 nothing || true
    all=("${calls[@]}")
    for ((n = 1; n < ${#all[@]}; n++)); do
        [ "${all[n]}" = fsync ] && [ "${all[n - 1]}" = 'open run/' ] || continue
        run_with "$n" EINVAL
        done_and_shown
        is_done
        nothing_is_left
        count=$((count + 1))
    done
    [ "$count" -ge 1 ] || fail "scene $scene: the folder is never flushed"
}

# Fewer bytes moved than were asked for are no fault.
short_at_each_call() {
    local n all
    run_with 0 nothing || true
    all=("${calls[@]}")
    for ((n = 1; n < ${#all[@]}; n++)); do
        [[ ${all[n]} = read || ${all[n]} = write* ]] || continue
        run_with "$n" short
        done_and_shown
        is_done
        nothing_is_left
    done
}

# ---- the calls in their order
# The tally is read once its lock is held. Each file is written beside the old one and flushed, takes its name, and then the folder is flushed. The tally is looked at again before it is replaced, and the lock is given back before the sheet is shown.
read_whole() {
    printf '%s\n' "open $1" read read read close
}
written() {
    printf '%s\n' "open $1" write fsync close
}
takes_name() { # from, to
    printf '%s\n' "rename $1 $2" 'open run/' fsync close
}
# The list is made, or there is one, and then a line is added to it.
put_on_list() {
    printf '%s\n' 'open run/tally.begun' close
    written run/tally.begun
}
put_on_list_too() {
    echo 'open run/tally.begun'
    written run/tally.begun
}
lock_made_ready() {
    read_whole /proc/sys/kernel/random/boot_id
    echo 'readlink /proc/self/ns/pid'
    read_whole /proc/sys/kernel/hostname
    read_whole /etc/machine-id
    read_whole /proc/self/cmdline
    put_on_list
    printf '%s\n' 'mkdir run/tally.lock-TOKEN' 'open run/tally.lock-TOKEN/TOKEN' fsync close
    written run/tally.lock-TOKEN/holder
}
lock_broken() {
    echo 'rename run/tally.lock-TOKEN run/tally.lock'
    read_whole run/tally.lock/holder
    # Its process is gone, and /proc would show it.
    printf '%s\n' "statx /proc/$dead" 'readlink /proc/self'
    printf '%s\n' 'open /proc/self/status' close 'open /proc/self/mountinfo' close
    put_on_list_too
    printf '%s\n' 'unlink run/tally.lock/DEAD' 'unlink run/tally.lock/holder'
}
# What a process left whose lock was broken, and the list.
swept() {
    read_whole run/tally.begun
    if [ "$scene" = broken ]; then
        printf '%s\n' 'unlink run/tally.swept-DEAD/DEAD' 'unlink run/tally.swept-DEAD/holder' 'rmdir run/tally.swept-DEAD'
        printf '%s\n' 'rename run/tally.lock-DEAD run/tally.swept-DEAD' 'unlink run/tally.new-DEAD' 'unlink run/tally.old-DEAD'
    fi
    echo 'unlink run/tally.begun'
}
lock_given_back() {
    printf '%s\n' 'unlink run/tally.lock/TOKEN' 'unlink run/tally.lock/holder' 'rmdir run/tally.lock'
}
calls_of_new() {
    printf '%s\n' 'open run/tally' 'open run/tally.zone' 'open run/tally.zone-registry' 'open run/tally.zone-remote-desktop' 'open run/tally.zone-definition' 'open run/tally.old'
    written run/tally.new-TOKEN
    takes_name run/tally.new-TOKEN run/tally.zone
    written run/tally.new-TOKEN
    takes_name run/tally.new-TOKEN run/tally
}
calls_of_booking() {
    read_whole run/tally
    read_whole run/tally.zone
    printf '%s\n' 'open second.log' read read close
    written run/tally.new-TOKEN
    read_whole run/tally
    written run/tally.old-TOKEN
    takes_name run/tally.old-TOKEN run/tally.old
    takes_name run/tally.new-TOKEN run/tally
}
calls_of_undo() {
    read_whole run/tally.old
    read_whole run/tally
    takes_name run/tally.old run/tally
}
in_order() {
    {
        # Whether it is a link, and whether it may be written to, where it is there.
        printf '%s\n' 'statx run/tally' 'statx run/tally'
        [ "$scene" = new ] || printf '%s\n' 'open run/tally' close
        echo getentropy
        lock_made_ready
        [ "$scene" != broken ] || lock_broken
        echo 'rename run/tally.lock-TOKEN run/tally.lock'
        case $scene in
        new) calls_of_new ;;
        undo) calls_of_undo ;;
        *) calls_of_booking ;;
        esac
        swept
        lock_given_back
        [ "$scene" = new ] || echo 'write output'
    } >expected
    run_with 0 nothing || true
    done_and_shown
    sed "s/$dead_token/DEAD/g; s/[0-9a-f]\{16\}/TOKEN/g" calls | sed -n '/^statx run.tally$/,$p' | sed '/^open .proc.self.\(status\|mountinfo\)$/,/^close$/{/^read$/d}' >made
    diff expected made >differences || fail "$asked: the calls from the tally on, expected (<) and made (>): $(cat differences)"
}

for scene in new later broken undo; do
    set_words
    disk_full=
    in_order
    # Before a call is after the one before it, so one scene will do.
    [ "$scene" != later ] || killed_at_each_call before 40
    killed_at_each_call after 40
    failed_at_each_call EIO 'Input/output error'
    failed_at_each_call ENOSPC 'No space left on device'
    folder_not_flushed
    short_at_each_call

    # On a full disk the tally stays, and what was begun is taken away, wherever it is killed. It may be full from the start, or once the lock is taken; until then the list of those that were begun may be left. To put the old one back nothing is written once the lock is taken.
    for disk_full in always later; do
        case $scene-$disk_full in
        broken-* | undo-later) continue ;;
        esac
        run_with 0 nothing || true
        [ "$status" = 1 ] || fail "$asked: exit status 1 was expected, and $status came: $(shown)"
        grep -q ': No space left on device$' err || fail "$asked: it said: $(cat err)"
        [ "$disk_full" = later ] || rm -f run/tally.begun
        nothing_is_left
        is_whole
        [ "$found" = "$before" ] || fail "$asked: it stands as $found"
        [ "$scene" != new ] || is_missing run/tally.zone
        killed_at_each_call after 5
    done
done
# Both numbers, by the folder's open and fsync in four scenes, and by the output in three.
[ "${seen[5]:-0}" = 16 ] || fail "a folder that could not be flushed was told ${seen[5]:-0} times, not 16"
[ "${seen[4]:-0}" = 6 ] || fail "a sheet that could not be shown was told ${seen[4]:-0} times, not 6"

echo "killed or failed at each call: $tries times"
