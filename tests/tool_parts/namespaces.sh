# Bookings on one tally in two PID namespaces of one machine, whose process numbers say nothing to each other: nothing is lost. In the end the tally holds the runs of those that ended with 0, 4 or 5, and of no others.

head -n 4 week.log >first.log
tail -n +5 week.log >second.log
printf '2023-10-20T04:00:00Z 2023-10-20T12:00:00Z\n' >earlier.log
printf '2023-09-01T04:00:00Z 2023-09-01T12:00:00Z\n' >past.log
for logs in none first second both; do
    case $logs in
    none) names=(earlier.log) ;;
    first) names=(earlier.log first.log) ;;
    second) names=(earlier.log second.log) ;;
    both) names=(earlier.log first.log second.log) ;;
    esac
    "$hours" new berlin.hex "kept-$logs" >/dev/null 2>&1 || fail "hours new berlin.hex kept-$logs: exit status $?"
    for name in "${names[@]}"; do
        "$hours" book berlin.hex "kept-$logs" "$name" >/dev/null 2>&1 || fail "hours book berlin.hex kept-$logs $name: exit status $?"
    done
done

left_over="hours: run/tally.lock: left over from a booking, or held by one that can't be seen from here; remove this folder where none is at work; nothing is changed"

# A command in a PID namespace of its own, where it has a number from 2 on: the first process of a namespace can't be stopped from within. Its number out here goes to a file.
in_namespace() { # file, how many numbers to pass over, command
    unshare -pf bash -c '
        file=$1
        for ((i = 0; i < $2; i++)); do
            true &
            wait
        done
        shift 2
        (
            read -r outer _ </proc/self/stat
            echo "$outer" >"$file"
            exec "$@"
        )
        exit $?
    ' bash "$@"
}

set_scene() {
    rm -rf run number_a number_b made
    mkdir run
    cp kept-none run/tally
    cp kept-none.zone run/tally.zone
    cp kept-none.old run/tally.old
}

# Waits until a process in a namespace has stopped, or all of that namespace has ended.
until_stopped() { # file with its number, number of what was started here
    local state number
    until [ -s "$1" ]; do
        kill -0 "$2" 2>/dev/null || return 0
    done
    number=$(cat "$1")
    while read -r _ _ state _ 2>/dev/null <"/proc/$number/stat"; do
        case $state in
        T | Z) return 0 ;;
        esac
    done
}

is_whole() {
    [ "$(wc -c <run/tally)" = 68 ] || fail "$asked: the tally has $(wc -c <run/tally) bytes"
}

is_booked() { # status
    case $1 in
    0 | 4 | 5) return 0 ;;
    1 | 3) return 1 ;;
    *) fail "$asked: exit status $1: $(cat err_a err_b)" ;;
    esac
}

# What those left that were refused by a lock goes with the next booking, which is refused here by its run.
nothing_is_left() {
    [ "$(ls run | tr '\n' ' ')" != "tally tally.old tally.zone " ] || return 0
    "$hours" book berlin.hex run/tally past.log >out 2>err || true
    [ "$(ls run | tr '\n' ' ')" = "tally tally.old tally.zone " ] || fail "$asked: it left $(ls run): $(cat err)"
}

# Booking A stops behind its n-th call, booking B of an earlier run comes in another namespace, and A goes on. False where A has fewer calls.
stopped_at() { # n, how many numbers B passes over
    local a status_a=0 status_b=0 expected
    set_scene
    rm -f calls
    AT=$1 HOW=stopped-after CALL_LIST=calls in_namespace number_a 0 env LD_PRELOAD="$folder/kill_at.so" "$hours" book berlin.hex run/tally second.log >out_a 2>err_a &
    a=$!
    until_stopped number_a "$a"
    cp calls made
    asked="two namespaces, $2 numbers passed over, stopped behind call $1, $(tail -n 1 made)"
    is_whole
    in_namespace number_b "$2" "$hours" book berlin.hex run/tally first.log >out_b 2>err_b || status_b=$?
    is_whole
    kill -CONT "$(cat number_a)" 2>/dev/null || true
    wait "$a" || status_a=$?
    [ "$(wc -l <made)" = "$1" ] || return 1
    tries=$((tries + 1))
    expected=none
    ! is_booked "$status_b" || expected=first
    if is_booked "$status_a"; then
        [ "$expected" = first ] && expected=both || expected=second
    fi
    is_whole
    holds run/tally "kept-$expected"
    holds run/tally.old "kept-$expected.old"
    # The one that was stopped is done in any case; the other one before it, or not at all.
    [ "$status_a" = 0 ] || fail "$asked: the one that was stopped ended with $status_a: $(cat err_a)"
    case $status_b in
    3) [ "$(cat out_b err_b)" = "$left_over" ] || fail "$asked: the other one told: $(cat out_b err_b)" ;;
    1) grep -q ': refused 17: ' err_b || fail "$asked: the other one told: $(cat err_b)" ;;
    esac
    seen[$status_b]=$((${seen[$status_b]:-0} + 1))
    nothing_is_left
}

# Numbers are equal where B passes none over. With other numbers it goes the same way: some of the calls are enough.
both_namespaces() {
    local n
    declare -A seen
    tries=0
    set_scene
    rm -f calls
    CALL_LIST=calls LD_PRELOAD=$folder/kill_at.so "$hours" book berlin.hex run/tally second.log >out 2>err || fail "hours book, its calls listed: $(cat err)"
    # From where it begins to take the lock.
    for ((n = $(grep -n '^open /proc/sys/kernel/random/boot_id$' calls | head -n 1 | cut -d : -f 1); ; n++)); do
        stopped_at "$n" 0 || break
        [ $((n % 4)) != 0 ] || stopped_at "$n" 3
    done
    [ "${seen[0]:-0}" -gt 5 ] && [ "${seen[3]:-0}" -gt 20 ] && [ "${seen[1]:-0}" -gt 1 ] || fail "two namespaces: ${seen[0]:-0} done, ${seen[3]:-0} refused by the lock, ${seen[1]:-0} by the run"

    # A lock that is left in one namespace is left alone from another one, until the user takes it away.
    set_scene
    { AT=$(grep -n ' run/tally.lock$' calls | head -n 1 | cut -d : -f 1) HOW=killed-after in_namespace number_a 0 env LD_PRELOAD="$folder/kill_at.so" "$hours" book berlin.hex run/tally second.log >out 2>err || true; } 2>/dev/null
    [ -e run/tally.lock/holder ] || fail "a booking killed in a namespace left no lock"
    ask book berlin.hex run/tally first.log
    told 3 <<<"! $left_over"
    rm -r run/tally.lock
    ask book berlin.hex run/tally first.log
    [ "$status" = 0 ] || fail "$asked: exit status $status: $(cat err)"
    holds run/tally kept-first
    nothing_is_left

    # Two in one namespace, where /proc has the numbers of another one: the first holds the lock under a number that some other process has out there.
    set_scene
    status=0
    AT=$(grep -n ' run/tally.lock$' calls | head -n 1 | cut -d : -f 1) HOW=stopped-after kill_at=$folder/kill_at.so \
        in_namespace number_a 0 bash -c '
            LD_PRELOAD=$kill_at "$1" book berlin.hex run/tally second.log >out_a 2>err_a &
            until [ -e run/tally.lock/holder ]; do :; done
            "$1" book berlin.hex run/tally first.log >out 2>err
            status=$?
            kill -CONT $!
            wait $! || exit 99
            exit $status
        ' bash "$hours" || status=$?
    asked="two bookings in one namespace, under another one's /proc"
    [ "$status" = 3 ] || fail "$asked: exit status $status: $(cat err err_a)"
    grep -qx 'hours: run/tally: another booking is at work on it, process [0-9]*, which holds run/tally.lock; nothing is changed, try again' err || fail "$asked: it told: $(cat err)"
    holds run/tally kept-second
    nothing_is_left
    echo "two PID namespaces: $tries bookings stopped behind a call while another one came"
}

if unshare -pf true 2>/dev/null; then
    both_namespaces
else
    echo "two PID namespaces: not tried, since unshare makes none here"
fi
