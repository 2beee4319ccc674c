# Runs across the places where one read ends and the next one begins, by a file and by a pipe. The tally has to be the one of the same runs in logs that are read at once.

# An hour each, every two hours, as TIME numbers: 38 bytes a line.
awk 'BEGIN { for (i = 0; i < 3600; i++) printf "%.0f0000000 %.0f0000000\n", 13300000000 + i * 7200, 13300003600 + i * 7200 }' >runs.log
[ "$(stat -c %s runs.log)" = $((3600 * 38)) ] || fail "borders: a line has another length than 38"
split -l 600 runs.log part.
begin parts
for part_log in part.*; do
    [ "$(stat -c %s "$part_log")" -lt 65536 ] || fail "borders: a part is not read at once"
    ask book berlin.hex parts "$part_log"
    [ "$status" = 0 ] || fail "$asked: exit status $status: $(shown)"
done
cp out sheet
begin fresh
[ "$(grep -c '^total *3600:00$' sheet)" = 1 ] || fail "$asked: 3,600 hours were expected: $(cat sheet)"

# A log gives the tally and the sheet of its parts. Each one is booked on a tally of its own.
begin_one() {
    rm -f one.old
    cp fresh one
    cp fresh.zone one.zone
}
same_as_parts() { # log, or - with the log on standard input
    begin_one
    ask book berlin.hex one "$@"
    told 0 <sheet
    holds one parts
}
# 65,536 and 131,072 bytes end at each of the 38 places of a line, with a last line end and without one.
for ((i = 0; i < 38; i++)); do
    { printf '#%*s\n' "$i" '' && cat runs.log; } >border.log
    same_as_parts border.log
    head -c -1 border.log >open.log
    same_as_parts open.log
done
# In pieces of one size, as the pipe hands them on, and of sizes in turn.
in_pieces() { # sizes
    local size
    for size; do
        dd bs="$size" count=1 status=none
    done
    cat
}
for size in 1 7 37 38 39 999 4095 4097 65535 65536 65537 99991 131071 131072 200000; do
    same_as_parts - < <(dd if=runs.log bs="$size" status=none)
done
for sizes in '65535 1 65537' '65537 65535' '1 65536 1 65536' '3 5 7 11 13 65497' '65521 31 65521' '37 65536 38 1 2 3'; do
    same_as_parts - < <(in_pieces $sizes <runs.log)
done
# Each read brings no more than so many bytes, whatever is there.
for most in 1 3 37 38 39 1001 4093 32767 32768 65521 65535; do
    begin_one
    asked="hours book, in reads of $most bytes"
    status=0
    READ_MOST=$most LD_PRELOAD=$folder/kill_at.so "$hours" book berlin.hex one runs.log >out 2>err || status=$?
    told 0 <sheet
    holds one parts
done

# The longest line, and one byte more, at the end of the log too.
long() { printf '#' && zeros $(($1 - 1)) | tr '\0' '-'; }
for size in 65535 65536; do
    { long "$size" && printf '\n' && cat runs.log; } >first.log
    { cat runs.log && long "$size"; } >last.log
    { head -n 1800 runs.log && long "$size" && printf '\n' && tail -n +1801 runs.log; } >middle.log
    line=1
    for log in first last middle; do
        case $log in
        first) line=1 ;;
        last) line=3601 ;;
        middle) line=1801 ;;
        esac
        case $size in
        65535)
            same_as_parts "$log.log"
            same_as_parts - <"$log.log"
            ;;
        65536)
            begin_one
            ask book berlin.hex one "$log.log"
            told 1 <<TOLD
! hours: $log.log: line $line: too long for a line
! hours: $log.log: 1 wrong line; nothing is booked
TOLD
            holds one fresh
            is_missing one.old
            ;;
        esac
    done
done

# Wrong lines across both borders are named by their numbers, and nothing is booked.
awk '(NR == 1725 || NR == 3450) { sub(/1/, "x") } { print }' runs.log >wrong.log
for border in 65536 131072; do
    [ "$(head -c $((border + 38)) wrong.log | tail -c 76 | grep -c x)" = 1 ] || fail "borders: no wrong line at $border"
done
begin_one
for log in wrong.log -; do
    ask book berlin.hex one "$log" <wrong.log
    told 1 <<TOLD
! hours: $log: line 1725: not a time, as 2023-03-26T00:00:00Z or a TIME number
! hours: $log: line 3450: not a time, as 2023-03-26T00:00:00Z or a TIME number
! hours: $log: 2 wrong lines; nothing is booked
TOLD
    holds one fresh
    is_missing one.old
done
nothing_new one

echo "borders: runs across the ends of what is read, by a file, by a pipe in pieces, and in short reads"
