# Zone files that hold no zone. Each command that takes one says the same.

refused_by_all() { # file, refusal numbers of the three readers with their words
    for command in "zone $1" "local $1 0" "utc $1 0" "new $1 tally" "book $1 tally week.log"; do
        ask $command
        told 1 <<TOLD
! hours: $1: no reader of zone records accepts it
!   as registry: $2
!   as remote-desktop: $3
!   as definition: $4
TOLD
    done
    is_missing tally
    is_missing tally.zone
}
wrong_file() { # file, what is said of it
    for command in "zone $1" "local $1 0" "utc $1 0" "new $1 tally" "book $1 tally week.log"; do
        ask $command
        told 1 <<TOLD
! hours: $1: $2
TOLD
    done
    is_missing tally
    is_missing tally.zone
}

size='refused 2: a size is wrong, a fixed record has another length, bytes follow, or a name to be written is an odd number of bytes'
past='refused 1: a field, the header'\''s stated size or a rule'\''s stated size runs past the bytes'
major='refused 3: header major is not 2'

: >empty
refused_by_all empty "$size" "$size" "$past"
printf ' \r\n' >blank
refused_by_all blank "$size" "$size" "$major"
printf 'Europe/Berlin' >words
refused_by_all words "$size" "$size" "$major"
# Half a byte too few: not hex text, so it is taken as it is.
head -c -2 berlin.hex >half
refused_by_all half "$size" "$size" "$major"
# A record with a bias out of range, and the same for the other two readers.
sed 's/C4FFFFFF/00F0FFFF/' berlin.hex >bias
refused_by_all bias 'refused 9: a bias that counts is out of range' "$size" "$major"
bytes 'C4FFFFFF' >short
zeros 168 >>short
printf '\x0d' | dd of=short bs=1 seek=70 conv=notrunc status=none
refused_by_all short "$size" 'refused 10: a set date breaks its rule' "$major"
bytes '02 01 0600 0200 0000 0000' >no_rule
refused_by_all no_rule "$size" "$size" 'refused 6: rule count 0 or above 1,024'

# A definition with some bytes changed, by each refusal of its reader.
"$second" zone-records .
damaged() { # place, bytes, what is said
    cp definition damaged
    bytes "$2" | dd of=damaged bs=1 seek="$1" conv=notrunc status=none
    ask zone --as definition damaged
    told 1 <<TOLD
! hours: damaged: $3
TOLD
}
damaged 24 'FFFF' "$past"
damaged 2 '13' "$size"
damaged 0 '01' "$major"
damaged 4 '03' 'refused 4: header flags are not 0x0002'
damaged 6 '0501' 'refused 5: name above 260 units'
damaged 20 '0000' 'refused 6: rule count 0 or above 1,024'
damaged 30 '01' 'refused 7: X not zero'
damaged 28 'FFFF' 'refused 8: rule year above 30827, or not above that of the kept rule before'
damaged 44 'FFFFFF7F' 'refused 9: a bias that counts is out of range'
damaged 58 '0D' 'refused 10: a set date breaks its rule'
damaged 58 '00' 'refused 11: one date set; or of two set dates one with a year and one without, or two years'
damaged 26 '03' 'refused 12: not exactly one active rule, or the two bits differ'
damaged 8 '3CD8' 'refused 20: name with half a character: a high surrogate not directly followed by a low one, or a low one with no high one directly before it'

wrong_file missing 'there is no such file'
wrong_file no/such/folder 'there is no such file'
mkdir folder
wrong_file folder 'Is a directory'
wrong_file words/in_a_file 'Not a directory'
zeros 131073 >too_long
wrong_file too_long 'too long for a zone record'
zeros 262146 | tr '\0' 'A' >too_long
wrong_file too_long 'too long for a zone record'
zeros 600000 >too_long
wrong_file too_long 'too long for a zone record'
# The longest that is looked at.
zeros 131072 >long
refused_by_all long "$size" "$size" "$major"

cp berlin.hex closed
chmod 000 closed
ask_as_nobody zone closed
told 1 <<'TOLD'
! hours: closed: Permission denied
TOLD

echo "zone files: none, of another kind, too long or not to be read"
