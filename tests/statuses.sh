#!/bin/sh
# Runs the program into each exit status of docs/FORMATS.md, and compares status, standard output and the told line.
# A program may be given: statuses.sh [PROGRAM]
# Last line: statuses: N passed, M failed
set -u
unset CDPATH
here=$(cd -- "$(dirname -- "$0")" && pwd)
top=$(dirname -- "$here")
room=$(mktemp -d) || exit 1
trap 'rm -rf "$room"' EXIT
passed=0
failed=0

# check NAME WANTED GOT
check() {
    if [ "$2" = "$3" ]; then
        passed=$((passed + 1))
    else
        failed=$((failed + 1))
        printf 'statuses: %s: wanted "%s", got "%s"\n' "$1" "$2" "$3"
    fi
}

# The program that is given, as `rt ci` leaves it, or the one that the script `monitor` builds.
program=${1:-}
case $program in
/* | '') ;;
*) program=$PWD/$program ;;
esac
if ! [ -x "$program" ]; then
    "$top/monitor" >/dev/null 2>"$room/told"
    [ "$?" = 1 ] || {
        cat "$room/told"
        echo "statuses: the program wasn't built"
        exit 1
    }
    program=$top/crates/monitor_main/out/monitor_main
fi

# status NAME WANTED LINE WORDS..: that status, nothing is printed, and this line is told
status() {
    name=$1
    wanted=$2
    line=$3
    shift 3
    printed=$("$program" "$@" 2>"$room/told")
    check "$name" "$wanted::$line" "$?:$printed:$(cat "$room/told")"
}

cd "$room" || exit 1
sound=$top/examples/standard.sgrc
head -c 32 "$sound" >head
cp "$sound" ./sound
table='samples 9 used 9 missing 0 refused 0
rainflow
9.0 0.5
8.0 1.0
6.0 0.5
4.0 1.5
3.0 0.5'
check 'a sound recording' "0:$table" "$("$program" table sound >printed; echo "$?:$(cat printed)")"
check 'a head alone' '0:samples 0 used 0 missing 0 refused 0
rainflow' "$("$program" table head >printed; echo "$?:$(cat printed)")"

usage='usage: monitor table FILE | init | count [--workers N] | report | audit | demo [--seed N] [--samples N] [--workers N] | repeat | column FILE NAME ID PERIOD | sheet | window START FROM TO | compact | watch [--workers N]'
status 'no words' 1 "$usage"
status 'no such command' 1 "$usage" count-all sound
status 'no file' 1 "$usage" table
status 'a word too many' 1 "$usage" table sound sound
status 'a dash' 1 "$usage" table -t
status 'an empty word' 1 "$usage" ''
status 'a word that is no text' 1 "$usage" table "$(printf '\377')"
day=2024-01-01T00:00:00Z
status 'a window without words' 1 "$usage" window
status 'a window without its end' 1 "$usage" window $day $day
status 'a word too many for a window' 1 "$usage" window $day $day $day $day
status 'a window that ends before it begins' 1 "$usage" window $day $day 2023-12-31T23:59:59.999999999Z
status 'a window that ends before it begins, by offsets' 1 "$usage" window $day $day 2024-01-01T00:59:59+01:00
for word in '' noon 12 2024-01-01 2024-01-01T00:00:00 2024-02-30T00:00:00Z 2024-01-01T24:00:00Z 2024-01-01T00:00:00.Z "$day " \
    9999-12-30T22:00:01Z 2024-01-01T00:00:00+26:00 1704067200; do
    status "the start '$word'" 1 "$usage" window "$word" $day $day
    status "the beginning '$word'" 1 "$usage" window $day "$word" $day
    status "the end '$word'" 1 "$usage" window $day $day "$word"
done
status 'a year before 0 that looks like an option' 1 "$usage" window -000001-01-01T00:00:00Z $day $day
status 'an instant that is too early' 1 "$usage" window -- -009999-01-02T01:59:58.999999999Z $day $day
status 'a word behind compact' 1 "$usage" compact monitor.store
status 'a word behind watch' 1 "$usage" watch sound
status 'too many workers for watch' 1 "$usage" watch --workers 9

: >empty
status 'an empty file' 4 'recording empty: short' table empty
head -c 31 "$sound" >short
status 'a short head' 4 'recording short: short' table short
{ printf 'sGRC' && tail -c +5 "$sound"; } >magic
status 'another format' 4 'recording magic: no SGRC' table magic
{ head -c 4 "$sound" && printf '\002' && tail -c +6 "$sound"; } >version
status 'another version' 4 'recording version: version 2' table version
{ head -c 5 "$sound" && printf '\001' && tail -c +7 "$sound"; } >reserved
status 'a reserved byte' 4 'recording reserved: not zero' table reserved
cp short 'a
b'
status 'a name of two lines' 4 'recording a?b: short' table 'a
b'

for bytes in 1 2 3; do
    { cat "$sound" && head -c "$bytes" /dev/zero; } >torn
    status "$bytes bytes behind the last sample" 5 "recording torn: ends in $bytes odd bytes" table torn
done

none='No such file or directory'
status 'a missing file' 6 "monitor: missing: $none
read fault" table missing
status 'a missing file of two lines' 6 "monitor: a?c: $none
read fault" table 'a
c'
mkdir folder
status 'a folder' 6 'monitor: folder: Is a directory
read fault' table folder

# bytes FILE: its bytes
bytes() {
    od -An -v -tx1 "$1" | tr -d ' \n'
}

# A store.
store() {
    bytes monitor.store
}
config='[grid]
classes = 16
width = 2
low = -8000
reference = 8
[count]
block = 4
workers = 2
[[gauge]]
name = "G1"
file = "g1.sgrc"
num = 1000'
status 'no configuration' 6 "monitor: monitor.toml: $none
read fault" init
: >monitor.toml
status 'an empty configuration' 2 'config: missing grid' init
echo '[grid' >monitor.toml
status 'no TOML' 2 'config: not TOML' init
printf '%s\nden = 0\n' "$config" >monitor.toml
status 'a value outside its limits' 2 'config: out of range gauge 0 den' init
echo "$config" >monitor.toml
status 'no recording' 6 "monitor: g1.sgrc: $none
read fault" init
cp magic g1.sgrc
status 'another recording' 4 'recording G1: no SGRC' init
cp sound g1.sgrc
status 'a word behind init' 1 "$usage" init x
check 'nothing was made' no "$([ -e monitor.store ] && echo yes || echo no)"
status 'no store' 3 'store: not a store' report
status 'no store to watch' 3 'store: not a store' watch
status 'no store that repeats' 3 'store: not a store' repeat
status 'no store for a window' 3 'store: not a store' window $day $day $day
status 'no store to copy' 3 'store: not a store' compact
mkdir monitor.store
for word in init count watch report; do
    status "a folder for a store to $word" 8 'monitor: monitor.store: Is a directory
station fault' "$word"
done
status 'a folder for a store to window' 8 'monitor: monitor.store: Is a directory
station fault' window $day $day $day
status 'a folder for a store to compact' 8 'monitor: monitor.store: Is a directory
station fault' compact
rmdir monitor.store
status 'a new store' 0 'init 1' init
new=015347535402000100100002ffffffffffffe0c00008$(printf '11%.0s' 1 2 3 4 5 6 7 8 9 10 11 12 13 14 15 16)00002710
new=${new}00000000000003e800000001000000000000000000
check 'its bytes' "$new" "$(store)"
status 'a store that is there' 3 'store: not empty, 63 bytes' init
check 'its bytes, as they were' "$new" "$(store)"
report='gauge G1
samples 0 used 0 missing 0 refused 0
rainflow
matrix
crossings
peaks
valleys
ranges'
check 'a report of nothing held' "0:$report" "$("$program" report >printed; echo "$?:$(cat printed)")"
check 'nothing held repeats' '0:repeat G1' "$("$program" repeat >printed; echo "$?:$(cat printed)")"
check 'a window of nothing held' "0:window G1 0 0
$report" "$("$program" window $day $day $day >printed; echo "$?:$(cat printed)")"

# Copies.
check 'a copy of nothing held' "0:$new" "$("$program" compact >copied; echo "$?:$(bytes copied)")"
{ head -c 5 monitor.store && printf '\001' && tail -c +7 monitor.store; } >first
cp monitor.store second
cp first monitor.store
check 'a copy of a store of version 1' "0:$new" "$("$program" compact >copied; echo "$?:$(bytes copied)")"
check 'that store, as it was' "$(bytes first)" "$(store)"
cp second monitor.store
# The standard's example, as a load within the classes.
{
    head -c 32 "$sound"
    printf '\376\377\377\377\001\000\000\000\375\377\377\377\005\000\000\000\377\377\377\377'
    printf '\003\000\000\000\374\377\377\377\004\000\000\000\376\377\377\377'
} >example
# (its first four samples are a body, and the others another)
head -c 48 example >g1.sgrc
"$program" count >/dev/null 2>told
check 'a part of the example is held' '0:held G1 4' "$?:$(cat told)"
cp example g1.sgrc
cp monitor.store four
"$program" count >counted 2>told
check 'the example is held' '0:held G1 9' "$?:$(cat told)"

# A watcher may have seen the four samples of before, and sees all nine.
cp monitor.store nine
cp four monitor.store
"$program" watch --workers 2 >printed 2>told
got=$?:$(cat told)
case $got in
"0:held G1 9
seen G1 9" | "0:held G1 9
seen G1 4
seen G1 9") got=seen ;;
esac
check 'the example is watched' seen "$got"
check 'its report' "$(cat counted)" "$(cat printed)"
check 'its store' "$(bytes nine)" "$(store)"
"$program" watch >printed 2>told
check 'a watch of nothing new' "0:seen G1 9:$(cat counted)" "$?:$(cat told):$(cat printed)"
for odd in 1 2 3; do
    { cat example && head -c "$odd" /dev/zero; } >g1.sgrc
    cp four monitor.store
    "$program" watch >printed 2>told
    check "a watch of $odd odd bytes" "5:held G1 9
recording G1: ends in $odd odd bytes:" "$?:$(cat told):$(cat printed)"
    check 'what it holds' "$(bytes nine)" "$(store)"
done
cp example g1.sgrc
if [ -c /dev/full ]; then
    "$program" watch >/dev/full 2>told
    check 'a full output of watch' '7:seen G1 9
monitor: standard output: No space left on device
write fault' "$?:$(cat told)"
    "$program" watch >printed 2>/dev/full
    check 'a watch that cannot tell' '8:' "$?:$(cat printed)"
fi
repeated='repeat G1
9.0 1.0
7.0 1.0
4.0 1.0
3.0 1.0'
check 'the example repeats' "0:$repeated" "$("$program" repeat >printed; echo "$?:$(cat printed)")"
status 'a word behind repeat' 1 "$usage" repeat x

# Windows: a sample each 10 ms. window WORDS..: the status, and the lines up to the matrix
window() {
    "$program" window "$@" >printed 2>told
    echo "$?:$(sed '/^matrix$/,$d' printed)$(cat told)"
}
nine="0:window G1 0 9
$(sed '/^matrix$/,$d' counted)"
four='0:window G1 0 4
gauge G1
samples 4 used 4 missing 0 refused 0
rainflow
8.0 0.5
4.0 0.5
3.0 0.5'
five='0:window G1 4 9
gauge G1
samples 5 used 5 missing 0 refused 0
rainflow
8.0 0.5
7.0 0.5
6.0 0.5
4.0 0.5'
none='0:window G1 0 0
gauge G1
samples 0 used 0 missing 0 refused 0
rainflow'
check 'a window to the last end' "$nine" "$(window $day $day 2024-01-01T00:00:00.09Z)"
check 'it is the report' "$(cat counted)" "$(tail -n +2 printed)"
check 'a window a nanosecond shorter' "$four" "$(window $day $day 2024-01-01T00:00:00.089999999Z)"
check 'a window a millisecond shorter' "$four" "$(window $day $day 2024-01-01T00:00:00.089Z)"
check 'a window to the first end' "$four" "$(window $day $day 2024-01-01T00:00:00.04Z)"
check 'a window a nanosecond before the first end' "$none" "$(window $day $day 2024-01-01T00:00:00.039999999Z)"
check 'a window from the first end' "$five" "$(window $day 2024-01-01T00:00:00.04Z 2024-01-01T00:00:01Z)"
check 'a window from a nanosecond behind it' "$none" "$(window $day 2024-01-01T00:00:00.040000001Z 2024-01-01T00:00:01Z)"
check 'a window of another day' "$none" "$(window $day 2024-01-02T00:00:00Z 2024-01-02T00:00:00Z)"
check 'a window by other offsets' "$five" "$(window 2024-01-01T01:00:00+01:00 2023-12-31T19:00:00.04-05:00 2024-01-01T00:00:01Z)"
check 'a window from before 1970' "$five" "$(window 1969-12-31T23:59:59.999Z 1970-01-01T00:00:00.039Z 1970-01-01T00:00:00.089Z)"
check 'the same, a nanosecond shorter' "$none" "$(window 1969-12-31T23:59:59.999Z 1970-01-01T00:00:00.039Z 1970-01-01T00:00:00.088999999Z)"
check 'a window of all time' "$nine" "$(window -- $day -009999-01-02T01:59:59Z 9999-12-30T22:00:00.999999999Z)"
check 'a window from the first instant' "$nine" "$(window -- -009999-01-02T01:59:59Z -009999-01-02T01:59:59Z $day)"
check 'a window from the last instant' "$none" "$(window 9999-12-30T22:00:00.999999999Z $day 9999-12-30T22:00:00.999999999Z)"

# A copy: one body of the same samples.
"$program" compact >copied 2>told
check 'a copy' '0::408' "$?:$(cat told):$(($(wc -c <copied)))"
mkdir copy
cp monitor.toml g1.sgrc copy
cp copied copy/monitor.store
cd copy || exit 1
check 'its report' "0:$(cat ../counted)" "$("$program" report >printed; echo "$?:$(cat printed)")"
check 'its copy' "0:$(bytes ../copied)" "$("$program" compact >copied; echo "$?:$(bytes copied)")"
check 'a window of it' "$nine" "$(window $day $day 2024-01-01T00:00:00.09Z)"
check 'a window that it lies across' "$none" "$(window $day $day 2024-01-01T00:00:00.089Z)"
check 'a further count' "0:$(cat ../counted)" "$("$program" count >printed 2>told; echo "$?:$(cat printed told)")"
wrong=
for length in $(seq 0 407); do
    head -c "$length" ../copied >monitor.store
    due='store: not a store'
    [ "$length" -lt 63 ] || due='store: damaged at 0'
    got=$("$program" report 2>&1)
    [ "$?:$got" = "3:$due" ] || wrong="$wrong $length:$got"
done
check 'fronts of a copy' '' "$wrong"
cp ../copied monitor.store
"$program" compact 2>told >monitor.store
check 'a copy into the store itself' '3:store: not a store:0' "$?:$(cat told):$(($(wc -c <monitor.store)))"
if [ -c /dev/full ]; then
    cp ../copied monitor.store
    for words in compact "window $day $day $day"; do
        # (the words are parted at their blanks)
        # shellcheck disable=SC2086
        "$program" $words >/dev/full 2>told
        check "a full output of $words" '7:monitor: standard output: No space left on device
write fault' "$?:$(cat told)"
    done
fi
cd .. || exit 1
# Its second sample is 2 now and not 1, so the half cycle between that and -3 isn't found again.
{ head -c 36 g1.sgrc && printf '\002' && tail -c +38 g1.sgrc; } >changed
mv changed g1.sgrc
status 'a recording that has changed' 11 'audit G1: cell 5 9 held 1, recount 0' audit
head -c 268435457 /dev/zero >long.csv
status 'a text of over 256 MiB' 10 'recording long.csv: too long' column long.csv strain 00112233445566778899aabbccddeeff 1000
rm long.csv
printf '%s\n' "$config" | sed 's/classes = 16/classes = 17/' >monitor.toml
status 'another configuration' 3 'store: classes was 16, is 17' report
status 'a window by another configuration' 3 'store: classes was 16, is 17' window $day $day $day
status 'a copy by another configuration' 3 'store: classes was 16, is 17' compact
status 'too many workers' 1 "$usage" demo --workers 9
made=$("$program" demo --samples 3000 --workers 1; echo "$?")
check 'a demonstration' 'demo seed 0 samples 3000' "$(echo "$made" | head -n 1)"
check 'the same with three workers' "$made" "$("$program" demo --samples 3000 --workers 3; echo "$?")"

if [ -c /dev/full ]; then
    "$program" table sound >/dev/full 2>told
    check 'a full output' '7:monitor: standard output: No space left on device
write fault' "$?:$(cat told)"
else
    echo 'statuses: skipped: there is no /dev/full'
fi
"$program" table sound >&- 2>told
check 'a closed output' '7:monitor: standard output: Bad file descriptor
write fault' "$?:$(cat told)"
"$program" table missing 2>&-
check 'a closed standard error' 6 "$?"

# Want of memory, wherever it comes: whatever the limit, the answer is 0 with the table, or 9 with nothing. Below some limit the
# program isn't loaded at all, and the system answers in its place, by 126 and more.
{ cat head && head -c 4000000 /dev/zero; } >long
all='samples 1000000 used 1000000 missing 0 refused 0
rainflow'
wanting=0
wrong=
for limit in $(seq 1000 20 4000; seq 4000 500 24000); do
    printed=$( (ulimit -v "$limit" && exec "$program" table long) 2>told)
    got=$?
    case $got:$printed:$(cat told) in
    "0:$all:") ;;
    '9::out of memory') wanting=$((wanting + 1)) ;;
    12[6-9]::* | 1[3-9][0-9]::*) ;;
    *) wrong="$wrong $limit:$got" ;;
    esac
done
check 'under a limit of memory' '' "$wrong"
check 'want of memory was met' yes "$([ "$wanting" -gt 0 ] && echo yes)"

echo "statuses: $passed passed, $failed failed"
[ "$failed" = 0 ]
