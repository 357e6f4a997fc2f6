#!/bin/sh
# Tries the script `monitor` on a small checkout of its own, with a stand-in for the kit's command `rt`.
# Last line: script: N passed, M failed
set -u
unset CDPATH
here=$(cd -- "$(dirname -- "$0")" && pwd)
room=$(mktemp -d) || exit 1
trap 'rm -rf "$room"' EXIT
passed=0
failed=0

# check NAME WANTED GOT
check() {
    if [ "$2" = "$3" ]; then
        passed=$((passed + 1))
    else
        failed=$((failed + 1))
        printf 'script: %s: wanted "%s", got "%s"\n' "$1" "$2" "$3"
    fi
}

# The stand-in checks crates, and makes a program that prints its words and ends with status 3. It notes each build.
mkdir -p "$room/kit/bin" "$room/caller"
echo 'stand-in 1' >"$room/kit/KIT-ID"
cat >"$room/kit/bin/rt" <<'RT'
#!/bin/sh
if [ "$1" = all ]; then
    echo "$@" >>"$NOTES.checks"
    echo 'crate low: modules loaded=0 checked=1'
    echo 'crate monitor_main: modules loaded=0 checked=1'
    exit "${CHECKED:-0}"
fi
echo build >>"$NOTES"
eval "${DURING:-:}"
mkdir -p out
printf '#!/bin/sh\nprintf "%%s|" ran "$@"\nexit 3\n' >out/monitor_main
chmod +x out/monitor_main
RT
chmod +x "$room/kit/bin/rt"
NOTES=$room/notes
export NOTES
kit=$room/kit/bin:/usr/bin:/bin
bare=/usr/bin:/bin

# A fresh checkout at $top, with a blank in its path.
top="$room/check out"
fresh() {
    rm -rf "$top"
    mkdir -p "$top/crates/low/src" "$top/crates/low/specs" "$top/crates/monitor_main/src" "$top/crates/apart/src"
    cp "$here/../monitor" "$top/monitor"
    printf 'low:\napart: low\n# the program\nmonitor_main: low # stands on low\n' >"$top/crates.txt"
    echo 'fn low() {}' >"$top/crates/low/src/lib.rt"
    echo 'abbrev' >"$top/crates/low/specs/Low.antt"
    echo 'fn main() {}' >"$top/crates/monitor_main/src/main.rt"
    echo 'fn apart() {}' >"$top/crates/apart/src/lib.rt"
}

# run PATH WORDS..: standard output and the status, in the caller's folder; standard error goes to $room/told
run() {
    path=$1
    shift
    (cd "$room/caller" && PATH=$path "$command" "$@" 2>"$room/told")
    echo "$?"
}

# builds NAME WANTED: runs once more, and says whether it was built anew
builds() {
    : >"$NOTES"
    check "$1: the program runs" 'ran|3' "$(run "$kit")"
    check "$1: builds" "$2" "$(wc -l <"$NOTES" | tr -d ' ')"
}

command="$top/monitor"
fresh
check 'first use' 'ran|table|a b|3' "$(run "$kit" table 'a b')"
check 'progress' '3' "$(wc -l <"$room/told" | tr -d ' ')"
check 'progress names each crate' 'monitor: proved monitor_main' "$(tail -n 1 "$room/told")"
check 'progress tells the time left' '1' "$(grep -c 'monitor: proved low, about [0-9]* minutes left' "$room/told")"
check 'crates are checked side by side' '1' "$(grep -cx 'all check --jobs [1-9][0-9]*' "$NOTES.checks")"
builds 'again' 0

# however it is called
ln -s "$top/monitor" "$room/linked"
command="$room/linked"
builds 'through a link' 0
command="$top/monitor"
mkdir -p "$room/elsewhere/crates" "$room/caller/crates"
CDPATH=$room/elsewhere
export CDPATH
builds 'with CDPATH' 0
unset CDPATH
(cd "$top" && PATH=$kit sh monitor x >"$room/printed" 2>/dev/null)
check 'by sh, in its own folder' 'ran|x|' "$(cat "$room/printed")"
mkdir -p "$room/elsewhere/check out/crates"
(cd "$room" && CDPATH=$room/elsewhere PATH=$kit sh 'check out/monitor' x >"$room/printed" 2>/dev/null)
check 'by sh, with CDPATH and a path that is not whole' 'ran|x|' "$(cat "$room/printed")"
rm -r "$room/elsewhere/check out"

# what the program is made of
echo 'fn low() { }' >"$top/crates/low/src/lib.rt"
builds 'a changed source' 1
echo 'abbrev two' >"$top/crates/low/specs/Two.antt"
builds 'a new source' 1
rm "$top/crates/low/specs/Two.antt"
builds 'a deleted source' 1
mkdir -p "$top/crates/low/proofs"
echo 'pub' >"$top/crates/low/proofs/Low.antt"
builds 'a new proof' 1
printf 'low:\napart: low\nmonitor_main: low apart\n' >"$top/crates.txt"
builds 'a changed crates.txt' 1
printf 'low:\napart: low\nmonitor_main: apart low\n' >"$top/crates.txt"
builds 'crates that are named in another order' 1
printf 'low:\napart: low\nmonitor_main may_wait=1: apart low\n' >"$top/crates.txt"
builds 'a changed attribute in crates.txt' 1
fresh
builds 'a fresh checkout' 1
echo 'fn apart() { }' >"$top/crates/apart/src/lib.rt"
builds 'a source of another crate' 0
echo '# a remark' >>"$top/crates.txt"
builds 'a remark in crates.txt' 0
mkdir -p "$top/crates/low/must-fail"
echo 'file: src/lib.rt' >"$top/crates/low/must-fail/wrong.edit"
builds 'an edit' 0
touch -d '2100-01-01' "$top/crates/low/src/lib.rt"
builds 'a clock in the future' 0
touch -d '2100-01-01' "$top/crates/monitor_main/out/monitor_main"
echo 'fn low() {  }' >"$top/crates/low/src/lib.rt"
builds 'a change, and a program from the future' 1
echo 'stand-in 2' >"$room/kit/KIT-ID"
builds 'a new kit' 1
builds 'the same kit' 0
echo '# another' >>"$room/kit/bin/rt"
builds 'another rt of the same kit' 1
echo 'fn low() {   }' >"$top/crates/low/src/lib.rt"
DURING='echo "fn low() { 1 }" >../low/src/lib.rt'
export DURING
builds 'a source that changes during the build' 1
unset DURING
builds 'after it' 1
builds 'after that' 0

# the program that stands there
: >"$top/crates/monitor_main/out/monitor_main"
builds 'an empty program' 1
chmod -x "$top/crates/monitor_main/out/monitor_main"
builds 'a program that cannot be run' 1
printf '#!/bin/sh\necho another\n' >"$top/crates/monitor_main/out/monitor_main"
builds 'another program' 1
check 'without a kit' 'ran|3' "$(run "$bare")"
DURING='mkdir -p out && printf "#!/no/such/interpreter\n" >out/monitor_main && chmod +x out/monitor_main && exit'
export DURING
echo 'fn low() { 5 }' >"$top/crates/low/src/lib.rt"
check 'a program that the system cannot load' '70' "$(run "$kit")"
check 'a program that the system cannot load: the last line' "monitor: the system can't run $top/crates/monitor_main/out/monitor_main" \
    "$(tail -n 1 "$room/told")"
unset DURING

# its own failures
echo 'fn low() { 2 }' >"$top/crates/low/src/lib.rt"
check 'no kit, and a changed source' '70' "$(run "$bare")"
check 'no kit: one line' '1' "$(wc -l <"$room/told" | tr -d ' ')"
CHECKED=1
export CHECKED
: >"$NOTES"
check 'a crate that is not proved' '70' "$(run "$kit")"
check 'a crate that is not proved: nothing is built' '0' "$(wc -l <"$NOTES" | tr -d ' ')"
unset CHECKED
DURING='echo wrong; exit 1'
export DURING
check 'a build that fails' '70' "$(run "$kit")"
log=$(tail -n 1 "$room/told" | sed 's/.*; \(.*\) says why/\1/')
check 'the log, where it was told' 'wrong' "$(tail -n 1 "$log")"
check 'a build that fails, with standard error closed' '70' \
    "$(cd "$room/caller" && PATH=$kit "$top/monitor" 2>&-; echo $?)"
unset DURING
check 'standard error closed' 'ran|3' "$(cd "$room/caller" && PATH=$kit "$top/monitor" 2>&-; echo $?)"
echo 'fn low() { 3 }' >"$top/crates/low/src/lib.rt"
check 'standard error gone' 'ran|' \
    "$(cd "$room/caller" && { PATH=$kit "$top/monitor" 2>&1 >"$room/printed" | true; }; cat "$room/printed")"
fresh
echo 'no folder' >"$top/crates/monitor_main/out"
check 'no place for the program' '70' "$(run "$kit")"
check 'no place: one line' '1' "$(wc -l <"$room/told" | tr -d ' ')"
# What stands in the way can't be removed, or is no file: after a build, and in a fresh checkout.
for it in monitor_main made_of build.log; do
    for before in built fresh; do
        fresh
        [ "$before" = fresh ] || run "$kit" >/dev/null
        rm -rf "$top/crates/monitor_main/out/$it"
        mkdir -p "$top/crates/monitor_main/out/$it/full"
        # (a program that stands needs no log)
        [ "$it $before" = 'build.log built' ] && wanted='ran|3 0' || wanted='70 1'
        check "$before, a folder in the place of $it" "$wanted" "$(run "$kit") $(wc -l <"$room/told" | tr -d ' ')"
    done
done
if [ "$(id -u)" = 0 ]; then
    echo 'script: a checkout that may not be written was not tried, since root may write everywhere'
else
    fresh
    chmod -R a-w "$top"
    check 'may not be written, without a program' '70 1' "$(run "$kit") $(wc -l <"$room/told" | tr -d ' ')"
    chmod -R u+w "$top"
    run "$kit" >/dev/null
    chmod -R a-w "$top"
    check 'may not be written, with a program' 'ran|3 0' "$(run "$kit") $(wc -l <"$room/told" | tr -d ' ')"
    chmod u+w "$top/crates/low/src" "$top/crates/low/src/lib.rt"
    echo 'fn low() { 4 }' >"$top/crates/low/src/lib.rt"
    check 'may not be written, with a changed source' '70 1' "$(run "$kit") $(wc -l <"$room/told" | tr -d ' ')"
    chmod -R u+w "$top"
    rm "$top/crates/monitor_main/out"/*
    chmod a-w "$top/crates/monitor_main/out"
    check 'an empty place that may not be written' '70 1' "$(run "$kit") $(wc -l <"$room/told" | tr -d ' ')"
    chmod -R u+w "$top"
fi
fresh
rm "$top/crates.txt"
check 'no crates.txt' '70' "$(run "$kit")"

check 'nothing is made elsewhere' 'caller crates' "$(cd "$room" && find caller -mindepth 0 -maxdepth 1 -printf '%f ' | sed 's/ $//')"
check 'nothing is made in the folder of CDPATH' 'crates' "$(ls "$room/elsewhere")"

echo "script: $passed passed, $failed failed"
[ "$failed" = 0 ]
