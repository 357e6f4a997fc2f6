#!/bin/sh
# Runs the tests of a crate with one request for memory refused, one number after another, until none is left to refuse.
# refused_tests.sh CRATE [FIRST [LAST]]
# A test that needed that memory may fail, for want of it or by a fault that a site, a source or a station in memory counted for it.
# Any other failure is printed. Each number compiles the tests anew, unproved: some minutes for ten of them. It needs the kit's `rt`.
# Last line: refused tests: numbers A to B, N failed for another cause
set -u
unset CDPATH
top=$(dirname -- "$(cd -- "$(dirname -- "$0")" && pwd)")
cd "$top/crates/$1" || exit 1
first=${2:-1}
last=${3:-100000}
want='AllocError|AllocFailed|OutOfMemory|ReadFault|DiskFault|WriteFault|Failed$'
number=$first
others=0
while [ "$number" -le "$last" ]; do
    ended=$(rt try --test --fail-alloc "$number" 2>&1)
    echo "$ended" | grep -q '^test result:' || {
        echo "refused tests: $number: the tests didn't run"
        echo "$ended" | tail -n 5
        exit 1
    }
    echo "$ended" | grep -q '^test result: ok' && break
    # The first line below a failed test says why.
    causes=$(echo "$ended" | awk '/^test .* FAILED$/ { name = $2; getline; print name ":" $0 }' | grep -Ev "$want")
    if [ -n "$causes" ]; then
        echo "$causes" | sed "s/^/refused tests: $number: /"
        others=$((others + $(echo "$causes" | wc -l)))
    fi
    number=$((number + 1))
done
echo "refused tests: numbers $first to $number, $others failed for another cause"
[ "$others" = 0 ]
