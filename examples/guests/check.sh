#!/usr/bin/env bash
# Runs the guests of built/ under varan and compares the console's bytes with what they wrote under Linux (expected/).
# check.sh [PROGRAM]: crates/varan/out/varan where no program is named. Needs no compiler for guests.
set -eu
cd "$(dirname "$0")"
program=${1:-../../crates/varan/out/varan}
if [ ! -x "$program" ]; then
    echo "check.sh: $program isn't built: cd crates/varan && rt run -- run --script data/s data/v"
    exit 2
fi
report=$(mktemp)
trace=$(mktemp)
trap 'rm -f "$report" "$trace"' EXIT
rows=0
wrong=0

# row SCRIPT EXPECTED STATUS FATES VERSION..: FATES are the fates of the versions, without the address of a fault, one a line.
row() {
    local script=$1 expected=$2 wanted=$3 fates=$4 status=0 size
    shift 4
    rows=$((rows + 1))
    "$program" run --script "scripts/$script" "$@" >"$report" || status=$?
    if [ "$status" != "$wanted" ]; then
        echo "check.sh: status $status: $*"
        wrong=$((wrong + 1))
        return
    fi
    size=$(sed -n '1s/^output //p' "$report")
    if ! sed 1d "$report" | head -c "$size" | cmp - "expected/$expected"; then
        echo "check.sh: another console: $*"
        wrong=$((wrong + 1))
    elif [ "$(sed -n '/^fates /,$p' "$report" | sed '1d;s/ seen .*//;s/\(fault [a-z]* 100\) .*/\1/')" != "$fates" ]; then
        echo "check.sh: other fates: $*"
        sed -n '/^fates /,$p' "$report"
        wrong=$((wrong + 1))
    fi
}

row heap heap 0 '0 exited 3' built/heap
# it takes as many instructions as docs/GUESTS.md says, and not one fewer
row heap heap 0 '0 exited 3' --budget 900231 built/heap
row heap heap 1 '0 fault budget 100' --budget 900230 built/heap
row lines lines 0 '0 exited 0' built/lines
row threads threads 0 '0 exited 0' built/threads
row threads threads 0 $'0 exited 0\n1 exited 0\n2 exited 0' built/threads built/threads built/threads
# the service alone, the bad update alone, the service through its bad update, and the old version beside the patched one
row service service 0 '0 exited 0' built/service_1
row service service_2_alone 1 '0 fault load 100' built/service_2
row service service 0 $'0 fault load 100\n1 exited 0' built/service_2 built/service_1
row service service 0 $'0 exited 0\n1 exited 0' built/service_1 built/service_3
row service service 0 $'0 fault load 100\n1 exited 0\n2 exited 0' built/service_2 built/service_3 built/service_1

# rehearsed SCRIPT RECORDED VERSION LINE: over the trace of the guest RECORDED this is told of VERSION, without the address of a fault.
rehearsed() {
    local line
    rows=$((rows + 1))
    "$program" record --script "scripts/$1" "built/$2" >"$trace" || true
    line=$("$program" replay --script "scripts/$1" "$trace" "built/$3" || true)
    if [ "$(sed 's/\(fault load 100\) [0-9a-f]*/\1/' <<<"$line")" != "$4" ]; then
        echo "check.sh: another rehearsal of $3 over $2: $line"
        wrong=$((wrong + 1))
    fi
}

# each guest over its own trace, which has as many events as the guest makes calls under Linux, and the service's versions over that of the first
rehearsed heap heap heap 'replay exited 3 seen 9 rewrites 0'
rehearsed lines lines lines 'replay exited 0 seen 37 rewrites 0'
rehearsed threads threads threads 'replay exited 0 seen 21 rewrites 0'
rehearsed service service_1 service_1 'replay exited 0 seen 18 rewrites 0'
rehearsed service service_1 service_2 'replay fault load 100 seen 7 rewrites 0'
rehearsed service service_1 service_3 'replay exited 0 seen 18 rewrites 0'

if ! ./as_text.py | cmp - ../../crates/nv_rows/data/built_guests; then
    echo "check.sh: the rows of nv_rows have other guests"
    wrong=$((wrong + 1))
fi

echo "check.sh: $rows rows, $wrong wrong"
[ "$wrong" = 0 ]
