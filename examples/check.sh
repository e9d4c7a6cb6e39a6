#!/usr/bin/env bash
# Runs the examples but those of guests/, and compares: the assembler texts hello, service and server with the reports of expected/, and the server in C and
# two programs of Debian with what their clients got under Linux (server/expected, strangers/expected); gives the program files and outputs of the host that fail; does the
# commands of README.md, docs/TUTORIAL.md, COMPARE.md, REPORT.md, SCRIPT.md, GUESTS.md and CHECKED.md; tries the scripts of this folder; and has the manual pages formatted.
# check.sh [PROGRAM]: crates/varan/out/varan where no program is named.
# It wants jq, cc and groff (Debian: jq, gcc, groff-base). What wants one that isn't there is left out, and a line with `left out` tells it.
# Status: 0 where nothing differs, 1 where something does, 2 where the program isn't built.
set -eu
program=$(realpath -m "${1:-$(dirname "$0")/../crates/varan/out/varan}")
cd "$(dirname "$0")"
here=$PWD
strace=$here/strace.jq
if [ ! -x "$program" ]; then
    echo "check.sh: $program isn't built: cd crates/varan && rt run -- run --script data/s data/v"
    exit 2
fi
work=$(mktemp -d)
trap 'rm -rf "$work"' EXIT
rows=0
wrong=0
# what the program is started by, where it isn't the shell
under=()

# has TOOL PACKAGE WHAT: whether the tool is on this machine; where it isn't, this is left out.
has() {
    if ! command -v "$1" >/dev/null; then
        echo "check.sh: left out: $3, for want of $1 (Debian: $2)"
        return 1
    fi
}

# row STATUS EXPECTED WORD..: what the program writes with these words is the file EXPECTED, and its status this.
row() {
    local wanted=$1 expected=$2 status=0
    shift 2
    rows=$((rows + 1))
    ${under[@]+"${under[@]}"} "$program" "$@" >"$work/written" || status=$?
    if ! diff "$expected" "$work/written"; then
        echo "check.sh: other text than $expected: varan $*"
        wrong=$((wrong + 1))
    elif [ "$status" != "$wanted" ]; then
        echo "check.sh: status $status in place of $wanted: varan $*"
        wrong=$((wrong + 1))
    fi
}

# calls EXPECTED WORD..: the log of the run, as strace prints calls, is the file EXPECTED.
calls() {
    local expected=$1
    shift
    rows=$((rows + 1))
    if ! "$program" run --json "$@" | jq -r -f "$strace" | diff "$expected" -; then
        echo "check.sh: other calls: varan run --json $*"
        wrong=$((wrong + 1))
    fi
}

# says STATUS TEXT WORD..: what the program writes with these words is this line, and its status this.
says() {
    local wanted=$1 text=$2
    shift 2
    echo "$text" >"$work/line"
    row "$wanted" "$work/line" "$@"
}

# ended STATUS WORD..: the program's status, where the caller says what its standard output is.
ended() {
    local wanted=$1 status=0
    shift
    rows=$((rows + 1))
    ${under[@]+"${under[@]}"} "$program" "$@" || status=$?
    if [ "$status" != "$wanted" ]; then
        echo "check.sh: status $status in place of $wanted: varan $*" >&2
        wrong=$((wrong + 1))
    fi
}

# unwritten WORD..: where standard output is full, closed or not for writing, the status is 6.
unwritten() {
    ended 6 "$@" >/dev/full
    ended 6 "$@" >&-
    ended 6 "$@" 1<"$here/check.sh"
}

# failing CALL COMMAND..: one of the functions here, where this call of the C library fails once (bench/hostile_parts/failing.c).
failing() {
    local status=0
    under=(env "LD_PRELOAD=$work/failing.so" "FAILING=$1" "COUNTED=$work/counted")
    shift
    "$@" || status=$?
    under=()
    return "$status"
}

# stopped N WORD..: where write N fails, from 0, the status is 6, the writes before it stand, and none comes after it.
stopped() {
    local number=$1 written
    shift
    failing "write:$number" ended 6 "$@" >"$work/written"
    read -r _ _ _ written <"$work/counted"
    "$program" "$@" >"$work/whole" || true
    rows=$((rows + 1))
    if [ "$written" != $((number + 1)) ] || ! head -c $((8192 * number)) "$work/whole" | cmp - "$work/written"; then
        echo "check.sh: something was written after write $number failed: varan $*"
        wrong=$((wrong + 1))
    fi
}

# wanting STATUSES WORD..: where each allocation fails in turn, the program ends as where none does, with 3 and `varan: memory`, or with 7 and the fate `memory` of
# its one version; and it ends with each of these statuses at least once.
wanting() {
    local needed=$1 count number status came=' ' usual=0
    shift
    "$program" "$@" >"$work/whole" || usual=$?
    failing alloc:-1 ended "$usual" "$@" >"$work/written"
    read -r count _ <"$work/counted"
    for ((number = 0; number < count; number++)); do
        status=0
        failing "alloc:$number" started "$@" >"$work/written" || status=$?
        came+="$status "
        rows=$((rows + 1))
        if ! is_for_want "$status" "$usual"; then
            echo "check.sh: status $status where allocation $number fails: varan $*"
            wrong=$((wrong + 1))
        fi
    done
    for status in $needed; do
        if [[ $came != *" $status "* ]]; then
            echo "check.sh: no want of memory ends with $status: varan $*"
            wrong=$((wrong + 1))
        fi
    done
}

# started WORD..: the program, as the rows start it.
started() {
    ${under[@]+"${under[@]}"} "$program" "$@"
}

# is_for_want STATUS USUAL: whether what was written is what this status says, where an allocation failed and else the status is USUAL.
is_for_want() {
    case $1 in
    "$2") cmp -s "$work/whole" "$work/written" ;;
    3) [ "$(cat "$work/written")" = 'varan: memory' ] ;;
    7) [[ $(sed -n '/^fates /,$p' "$work/written") == $'fates 1\n0 memory seen '* ]] ;;
    *) false ;;
    esac
}

# sized WORD..: the bytes of the program's greatest allocation, and how many threads it starts.
sized() {
    under=(env "LD_PRELOAD=$work/failing.so" "SIZED=$work/sized")
    started "$@" >/dev/null
    under=()
    cat "$work/sized"
}

# on_threads COUNT WORD..: a run of eight versions on so many threads starts one less beside its first.
on_threads() {
    local count=$1 created
    shift
    rows=$((rows + 1))
    read -r _ created < <(sized run --threads "$count" "$@")
    if [ "$created" != $((count - 1)) ]; then
        echo "check.sh: $created threads are started in place of $((count - 1)): varan run --threads $count $*"
        wrong=$((wrong + 1))
    fi
}

# ring_grows WORD..: the table of a run grows by the same for each place of its ring.
ring_grows() {
    local small middle large
    rows=$((rows + 1))
    read -r small _ < <(sized run --ring 256 "$@")
    read -r middle _ < <(sized run --ring 512 "$@")
    read -r large _ < <(sized run --ring 1024 "$@")
    if [ "$middle" -le "$small" ] || [ $((large - middle)) != $((2 * (middle - small))) ]; then
        echo "check.sh: tables of $small, $middle and $large bytes by rings of 256, 512 and 1024 places: varan run $*"
        wrong=$((wrong + 1))
    fi
}

# record STATUS TRACE WORD..: records a run.
record() {
    local wanted=$1 trace=$2 status=0
    shift 2
    rows=$((rows + 1))
    "$program" record "$@" >"$trace" || status=$?
    if [ "$status" != "$wanted" ]; then
        echo "check.sh: status $status in place of $wanted: varan record $*"
        wrong=$((wrong + 1))
    fi
}

# record_again TRACE WORD..: the same trace is recorded on one thread, on eight, and with a ring of two places.
record_again() {
    local trace=$1 option
    shift
    for option in --threads=1 --threads=8 --ring=2; do
        record 0 "$work/again" "$option" "$@"
        same "$trace" "$work/again"
    done
}

# same FILE FILE: two files are the same.
same() {
    rows=$((rows + 1))
    if ! cmp "$1" "$2"; then
        echo "check.sh: other bytes in $2 than in $1"
        wrong=$((wrong + 1))
    fi
}

# served STATUS CLIENTS FATES WORD..: each connection was written what the file CLIENTS says, and the versions ended so; of a fault without its address.
served() {
    local wanted=$1 clients=$2 fates=$3 status=0
    shift 3
    rows=$((rows + 1))
    "$program" run "$@" >"$work/written" || status=$?
    if ! sed -n '/^connections /,$p' "$work/written" | cmp "$clients" -; then
        echo "check.sh: clients got something else than $clients: varan run $*"
        wrong=$((wrong + 1))
    elif [ "$(sed -n '/^fates /,/^connections /p' "$work/written" | sed '1d;$d;s/\(fault [a-z]* 100\) [0-9a-f]*/\1/')" != "$fates" ]; then
        echo "check.sh: other fates: varan run $*"
        sed -n '/^fates /,/^connections /p' "$work/written"
        wrong=$((wrong + 1))
    elif [ "$status" != "$wanted" ]; then
        echo "check.sh: status $status in place of $wanted: varan run $*"
        wrong=$((wrong + 1))
    fi
}

# page PAGE: the commands of a page under docs/ print what stands there.
page() {
    rows=$((rows + 1))
    "$here/follow.py" "$here/../docs/$1" "$program" || wrong=$((wrong + 1))
}

cd assembler/hello
"$program" asm hi.s >"$work/hi"
row 0 expected/report run --script script "$work/hi"
row 0 expected/json run --script script --json "$work/hi"
row 4 expected/wrong asm wrong.s
record 0 "$work/trace" --script script "$work/hi"
od -An -v -tx1 -w48 "$work/trace" | tr -d ' ' >"$work/bytes"
same expected/trace "$work/bytes"
says 0 'replay exited 0 seen 2 rewrites 0' replay --script script "$work/trace" "$work/hi"
row 0 expected/inspected inspect --script script --stamp 1 "$work/trace" "$work/hi"
row 0 expected/inspected_early inspect --script script --count 3 --dump 69632 --length 4 "$work/trace" "$work/hi"
head -c 110 "$work/trace" >"$work/cut"
says 4 "varan: input $work/cut: short 1" replay --script script "$work/cut" "$work/hi"

# files of the host: of several pieces, too long, and ones that can't be read
{ echo 1000; yes '0 0 0 0' | head -n 999; echo '6 0 0 0'; } >"$work/filter"
says 0 'ok 1000' rules "$work/filter"
head -c 4194304 /dev/zero | tr '\0' '\n' >"$work/longest"
says 4 "varan: input $work/longest: line 1" rules "$work/longest"
echo >>"$work/longest"
says 4 "varan: input $work/longest: long" rules "$work/longest"
missing=$work/missing
says 5 "varan: read $missing" run --script "$missing" "$work/hi"
says 5 "varan: read $missing" run --script script --rules "$missing" "$work/hi"
says 5 "varan: read $missing" record --script script "$work/hi" "$missing"
says 5 "varan: read $missing" replay --script script "$missing" "$work/hi"
says 5 "varan: read $missing" inspect --script script --stamp 1 "$work/trace" "$missing"
says 5 "varan: read $work" asm "$work"
# words that aren't text
says 2 'varan: usage' asm $'\xff'
says 2 'varan: usage' run --script script "$work/hi" $'hi\xff'
# outputs that fail: short texts, and one of several writes
long=(inspect --script script --count 3 --dump 65536 --length 4096 "$work/trace" "$work/hi")
unwritten run --script script "$work/hi"
unwritten record --script script "$work/hi"
unwritten asm hi.s
unwritten asm wrong.s
unwritten rules "$missing"
unwritten asm $'\xff'
unwritten "${long[@]}"
# calls of the host that fail once
if has cc gcc "calls of the host that fail once, want of memory, rings and threads"; then
    cc -O1 -shared -fPIC -o "$work/failing.so" "$here/../bench/hostile_parts/failing.c"
    failing open:0 says 5 'varan: read script' run --script script --rules "$work/filter" "$work/hi"
    failing open:1 says 5 "varan: read $work/filter" run --script script --rules "$work/filter" "$work/hi"
    failing open:2 says 5 "varan: read $work/hi" run --script script --rules "$work/filter" "$work/hi"
    failing read:1 says 5 "varan: read $work/filter" rules "$work/filter"
    failing short-read:0 says 0 'ok 1000' rules "$work/filter"
    failing short-write:0 says 0 'ok 1000' rules "$work/filter"
    stopped 0 asm hi.s
    stopped 0 asm wrong.s
    stopped 0 asm $'\xff'
    stopped 0 "${long[@]}"
    stopped 1 "${long[@]}"
    # want of memory: in the words, which are read before they are refused; for the command itself; and of the one version of a run
    wanting 3 asm $'\xff'
    wanting 3 asm hi.s
    wanting "3 7" run --threads 1 --script script "$work/hi"
    wanting 3 record --threads 1 --script script "$work/hi"
    # the ring and the threads that the options ask for; the memory of the version is smaller than the rings
    ring_grows --script script --memory 196608 "$work/hi"
    for count in 1 2 3 8; do
        on_threads "$count" --script script "$work"/{hi,hi,hi,hi,hi,hi,hi,hi}
    done
fi

cd ../service
for version in service_1 service_2 service_3 service_4; do
    "$program" asm "$version.s" >"$work/$version"
done
row 0 expected/rules rules --asm rules.txt
"$program" rules --asm rules.txt >"$work/rules"
row 0 expected/alone run --script script "$work/service_1"
row 1 expected/bad_update_alone run --script script "$work/service_2"
row 0 expected/bad_update run --script script "$work/service_2" "$work/service_1"
row 0 expected/patched_without_rules run --script script "$work/service_1" "$work/service_3"
row 0 expected/patched run --script script --rules "$work/rules" "$work/service_1" "$work/service_3"
row 0 expected/all run --script script --rules "$work/rules" "$work/service_2" "$work/service_3" "$work/service_1"
row 0 expected/live_update run --script update --rules "$work/rules" "$work/service_1" "$work/service_3"
"$program" rules --asm takes.txt >"$work/takes"
row 0 expected/other_texts run --script script --rules "$work/takes" "$work/service_2" "$work/service_4"
row 0 expected/bad_live_update run --script update "$work/service_1" "$work/service_2"
record 0 "$work/trace" --script script "$work/service_1"
record 0 "$work/trace_2" --script script "$work/service_2" "$work/service_1"
same "$work/trace" "$work/trace_2"
record_again "$work/trace" --script script "$work/service_2" "$work/service_1"
record 1 "$work/broken" --script script "$work/service_2"
says 0 'replay exited 0 seen 10 rewrites 0' replay --script script "$work/trace" "$work/service_1"
says 1 'replay fault load 100 0001006c seen 5 rewrites 0' replay --script script "$work/trace" "$work/service_2"
says 1 'replay refused 100 174 0 00000000 seen 0 rewrites 0' replay --script script "$work/trace" "$work/service_3"
says 0 'replay exited 0 seen 10 rewrites 1' replay --script script --rules "$work/rules" "$work/trace" "$work/service_3"
says 0 'replay in step seen 5 rewrites 0' replay --script script "$work/broken" "$work/service_1"
row 0 expected/inspected_before inspect --script script --stamp 5 --dump 69632 --length 20 "$work/trace" "$work/service_2"
row 0 expected/inspected_fault inspect --script script --stamp 6 --dump 69632 --length 20 "$work/trace" "$work/service_2"

cd ../server
for version in 1 2 3 4; do
    "$program" asm "server_$version.s" >"$work/server_$version"
done
row 0 expected/rules rules --asm rules.txt
"$program" rules --asm rules.txt >"$work/rules"
row 0 expected/alone run --script script "$work/server_1"
row 1 expected/bad_update_alone run --script script "$work/server_2"
row 0 expected/bad_update run --script script "$work/server_2" "$work/server_1"
row 0 expected/patched run --script script "$work/server_1" "$work/server_3"
row 0 expected/strict run --script script "$work/server_1" "$work/server_4"
row 0 expected/strict_by_rules run --script script --rules "$work/rules" "$work/server_1" "$work/server_4"
row 0 expected/all run --script script "$work/server_2" "$work/server_3" "$work/server_1"
row 0 expected/live_update run --script update "$work/server_1" "$work/server_3"
row 0 expected/bad_live_update run --script update "$work/server_1" "$work/server_2"
record 0 "$work/trace" --script script "$work/server_1"
record 0 "$work/trace_2" --script update "$work/server_1" "$work/server_2"
same "$work/trace" "$work/trace_2"
record_again "$work/trace" --script update "$work/server_1" "$work/server_2"
says 0 'replay exited 0 seen 31 rewrites 0' replay --script script "$work/trace" "$work/server_1"
says 1 'replay fault load 100 000100b8 seen 17 rewrites 0' replay --script script "$work/trace" "$work/server_2"
says 0 'replay exited 0 seen 31 rewrites 0' replay --script script "$work/trace" "$work/server_3"
says 1 'replay refused 100 64 17 00000000 seen 17 rewrites 0' replay --script script "$work/trace" "$work/server_4"
says 0 'replay exited 0 seen 31 rewrites 5' replay --script script --rules "$work/rules" "$work/trace" "$work/server_4"
row 0 expected/inspected inspect --script script --call 57 --dump 69648 --length 20 "$work/trace" "$work/server_1"
row 0 expected/inspected_before inspect --script script --stamp 17 "$work/trace" "$work/server_4"
row 0 expected/inspected_parted inspect --script script --stamp 18 --dump 69722 --length 26 "$work/trace" "$work/server_4"
row 0 expected/inspected_fault inspect --script script --stamp 18 "$work/trace" "$work/server_2"

cd "$here/server"
"$program" rules --asm rules.txt >"$work/rules"
row 0 expected/rules rules --asm rules.txt
led='0 exited 0 seen 115 led 0-115 rewrites 0'
broke='0 fault load 100 seen 59 led 0-59 rewrites 0'
# each version alone
served 0 expected/clients_1 "$led" --script scripts/clients built/server_1
served 1 expected/clients_2 "$broke" --script scripts/clients built/server_2
served 0 expected/clients_3 "$led" --script scripts/clients built/server_3
served 0 expected/clients_4 '0 exited 0 seen 110 led 0-110 rewrites 0' --script scripts/clients built/server_4
# through the bad update, and the patches beside the old version
served 0 expected/clients_1 "$broke"$'\n1 exited 0 seen 115 led 59-115 rewrites 0' --script scripts/clients built/server_2 built/server_1
served 0 expected/clients_1 "$led"$'\n1 exited 0 seen 115 led - rewrites 0' --script scripts/clients built/server_1 built/server_3
served 0 expected/clients_1 "$led"$'\n1 refused 100 64 59 00000000 seen 59 led - rewrites 0' --script scripts/clients built/server_1 built/server_4
served 0 expected/clients_1 "$led"$'\n1 exited 0 seen 115 led - rewrites 11' --script scripts/clients --rules "$work/rules" built/server_1 built/server_4
served 0 expected/clients_1 "$broke"$'\n1 exited 0 seen 115 led 59-115 rewrites 0\n2 exited 0 seen 115 led - rewrites 0' \
    --script scripts/clients built/server_2 built/server_3 built/server_1
# live updates
served 0 expected/clients_1 $'0 exited 0 seen 115 led 0-47 rewrites 0\n1 exited 0 seen 115 led 47-115 rewrites 0' \
    --script scripts/update built/server_1 built/server_3
served 0 expected/clients_1 $'0 exited 0 seen 115 led 0-47,59-115 rewrites 0\n1 fault load 100 seen 59 led 47-59 rewrites 0' \
    --script scripts/update built/server_1 built/server_2

# rehearsals, and the state where version 4 parts and version 2 breaks
record 0 "$work/trace" --script scripts/clients built/server_1
record 0 "$work/trace_2" --script scripts/update built/server_1 built/server_2
same "$work/trace" "$work/trace_2"
record_again "$work/trace" --script scripts/update built/server_1 built/server_2
says 0 'replay exited 0 seen 115 rewrites 0' replay --script scripts/clients "$work/trace" built/server_1
says 1 'replay fault load 100 000107dc seen 59 rewrites 0' replay --script scripts/clients "$work/trace" built/server_2
says 0 'replay exited 0 seen 115 rewrites 0' replay --script scripts/clients "$work/trace" built/server_3
says 1 'replay refused 100 64 59 00000000 seen 59 rewrites 0' replay --script scripts/clients "$work/trace" built/server_4
says 0 'replay exited 0 seen 115 rewrites 11' replay --script scripts/clients --rules "$work/rules" "$work/trace" built/server_4
row 0 expected/inspected_before inspect --script scripts/clients --stamp 59 --dump 76504 --length 18 "$work/trace" built/server_4
row 0 expected/inspected_parted inspect --script scripts/clients --stamp 60 --dump 1048240 --length 208 "$work/trace" built/server_4
row 0 expected/inspected_fault inspect --script scripts/clients --stamp 60 "$work/trace" built/server_2

# Two programs of Debian, each with its bug and with Debian's patch: alone, and the patched one after the other.
cd "$here/strangers"
large=(--memory 4194304 --budget 100000000)
led='0 exited 0 seen 335 led 0-335 rewrites 0'
broke='0 fault load 100 seen 181 led 0-181 rewrites 0'
served 0 expected/mini_httpd "$led" "${large[@]}" --script scripts/mini_httpd built/mini_httpd_debian
served 1 expected/mini_httpd_alone "$broke" "${large[@]}" --script scripts/mini_httpd built/mini_httpd_original
served 0 expected/mini_httpd "$broke"$'\n1 exited 0 seen 335 led 181-335 rewrites 0' "${large[@]}" \
    --script scripts/mini_httpd built/mini_httpd_original built/mini_httpd_debian
led='0 exited 0 seen 71 led 0-71 rewrites 0'
broke='0 fault store 100 seen 40 led 0-40 rewrites 0'
served 0 expected/expat "$led" "${large[@]}" --script scripts/expat built/expat_debian
served 1 expected/expat_alone "$broke" "${large[@]}" --script scripts/expat built/expat_original
served 0 expected/expat "$broke"$'\n1 exited 0 seen 71 led 40-71 rewrites 0' "${large[@]}" --script scripts/expat built/expat_original built/expat_debian
cd "$here/server"

if has jq jq "strace.jq"; then
    calls expected/calls --script scripts/clients built/server_1
    cd "$here/assembler/service"
    calls expected/calls --script script "$work/service_2" "$work/service_1"
    cd ../server
    calls expected/calls --script script "$work/server_2" "$work/server_1"
    cd ../hello
    calls expected/calls --script script "$work/hi"
fi

page ../README.md
page TUTORIAL.md
page COMPARE.md

if has groff groff-base "the form of the manual pages"; then
    for manual in varan.1 varan-listen.1; do
        rows=$((rows + 1))
        # groff tells a fault of the page on standard error alone
        said=$(groff -mandoc -Tutf8 -ww -z "$here/../docs/$manual" 2>&1) || said+=" (status $?)"
        if [ -n "$said" ]; then
            echo "$said"
            echo "check.sh: docs/$manual isn't formatted without a warning"
            wrong=$((wrong + 1))
        fi
    done
fi

# ---- pages that need more of the host, and the scripts of this folder

# told STATUS EXPECTED COMMAND..: what a script of this folder prints is the file EXPECTED, and its status this.
told() {
    local wanted=$1 expected=$2 status=0
    shift 2
    rows=$((rows + 1))
    "$@" >"$work/told" || status=$?
    if ! diff "$expected" "$work/told"; then
        echo "check.sh: other text than $expected: $*"
        wrong=$((wrong + 1))
    elif [ "$status" != "$wanted" ]; then
        echo "check.sh: status $status in place of $wanted: $*"
        wrong=$((wrong + 1))
    fi
}

# digits FILE: its bytes as hexadecimal digits.
digits() {
    od -An -v -tx1 "$1" | tr -d ' \n'
}

for it in REPORT SCRIPT; do
    page "$it.md"
done
if has riscv64-unknown-elf-gcc gcc-riscv64-unknown-elf docs/GUESTS.md && has curl curl docs/GUESTS.md; then
    page GUESTS.md
fi
if has riscv64-unknown-elf-gcc gcc-riscv64-unknown-elf docs/CHECKED.md; then
    page CHECKED.md
fi

# script.py: four clients by their bytes, as strace saw them and as they were captured; the server's script of its files; and a script as text
mkdir "$work/sent"
printf 'GET /a HTTP/1.0\r\n\r\n' >"$work/sent/1"
printf 'GET /b HTTP/1.1\r\nHost: example.org\r\nConnection: close\r\n\r\n' >"$work/sent/2"
: >"$work/sent/3"
printf 'BAD\xff\0\r\n\r\n' >"$work/sent/4"
{
    echo varan-script 3
    for client in 1 2 3 4; do
        echo "connect 8123 $(digits "$work/sent/$client")"
    done | sed 's/ $//'
} >"$work/clients"
cat >"$work/as_text" <<'END'
varan-script 3
connect 8123 "GET /a HTTP/1.0\r\n\r\n"
connect 8123 "GET /b HTTP/1.1\r\nHost: example.org\r\nConnection: close\r\n\r\n"
connect 8123 ""
connect 8123 "BAD\xff\x00\r\n\r\n"
END
told 0 "$work/clients" "$here/script.py" --client 8123 "$work/sent/1" --client 8123 "$work/sent/2" --client 8123 "$work/sent/3" --client 8123 "$work/sent/4"
told 0 "$work/clients" "$here/script.py" --strace "$here/captures/strace"
told 0 "$work/clients" "$here/script.py" --capture "$here/captures/tshark"
told 0 "$work/as_text" "$here/script.py" --text "$work/clients"
# a text that strace cut, and a capture that lacks the first bytes of a client
sed 's/", 8192/"..., 8192/' "$here/captures/strace" >"$work/cut_short"
told 1 /dev/null "$here/script.py" --strace "$work/cut_short" 2>/dev/null
grep -v '474554202f622048' "$here/captures/tshark" >"$work/lacking"
told 1 /dev/null "$here/script.py" --capture "$work/lacking" 2>/dev/null
# the server's script, of the files that its lines have
cd "$here/server"
mkdir "$work/files"
client=0
options=(--arg 8080)
while read -r word name bytes; do
    if [ "$word" = file ] || [ "$word" = connect ]; then
        place=$work/files/$name
        [ "$word" = file ] || place=$work/files/client_$((++client))
        printf '%b' "$(sed 's/../\\x&/g' <<<"$bytes")" >"$place"
        [ "$word" = file ] && options+=(--file "$place") || options+=(--client "$name" "$place")
    fi
done <scripts/clients
grep -v '^#' scripts/clients >"$work/bare"
told 0 "$work/bare" "$here/script.py" "${options[@]}"

# explain.py: a refusal with its row, every cause that the manual page has, and one that isn't there
cat >"$work/overlap" <<'END'
  Versions: segments 1 and 2 share an address
      do: mend the linker file
END
told 0 "$work/overlap" "$here/explain.py" 'varan: input hi: overlap 1 2'
told 0 "$work/overlap" "$here/explain.py" '# varan: input hi: overlap 1 2'
# by hand: the three bytes of hi's data are at 0x11000, and 69,635 bytes with 65,536 of a stack take 34 pages of 4,096
cat >"$work/room" <<END
  Versions: segment 0 ends above the memory less 65,536 bytes, which are the stack
      do: a larger \`--memory\` (with 131,072 no byte from 0x10000 on is free), or lower addresses
  Versions: of a small program: the compiler's own linker file puts it at 0x10000000, for a bare machine
      do: use \`examples/guests/cc\`, or its \`guest.ld\`
  $work/hi: its last byte is 69,634, so it needs 139,264 bytes with the stack; without \`--memory\` there are 1,048,576
END
told 0 "$work/room" "$here/explain.py" "varan: input $work/hi: no room 0"
says 4 "varan: input $work/hi: no room 1" run --script "$here/assembler/hello/script" --memory 135168 "$work/hi"
row 0 "$here/assembler/hello/expected/report" run --script "$here/assembler/hello/script" --memory 139264 "$work/hi"
causes=(long 'line 1 form' 'line 3 word' 'line 3 shape' 'line 3 range' 'line 3 twice' 'line 3 long' 'line 3' empty 'too long' count 'code 3' 'jump 3' 'scratch 3' 'offset 3' 'zero 3'
    'shift 3' 'no return' 'line 3 operand' 'line 3 label' 'line 3 far' 'line 3 mnemonic' short magic class type machine flags header interpreted 'outside 3' 'overlap 1 2' entry 'no room 3'
    'no room 0' arguments 'short 3' 'field 3' extra 'ended 3' 'shape 3' 'thread 3' 'reply 3')
rows=$((rows + 1))
if ! "$here/explain.py" 'varan: usage' 'varan: memory' 'varan: read x' "${causes[@]/#/varan: input x: }" >"$work/told"; then
    grep 'have nothing on this' "$work/told"
    echo "check.sh: the pages don't explain a refusal"
    wrong=$((wrong + 1))
fi
rows=$((rows + 1))
if "$here/explain.py" 'varan: input x: nothing known' >"$work/told"; then
    echo "check.sh: explain.py explains what isn't there"
    wrong=$((wrong + 1))
fi

# core.py: the line of inspect, the registers that expected/inspected_fault has, and the request that was read, at its place in the core file
"$program" record --script scripts/clients built/server_1 >"$work/trace"
head -n 1 expected/inspected_fault >"$work/at"
told 0 "$work/at" "$here/core.py" --program "$program" "$work/core" --script scripts/clients --stamp 60 "$work/trace" built/server_2
{
    sed -n 's/^thread 100 pc //p' expected/inspected_fault
    sed -n 's/^x 00000000 //p' expected/inspected_fault | tr ' ' '\n'
} >"$work/registers"
# four headers, the head of the note, and what stands before the registers
od -An -v -tx4 -w4 -j$((52 + 4 * 32 + 20 + 72)) -N128 "$work/core" | tr -d ' ' >"$work/in_core"
same "$work/registers" "$work/in_core"
# the data are the third segment, from 0x12970 on, and lie on the file's fourth page
printf 'GET\0/\0HTTP/1.0\r\n\r\n' >"$work/request"
dd if="$work/core" of="$work/in_core" bs=1 skip=$((0x3000 + 0x12ab8 - 0x12970)) count=18 status=none
same "$work/request" "$work/in_core"
printf 'varan-script 1\n' >"$work/other"
told 4 /dev/null "$here/core.py" --program "$program" "$work/core" --script scripts/clients --stamp 60 "$work/trace" "$work/other" 2>/dev/null

echo "check.sh: $rows rows, $wrong wrong"
[ "$wrong" = 0 ]
