#!/usr/bin/env bash
# Builds guests with checks (docs/CHECKED.md), and compares: the guests of ../guests and ../server follow their plain builds to the end; of each error of errors.c, which the
# plain build survives, the kind, the object and the lines are those of `expected`; and so is an update of the server with a byte too much, which serves every client.
# check.sh [PROGRAM]: crates/varan/out/varan where no program is named.
# It wants the compiler for guests (Debian: gcc-riscv64-unknown-elf and picolibc-riscv64-unknown-elf); over the C library of ../guests/libc and of Debian's programs what is
# built. What isn't there is left out, and a line with `left out` tells it.
# Status: 0 where nothing differs, 1 where something does, 2 where the program isn't built.
set -eu
cd "$(dirname "$0")"
program=$(realpath -m "${1:-../../crates/varan/out/varan}")
guests=../guests
server=../server
if [ ! -x "$program" ]; then
    echo "check.sh: $program isn't built: cd crates/varan && rt run -- run --script data/s data/v"
    exit 2
fi
if ! command -v riscv64-unknown-elf-gcc >/dev/null; then
    echo "check.sh: left out: guests with checks, for want of riscv64-unknown-elf-gcc (Debian: gcc-riscv64-unknown-elf)"
    exit
fi
work=$(mktemp -d)
trap 'rm -rf "$work"' EXIT
rows=0
wrong=0

# is FOUND WANTED WHAT
is() {
    rows=$((rows + 1))
    if [ "$1" != "$2" ]; then
        echo "check.sh: other lines: $3"
        diff <(echo "$2") <(echo "$1") || true
        wrong=$((wrong + 1))
    fi
}

# build CC WORD..: $work/plain and $work/checked.
build() {
    local cc=$1
    shift
    "$cc" "$@" -o "$work/plain"
    "$cc" --checked "$@" -o "$work/checked"
}

# beside SCRIPT ENDED: what build built: the plain guest leads, and the checked one follows to the end without a rewrite.
beside() {
    local fates
    fates=$("$program" run --memory 4194304 --budget 100000000 --script "$1" "$work/plain" "$work/checked" | sed -n '/^fates/,$p' | sed '1d;3q')
    is "$fates" "0 exited $2 led 0-${2##* } rewrites 0
1 exited $2 led - rewrites 0" "the checked build beside the plain one: $1"
}

# what is said of the version with checks that build built
said() {
    ../checked.py --program "$program" --script "$1" "$work/plain" "$work/checked" || true
}

# found KIND N: what errors.c does with these arguments, and what is said of it. How many instructions it took isn't compared.
found() {
    printf '%s\n' "varan-script 1" "arg $1" "arg $2" "arg errors" >"$work/script"
    echo "== $1 $2"
    "$program" run --script "$work/script" "$work/plain" | sed -n '/^fates/,$p' | sed '1d;s/^0 \(exited [0-9]*\) .*/plain: \1/'
    said "$work/script" | sed 's/^at seen \([0-9]*\) count [0-9]*/checked: seen \1/'
}

kinds=("none 5" "read 7" "read -1" "write 9" "copy 5" "moved 5" "size 1" "freed 3" "twice 0" "inside 2" "stack 21" "scope 3" "table 6" "sum 3" "unwritten 8" "number 7")

# errors WITHOUT..: what is found of each kind but these.
errors() {
    local row
    for row in "${kinds[@]}"; do
        [[ " $* " == *" ${row% *} "* ]] || found $row
    done
}

# expected WITHOUT..: the rows of `expected` but for these kinds, with the numbers of the lines that errors.c names.
expected() {
    sed -f <(sed -n 's|.*/\* here: \([a-z_]*\) \*/$|\1|p' errors.c | while read -r name; do
        echo "s|{$name}|$(grep -n "/\* here: $name \*/" errors.c | cut -d: -f1)|g"
    done) expected | awk -v without=" $* " '/^== /{is_shown = index(without, " " $2 " ") == 0} is_shown'
}

# aborted CC WORD..: a checked guest that aborts, and one whose assert fails, where the plain one exits: it breaks, and that isn't taken for an error that was found.
aborted() {
    local way
    for way in 'abort()' 'assert(words == 0)'; do
        printf '%s\n' '#include <assert.h>' '#include <stdlib.h>' "int main(int words, char **all) { (void)all; if (words) WAY; return 0; }" >"$work/aborts.c"
        "$@" '-DWAY=return 0' "$work/aborts.c" -o "$work/plain"
        "$1" --checked "${@:2}" "-DWAY=$way" "$work/aborts.c" -o "$work/checked"
        is "$(said "$work/no_words" | sed 's/count [0-9]* //;s/100 .*/100/')" "at seen 0 fault breakpoint 100" "what is said of $way, $1"
    done
}

echo varan-script 1 >"$work/no_words"
build $guests/cc $guests/heap.c
beside $guests/scripts/heap '3 seen 9'
build $guests/cc $guests/lines.c
beside $guests/scripts/lines '0 seen 37'
build $guests/cc $guests/threads.c $guests/thread.S
beside $guests/scripts/threads '0 seen 21'
for version in 1 3; do
    build $guests/cc $guests/service.c $guests/store_$version.c
    beside $guests/scripts/service '0 seen 18'
done
for version in "1 115" "3 115" "4 110"; do
    build $guests/cc -DVERSION=${version% *} $server/server.c
    beside $server/scripts/clients "0 seen ${version#* }"
done
# little memory, of which 32,768 freed bytes wait
CHECKED_MEMORY=1048576 build $guests/cc churn.c
beside "$work/no_words" '0 seen 2'

aborted $guests/cc

build $guests/cc -Wno-use-after-free errors.c
# picolibc's own accesses aren't looked into
is "$(errors number)" "$(expected number)" "errors.c over picolibc"

# an update of the server that reads a byte more than it has room for: each client gets what it should, and the line is named
sed 's/sizeof part))/sizeof part + 1))/' $server/server.c >"$work/off_by_one.c"
build $guests/cc -DVERSION=1 "$work/off_by_one.c"
"$program" run --script $server/scripts/clients "$work/plain" "$work/checked" >"$work/report"
is "$(sed -n '/^connections/,$p' "$work/report" | cmp - $server/expected/clients_1 && sed -n '/^fates/{n;s/led.*//p}' "$work/report")" "0 exited 0 seen 115 " "the update serves every client"
is "$(said $server/scripts/clients | head -n 2)" "stack-buffer-overflow: a write of 513 bytes, 0 past \`part\` of 512 bytes, line $(grep -n 'char part\[' $server/server.c | cut -d: -f1) of send_file
at      send_file at off_by_one.c:$(grep -n 'sizeof part' $server/server.c | cut -d: -f1)" "the update's error"

libc=$guests/libc
if [ -e $libc/out/checked/lib/libguest.a ]; then
    CHECKED_MEMORY=1048576 build $libc/cc -Os -g churn.c
    beside "$work/no_words" '0 seen 3'
    aborted $libc/cc -Os -g
    build $libc/cc -Os -g -w errors.c
    # musl's free breaks by itself at what isn't an object, and gives memory back
    is "$(errors freed twice inside)" "$(expected freed twice inside)" "errors.c over $libc"
else
    echo "check.sh: left out: guests with checks over the C library of examples/guests/libc, which isn't built (build.sh, by the network)"
fi
if [ -e ../strangers/out/checked/libmicrohttpd_debian_unfilled ]; then
    rows=$((rows + 1))
    ../strangers/checked_bugs.py --varan "$program" || wrong=$((wrong + 1))
else
    echo "check.sh: left out: the bugs of Debian's programs, which aren't built (examples/strangers/checked_bugs.sh, by the network)"
fi
echo "check.sh: $rows rows, $wrong wrong"
[ "$wrong" = 0 ]
