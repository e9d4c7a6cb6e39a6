#!/usr/bin/env bash
# Rehearses the versions of the server in C on fifty transcripts, two of them damaged, and compares: as many are in step, refused and broken as the clients in them say.
# check.sh [PROGRAM]: crates/varan/out/varan where no program is named.
# It wants python3, GNU parallel and jq (Debian: python3, parallel, jq). Where one isn't there it is left out, and a line with `left out` tells it.
# Status: 0 where nothing differs, 1 where something does, 2 where the program isn't built.
set -eu
program=$(realpath -m "${1:-$(dirname "$0")/../../crates/varan/out/varan}")
cd "$(dirname "$0")"
server=../server
if [ ! -x "$program" ]; then
    echo "check.sh: $program isn't built: cd crates/varan && rt run -- run --script data/s data/v"
    exit 2
fi
work=$(mktemp -d)
trap 'rm -rf "$work"' EXIT
rows=0
wrong=0

# has TOOL: whether the tool is on this machine.
has() {
    if ! command -v "$1" >/dev/null; then
        echo "check.sh: left out: rehearsals, for want of $1 (Debian: $1)"
        return 1
    fi
}

# is FOUND WANTED WHAT
is() {
    rows=$((rows + 1))
    if [ "$1" != "$2" ]; then
        echo "check.sh: $1 in place of $2: $3"
        wrong=$((wrong + 1))
    fi
}

# rehearsed NAME VERSION TABLE [OPTION..]: the table of the rehearsal begins with these counts.
rehearsed() {
    local name=$1 version=$2 wanted=$3 status=0
    shift 3
    ./rehearse.py run -j 2 "$@" "$work/all" "$name" "$version" || status=$?
    is "$status" 0 "the status of $name"
    ./rehearse.py table "$work/all" "$name" >"$work/$name"
    is "$(head -n 1 "$work/$name")" "50 transcripts: $wanted, 2 damaged" "$name"
}

has python3 && has parallel && has jq || exit 0
./transcripts.py "$work/given" 50
for it in 00007 00031; do
    sed -i '$a data 0 zz' "$work/given/$it"
done
# a line that was cut off is no damage
printf 'data 0 4' >>"$work/given/00011"
# at client 6, which names no host, version 2 breaks, and version 4 answers otherwise
nameless=$(sed -n 's/^connect 8080 \(474554202f20485454502f312e300d0a0d0a\)$/\1/p' "$server/scripts/clients")
parting=$(grep -l " $nameless\$" "$work"/given/* | grep -cv '/\(00007\|00031\)$')
whole=$((48 - parting))

status=0
./rehearse.py traces -j 2 --program "$program" "$work/all" "$work/given" "$server/built/server_1" || status=$?
is "$status" 0 "the status of the traces"
is "$(ls "$work/all/traces" | wc -l)" 50 "how many traces there are"
rehearsed same "$server/built/server_1" "48 in step, 0 refused, 0 broken"
rehearsed update "$server/built/server_2" "$whole in step, 0 refused, $parting broken"
rehearsed patch "$server/built/server_3" "48 in step, 0 refused, 0 broken"
rehearsed strict "$server/built/server_4" "$whole in step, $parting refused, 0 broken"
"$program" rules --asm "$server/rules.txt" >"$work/rules"
rehearsed allowed "$server/built/server_4" "48 in step, 0 refused, 0 broken" --rules "$work/rules"

is "$(grep -c '^ *[0-9]* broken: fault load before openat$' "$work/update")" 1 "groups of the update"
is "$(sed -n 's/^ *\([0-9]*\) refused: write in place of openat$/\1/p' "$work/strict")" "$parting" "the group of the strict version"
is "$(grep -c '^ *log      openat(AT_FDCWD, "index.html", O_RDONLY) = 3$' "$work/strict")" 1 "the log's call"
is "$(grep -c '^ *version  write(65, "HTTP/1.0 400 Bad Request' "$work/strict")" 1 "the version's call"
is "$(./rehearse.py compare "$work/all" strict allowed)" "$parting of 50 transcripts end otherwise
$(printf %7d "$parting") mended: refused: write in place of openat -> in step ($(sed -n 's/^ *\([0-9]*\): replay refused .*/\1/p' "$work/strict"))" "the comparison"
is "$(./rehearse.py picture "$work/all" update | grep -c '>in step</text>')" 1 "the picture"

# with_checks: a patch that reads a byte more than it has room for, built with checks, on what came to the plain build: the clients of the one long page show it, as one
# group with the kind and the line.
with_checks() {
    local checks line broken status=0
    sed 's/sizeof part))/sizeof part + 1))/' "$server/server.c" >"$work/off_by_one.c"
    line=$(grep -n 'sizeof part + 1))' "$work/off_by_one.c" | cut -d: -f1)
    # GET /notes.txt
    broken=$(grep -l '^data . 474554202f6e6f7465732e747874' "$work"/given/* | grep -cv '/\(00007\|00031\)$')
    for checks in "" --checked; do
        ../guests/cc $checks -DVERSION=1 "$work/off_by_one.c" -o "$work/off_by_one$checks"
    done
    ./rehearse.py traces -j 2 --program "$program" "$work/patched" "$work/given" "$work/off_by_one" || status=$?
    is "$status" 0 "the status of the patch's traces"
    ./rehearse.py run -j 2 "$work/patched" checked "$work/off_by_one--checked" || status=$?
    is "$status" 0 "the status of the rehearsal with checks"
    ./rehearse.py table "$work/patched" checked >"$work/checked"
    is "$(head -n 1 "$work/checked")" "50 transcripts: $((48 - broken)) in step, 0 refused, $broken broken, 2 damaged" "the rehearsal with checks"
    is "$(grep -A 2 broken: "$work/checked")" "$(printf '%7d broken: fault breakpoint' "$broken")
        stack-buffer-overflow: a write of 513 bytes, 0 past \`part\` of 512 bytes, line $(grep -n 'char part\[' "$work/off_by_one.c" | cut -d: -f1) of send_file
        at      send_file at off_by_one.c:$line" "the group of what was found"
}
if command -v riscv64-unknown-elf-gcc >/dev/null; then
    with_checks
else
    echo "check.sh: left out: a rehearsal with checks, for want of riscv64-unknown-elf-gcc (Debian: gcc-riscv64-unknown-elf)"
fi

# what is done isn't done again; what is lacking is
cp "$work/all/update/joblog" "$work/joblog"
./rehearse.py run -j 2 "$work/all" update "$server/built/server_2"
is "$(wc -l <"$work/all/update/joblog")" "$(wc -l <"$work/joblog")" "a rehearsal that is begun anew"

echo "check.sh: $rows rows, $wrong wrong"
[ "$wrong" = 0 ]
