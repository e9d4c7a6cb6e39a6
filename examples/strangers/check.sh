#!/usr/bin/env bash
# Runs what fetch_and_build.sh built: each version alone under varan and, by qemu, under Linux, where it has to write the same; and two versions
# beside one another, on the Lua programs of this folder and on the tests that come with bzip2's sources, whose results come with them.
# check.sh [PROGRAM]: crates/varan/out/varan where no program is named.
# Status: 0 where all is the same, 1 where something differs, 2 where the program isn't built, 3 where qemu, jq or the versions are missing.
set -eu
program=$(realpath -m "${1:-$(dirname "$0")/../../crates/varan/out/varan}")
cd "$(dirname "$0")"
here=$PWD
if [ ! -x "$program" ]; then
    echo "check.sh: $program isn't built: cd crates/varan && rt run -- run --script data/s data/v"
    exit 2
fi
for tool in qemu-riscv32 jq xxd; do
    command -v "$tool" >/dev/null || { echo "check.sh: $tool isn't on this machine"; exit 3; }
done
for version in lua_original lua_debian bzip2_original bzip2_debian; do
    [ -x "out/$version" ] || { echo "check.sh: out/$version isn't built: fetch_and_build.sh"; exit 3; }
done
samples=out/bzip2_original_source
work=$(mktemp -d)
trap 'rm -rf "$work"' EXIT
rows=0
wrong=0

# script INPUT WORD..: a script with this file on the input and these arguments.
script() {
    local input=$1
    shift
    echo "varan-script 1"
    printf 'arg %s\n' "$@"
    echo "input $(xxd -p -c 0 "$input")"
}

# console VERSION..: what the versions write, beside one another; how each ended goes to the file fates.
console() {
    "$program" run --json --memory 16777216 --budget 1000000000 --script "$work/script" "$@" >"$work/report" || true
    jq -r '[.fates[].fate] | join(" ")' "$work/report" >"$work/fates"
    jq -r .output "$work/report" | xxd -r -p
}

# tell TEXT: the files `expected` and `written` are the same.
tell() {
    rows=$((rows + 1))
    if ! cmp "$work/expected" "$work/written"; then
        echo "check.sh: other bytes: $1"
        wrong=$((wrong + 1))
    fi
}

# ended TEXT FATES: how the versions of the last run ended.
ended() {
    rows=$((rows + 1))
    if [ "$(cat "$work/fates")" != "$2" ]; then
        echo "check.sh: $(cat "$work/fates") in place of $2: $1"
        wrong=$((wrong + 1))
    fi
}

# as_linux NAME INPUT WORD..: both versions of it, each alone, write what they write under Linux, and end so. A fault of a load is SIGSEGV there,
# which a shell tells by the status 139.
as_linux() {
    local name=$1 input=$2 version status
    shift 2
    script "$input" "$@" >"$work/script"
    for version in "${name}_original" "${name}_debian"; do
        status=0
        { qemu-riscv32 -0 guest "out/$version" "$@" <"$input" >"$work/expected" 2>&1; } 2>/dev/null || status=$?
        console "out/$version" >"$work/written"
        jq '.fates[0] | if .fate == "exited" then .code elif .kind == "load" then 139 else .kind end' "$work/report" >"$work/fates"
        tell "$version $* < $input, alone"
        ended "$version $* < $input, alone" "$status"
    done
}

# beside NAME EXPECTED FATES INPUT WORD..: the original with Debian's beside it writes this file, and they end so.
beside() {
    local name=$1 expected=$2 fates=$3 input=$4
    shift 4
    script "$input" "$@" >"$work/script"
    console "out/${name}_original" "out/${name}_debian" >"$work/written"
    cp "$expected" "$work/expected"
    tell "$name $* < $input, both"
    ended "$name $* < $input, both" "$fates"
}

# packs: bzip2 makes the file of a script's file that it makes under Linux.
packs() {
    cp sample.lua "$work/text"
    (cd "$work" && qemu-riscv32 -0 guest "$here/out/bzip2_original" -k text)
    mv "$work/text.bz2" "$work/expected"
    printf 'varan-script 1\narg -k\narg text\nfile text %s\n' "$(xxd -p -c 0 sample.lua)" >"$work/script"
    console out/bzip2_original out/bzip2_debian >"$work/nothing"
    jq -r '.log[] | select(.nr == 64 and .args[0] > 2) | .payload' "$work/report" | xxd -r -p >"$work/written"
    tell "bzip2 -k text, both"
    ended "bzip2 -k text, both" "exited exited"
}

for text in sample constant behind; do
    as_linux lua "$text.lua" -
done
# The original leads, so what both write is what the original writes under Linux, and where it breaks what Debian's does.
for row in "sample original exited exited" "constant original exited refused" "behind debian fault exited"; do
    read -r text version first second <<<"$row"
    qemu-riscv32 -0 guest "out/lua_$version" - <"$text.lua" >"$work/linux"
    beside lua "$work/linux" "$first $second" "$text.lua" -
done
as_linux bzip2 sample.lua --version
qemu-riscv32 -0 guest out/bzip2_original --version <sample.lua >"$work/linux" 2>&1
beside bzip2 "$work/linux" "exited refused" sample.lua --version
as_linux bzip2 sample.lua -tv
packs
# The tests of bzip2's own Makefile.
for n in 1 2 3; do
    beside bzip2 "$samples/sample$n.bz2" "exited exited" "$samples/sample$n.ref" "-$n"
done
beside bzip2 "$samples/sample1.ref" "exited exited" "$samples/sample1.bz2" -d
beside bzip2 "$samples/sample2.ref" "exited exited" "$samples/sample2.bz2" -d
beside bzip2 "$samples/sample3.ref" "exited exited" "$samples/sample3.bz2" -ds

# the commands of README.md
rows=$((rows + 1))
../follow.py README.md "$program" || wrong=$((wrong + 1))

echo "check.sh: $rows comparisons, $wrong wrong"
[ "$wrong" = 0 ]
