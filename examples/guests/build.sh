#!/usr/bin/env bash
# Builds the guests by the stock compiler and picolibc (Debian: gcc-riscv64-unknown-elf and picolibc-riscv64-unknown-elf), and says which of them
# the repository has otherwise. It changes nothing there.
# build.sh --write: puts them into built/, and their text into the rows of nv_rows.
# Status 1: a guest is otherwise. 2: other arguments. 3: the compiler or the library isn't on this machine.
set -eu
cd "$(dirname "$0")"
if [ "$*" != "" ] && [ "$*" != --write ]; then
    echo "build.sh: build.sh or build.sh --write" >&2
    exit 2
fi

made=$(mktemp -d)
trap 'rm -rf "$made"' EXIT

# build NAME SOURCE..: linked without line numbers (-s). A build that keeps them may be laid out otherwise: for addr2line and gdb take one by cc, and run that.
build() {
    local name=$1
    shift
    ./cc -s "$@" -o "$made/$name"
}

build heap heap.c
build lines lines.c
build threads threads.c thread.S
for version in 1 2 3; do
    build "service_$version" service.c "store_$version.c"
done

if [ "$*" = --write ]; then
    mkdir -p built
    cp "$made"/* built
    ./as_text.py >../../crates/nv_rows/data/built_guests
    exit
fi
status=0
for guest in "$made"/*; do
    cmp "$guest" "built/$(basename "$guest")" || status=1
done
exit $status
